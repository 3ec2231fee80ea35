//! The bytes of static advertisements.

use crate::ears::Ears;
use crate::fixture::{ask, ears, silent};
use ipx_static::WithStatics;
use std::test::Fail;

/// A RIP response and a SAP response from node 0000c6336407 of the local network to all nodes.
const ROUTE: &str =
    "ffff0028000100000000ffffffffffff0453000000000000c633640704530002000000aa00010006";

const SERVICE_HEAD: &str =
    "ffff0060000400000000ffffffffffff0452000000000000c63364070452000206404241434b5550";

const SERVICE_END: &str = "0000001100000a01001440020001";

#[test]
fn a_route_and_a_service(rt: HostRuntime) -> Result<(), Fail> {
    let alloc = rt.alloc();
    let mut core = ears(alloc, 1, 1, None)?;
    assert!(rt; ask(alloc, &mut core, 5)? == None);
    let zeros = "00".repeat(alloc, 42)?;
    let wanted = format!(in alloc; "0 5 {ROUTE}\n0 5 {SERVICE_HEAD}{zeros}{SERVICE_END}\n")?;
    assert_eq!(rt; core.core().text(alloc)?.as_str(), wanted.as_str());
    assert_eq!(rt; core.core().asked, 1);
    Ok(())
}

/// 50 routes are one packet, and 7 services are one; one more makes another packet.
#[test]
fn cut_at_50_and_7(rt: HostRuntime) -> Result<(), Fail> {
    let alloc = rt.alloc();
    let mut core = ears(alloc, 50, 7, None)?;
    ask(alloc, &mut core, 0)?;
    assert_eq!(rt; core.core().sizes(alloc)?.as_str(), "0:432 0:480 ");
    let mut more = ears(alloc, 51, 8, None)?;
    ask(alloc, &mut more, 0)?;
    assert_eq!(rt;
        more.core().sizes(alloc)?.as_str(),
        "0:432 0:40 0:480 0:96 "
    );
    Ok(())
}

/// A neighbour without entries sends nothing, and each neighbour's packets are received on its own
/// port, in order.
#[test]
fn each_on_its_port(rt: HostRuntime) -> Result<(), Fail> {
    let alloc = rt.alloc();
    let neighbours = [
        silent(alloc, 2, 1, 0)?,
        silent(alloc, 1, 0, 0)?,
        silent(alloc, 1, 0, 1)?,
    ];
    let mut core = WithStatics::new(alloc, Ears::new(alloc, None), &neighbours)?;
    ask(alloc, &mut core, 0)?;
    let heard = &core.core().heard;
    assert_eq!(rt; heard.len(), 2);
    assert_eq!(rt; heard[0].port, 1);
    assert_eq!(rt; heard[1].port, 0);
    Ok(())
}
