//! Worked cases of services, with literal bytes.

use crate::fixture::{answer, hears, lengths, replies_to, three_ports};
use ipx_control::ControlFault;
use ipx_router::{Outcome, Reason, Router};
use std::alloc::{AllocError, Global};
use std::process::Abort;
use std::test::Fail;

/// The 47 bytes of a name after its first letter.
const ZEROS: &str = "\
0000000000000000000000000000000000000000000000000000000000000000000000000000000000000000000000";

/// A SAP response on port 2 with so many services of kind 0004, all at 00000044 000000000001 0451.
/// Each name is one letter, from `first` on, followed by zeros.
pub fn services(alloc: Global, first: u8, count: u8, hops: u8) -> Result<String, AllocError> {
    let length = hex::encode(alloc, (32 + 64 * count as u16).to_be_bytes())?;
    let mut text = format!(in alloc;
        "ffff{length}000400000022ffffffffffff04520000002200007f00000904520002"
    )?;
    for i in 0..count {
        text.push_str(&service(alloc, first.wrapping_add(i), hops)?)?;
    }
    Ok(text)
}

/// One service of such a response.
fn service(alloc: Global, letter: u8, hops: u8) -> Result<String, AllocError> {
    let letter = hex::encode(alloc, [letter])?;
    let hops = hex::encode(alloc, [0, hops])?;
    let text = format!(in alloc; "0004{letter}{ZEROS}000000440000000000010451{hops}")?;
    Ok(text)
}

/// A query from socket 4001 of node 00007f000003, on the network of a port.
pub fn query(alloc: Global, network: u8, operation: u8, kind: &str) -> Result<String, AllocError> {
    let network = hex::encode(alloc, [0, 0, 0, network])?;
    let operation = hex::encode(alloc, [0, operation])?;
    let text = format!(in alloc;
        "ffff00220004{network}ffffffffffff0452{network}00007f0000034001{operation}{kind}"
    )?;
    Ok(text)
}

/// Whether a query for the nearest on a port is answered by no packet.
fn is_silent(
    alloc: Global,
    router: &mut Router,
    network: u8,
    number: u8,
    kind: &str,
) -> Result<bool, Fail> {
    let text = query(alloc, network, 3, kind)?;
    Ok(lengths(alloc, router, number, &text)?.is_empty())
}

/// Of two services that are equally near, the one with the lower name.
const NEAREST: &str = "\
1 00007f000003 ffff006000040000001100007f00000340010000001100007f0000010452\
000400044100\
00000000000000000000000000000000000000000000000000000000000000000000000000000000000000000000\
0000004400000000000104510003\n";

#[test]
fn service_rows(rt: HostRuntime) -> Result<(), Fail> {
    let alloc = rt.alloc();
    let mut router = three_ports(alloc)?;
    let general = query(alloc, 0x11, 1, "ffff")?;
    assert!(rt; lengths(alloc, &mut router, 1, &general)?.is_empty());
    for letter in [b'B', b'A'] {
        assert!(rt; hears(alloc, &mut router, &services(alloc, letter, 1, 2)?, 1)?);
    }
    nearest_rows(&rt, alloc, &mut router)?;
    general_rows(&rt, alloc, &mut router, &general)
}

fn nearest_rows(rt: &impl Abort, alloc: Global, router: &mut Router) -> Result<(), Fail> {
    let nearest = replies_to(alloc, router, 1, &query(alloc, 0x11, 3, "0004")?)?;
    assert_eq!(rt; nearest.as_str(), NEAREST);
    assert!(rt; is_silent(alloc, router, 0x22, 2, "0004")?);
    assert!(rt; is_silent(alloc, router, 0x11, 1, "0007")?);
    Ok(())
}

fn general_rows(
    rt: &impl Abort,
    alloc: Global,
    router: &mut Router,
    general: &str,
) -> Result<(), Fail> {
    assert!(rt; hears(alloc, router, &services(alloc, b'C', 6, 2)?, 6)?);
    assert_eq!(rt;
        lengths(alloc, router, 1, general)?.as_slice(),
        [480, 96].as_slice()
    );
    let refused = answer(alloc, router, 2, &services(alloc, b'A', 8, 2)?, 0)?;
    assert!(rt;
        matches!(
            refused,
            Outcome::Dropped(Reason::BadControl(ControlFault::TooManyEntries(8)))
        )
    );
    Ok(())
}

#[test]
fn farthest_service(rt: HostRuntime) -> Result<(), Fail> {
    let alloc = rt.alloc();
    let mut router = three_ports(alloc)?;
    answer(alloc, &mut router, 2, &services(alloc, b'A', 1, 15)?, 0)?;
    let told = replies_to(alloc, &mut router, 1, &query(alloc, 0x11, 1, "0004")?)?;
    assert!(rt; told.ends_with("0000004400000000000104510010\n"));
    assert!(rt; is_silent(alloc, &mut router, 0x11, 1, "0004")?);
    Ok(())
}
