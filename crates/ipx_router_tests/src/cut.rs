//! What a router answers to a datagram of which only the first bytes were received.

use crate::fixture::{answer, three_ports};
use ipx_router::{Outcome, Reason};
use ipx_wire::IpxFault;
use std::alloc::{AllocError, Global};
use std::process::Abort;
use std::test::Fail;

/// The beginning of a packet of 1,600 bytes, for node 00007f000005 of network 22, in hex.
const HEADER: &str = "ffff064000000000002200007f00000540000000001100007f0000034001";

/// So many bytes of that packet, in hex. Its data is zero.
fn first_bytes(alloc: Global, count: u16) -> Result<String, AllocError> {
    let mut text = String::from_str(alloc, HEADER)?;
    for _ in 30..count {
        text.push_str("00")?;
    }
    Ok(text)
}

#[test]
fn device_rows_of_a_cut_datagram(rt: HostRuntime) -> Result<(), Fail> {
    let alloc = rt.alloc();
    let mut router = three_ports(alloc)?;
    let received = first_bytes(alloc, 1536)?;
    let cut = answer(alloc, &mut router, 1, &received, 0)?;
    assert!(rt;
        matches!(
            cut,
            Outcome::Dropped(Reason::Bad(IpxFault::Truncated(1600, 1536)))
        )
    );
    Ok(())
}
