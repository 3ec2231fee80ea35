//! A router that has nothing to send needs no memory. Run these tests with each request for memory
//! refused.

use crate::fixture::port;
use crate::refused::{answer_at_last, ports_at_last, services_at_last};
use ipx_router::{NewFault, Outcome, Router};
use std::alloc::Global;
use std::test::Fail;

/// A request for routes without entries, on port 1.
const NO_NETWORKS: &str = "ffff0020000100000011ffffffffffff04530000001100007f00000304530001";

/// Queries on port 1 for all services of type 9, and for the nearest.
const ALL_OF_TYPE_9: &str = "ffff0022000400000011ffffffffffff04520000001100007f000003400100010009";

const NEAREST_OF_TYPE_9: &str =
    "ffff0022000400000011ffffffffffff04520000001100007f000003400100030009";

/// A packet in hex as bytes. If memory is refused, it is tried again.
pub fn bytes_at_last(alloc: Global, text: &str) -> Result<Vec<u8>, Fail> {
    match hex::decode(alloc, text.as_bytes()) {
        Ok(bytes) => Ok(bytes),
        Err(_) => Ok(hex::decode(alloc, text.as_bytes())?),
    }
}

/// Whether no packet answers what comes in on port 1. It is tried only once.
fn is_answered_by_none(alloc: Global, router: &mut Router, text: &str) -> Result<bool, Fail> {
    let bytes = bytes_at_last(alloc, text)?;
    if router.ports().is_empty() {
        return Ok(false);
    }
    let outcome = router.receive(alloc, 1, &bytes, 0)?;
    Ok(matches!(&outcome, Outcome::Replies(replies) if replies.is_empty()))
}

#[test]
fn refused_memory_where_nothing_is_asked(rt: HostRuntime) -> Result<(), Fail> {
    let alloc = rt.alloc();
    let mut router = ports_at_last(alloc)?;
    let six = services_at_last(alloc, b'A', 6)?;
    let heard = answer_at_last(alloc, &mut router, 2, &six)?;
    assert!(rt; matches!(heard, Outcome::Heard(6)));
    for text in [NO_NETWORKS, ALL_OF_TYPE_9, NEAREST_OF_TYPE_9] {
        assert!(rt; is_answered_by_none(alloc, &mut router, text)?);
    }
    Ok(())
}

/// A response of networks 44 and 55, of 1 and 2 hops, from node 00007f000009 of network 22.
const NETWORKS_44_AND_55: &str =
    "ffff0030000100000022ffffffffffff04530000002200007f0000090453000200000044000100030000005500020004";

/// Whether both networks are learned on port 2 again. It is tried only once.
fn are_heard_again(alloc: Global, router: &mut Router, now: u64) -> Result<bool, Fail> {
    let bytes = bytes_at_last(alloc, NETWORKS_44_AND_55)?;
    if router.ports().len() < 2 {
        return Ok(false);
    }
    let outcome = router.receive(alloc, 2, &bytes, now)?;
    Ok(matches!(outcome, Outcome::Heard(2)))
}

#[test]
fn refused_memory_where_no_table_grows(rt: HostRuntime) -> Result<(), Fail> {
    let alloc = rt.alloc();
    let mut router = ports_at_last(alloc)?;
    let heard = answer_at_last(alloc, &mut router, 2, NETWORKS_44_AND_55)?;
    assert!(rt; matches!(heard, Outcome::Heard(2)));
    assert!(rt; are_heard_again(alloc, &mut router, 0)?);
    assert!(rt; are_heard_again(alloc, &mut router, 60_000)?);
    Ok(())
}

fn one_port(alloc: Global) -> Result<Router, NewFault> {
    let Ok(ports) = vec![in alloc; port(0x11, 1, 1)] else {
        return Err(NewFault::OutOfMemory);
    };
    Router::new(alloc, ports)
}

/// The router of one port. If memory is refused, it is tried again.
fn one_port_at_last(alloc: Global) -> Result<Router, NewFault> {
    match one_port(alloc) {
        Ok(router) => Ok(router),
        Err(_) => one_port(alloc),
    }
}

#[test]
fn refused_memory_on_a_lone_port(rt: HostRuntime) -> Result<(), Fail> {
    let alloc = rt.alloc();
    let mut router = one_port_at_last(alloc)?;
    assert!(rt; router.tell(alloc, 0)?.is_empty());
    assert!(rt; router.tell(alloc, 60_000)?.is_empty());
    Ok(())
}
