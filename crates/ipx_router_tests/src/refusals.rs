//! What a router knows if memory runs out during a response.

use crate::fixture::{answer, port};
use crate::refused::answer_at_last;
use ipx_router::{NewFault, Outcome, Reason, Router};
use ipx_wire::Network;
use std::alloc::Global;
use std::process::Abort;
use std::test::Fail;

/// Networks 55 and 44, each 1 hop and 1 tick, from node 00007f000003 of network 11.
const TWO_NETWORKS: &str = "ffff0030000100000011ffffffffffff04530000001100007f00000304530002\
    00000055000100010000004400010001";

/// A packet from network 22 to network 55, the first of the two.
const TO_NETWORK_55: &str = "ffff001e00000000005500007f00000540000000002200007f0000034001";

/// A packet from network 22 to network 44, the last of the two.
const TO_NETWORK_44: &str = "ffff001e00000000004400007f00000540000000002200007f0000034001";

/// The router with ports on networks 11 and 22.
fn two_ports(alloc: Global) -> Result<Router, NewFault> {
    let Ok(ports) = vec![in alloc; port(0x11, 1, 1), port(0x22, 2, 1)] else {
        return Err(NewFault::OutOfMemory);
    };
    Router::new(alloc, ports)
}

/// The same. If memory is refused, it is tried again.
fn two_ports_at_last(alloc: Global) -> Result<Router, NewFault> {
    match two_ports(alloc) {
        Ok(router) => Ok(router),
        Err(_) => two_ports(alloc),
    }
}

/// If memory is refused, the last entry was not learned. The response is learned completely when it
/// comes again. Run this with each request refused.
#[test]
fn refused_memory_of_two_networks(rt: HostRuntime) -> Result<(), Fail> {
    let alloc = rt.alloc();
    let mut router = two_ports_at_last(alloc)?;
    match answer(alloc, &mut router, 1, TWO_NETWORKS, 0) {
        Ok(heard) => assert!(rt; matches!(heard, Outcome::Heard(2))),
        Err(_) => is_heard_again(&rt, alloc, &mut router)?,
    }
    for text in [TO_NETWORK_55, TO_NETWORK_44] {
        let onward = answer_at_last(alloc, &mut router, 2, text)?;
        assert!(rt; matches!(onward, Outcome::Forward(_)));
    }
    Ok(())
}

/// The last entry was not learned. The first one was, or memory was refused for it.
fn is_heard_again(rt: &impl Abort, alloc: Global, router: &mut Router) -> Result<(), Fail> {
    let last = answer(alloc, router, 2, TO_NETWORK_44, 0)?;
    assert!(rt; matches!(last, Outcome::Dropped(Reason::NoRoute(Network(0x44)))));
    match answer(alloc, router, 2, TO_NETWORK_55, 0)? {
        Outcome::Forward(_) => {}
        first => assert!(rt; matches!(first, Outcome::Dropped(Reason::NoRoute(Network(0x55))))),
    }
    let heard = answer(alloc, router, 1, TWO_NETWORKS, 0)?;
    assert!(rt; matches!(heard, Outcome::Heard(2)));
    Ok(())
}
