//! What a neighbour knows after it received what a router takes back.

use crate::fixture::farewell;
use ipx_router::{Outcome, Port, Router};
use ipx_wire::{Network, Node};
use std::alloc::Global;
use std::test::Fail;

/// What the router of the tests advertises at its port 2: networks 11, 33 and AA, and a service.
const ROUTES: &str = "ffff0038000100000022ffffffffffff04530000002200007f0000020453\
    0002\
    0000001100010002\
    0000003300010002\
    000000aa00030007";

const SERVICES: &str = "ffff0060000400000022ffffffffffff04520000002200007f0000020452\
    0002\
    00044100000000000000000000000000000000000000000000000000000000000000000000000000000000000000000000\
    00000000aa00000000000104510003";

/// Another router there advertises network AA.
const ANOTHER: &str = "ffff0028000100000022ffffffffffff04530000002200007f0000080453\
    0002\
    000000aa00040009";

fn neighbour(alloc: Global) -> Result<Router, Fail> {
    let near = Port {
        network: Network(0x22),
        node: Node([0, 0, 0x7f, 0, 0, 9]),
        cost: 1,
    };
    let far = Port {
        network: Network(0x44),
        node: Node([0, 0, 0x7f, 0, 0, 0x19]),
        cost: 1,
    };
    Ok(Router::new(alloc, vec![in alloc; near, far]?)?)
}

/// The entries that were learned of bytes in hex.
fn hear(alloc: Global, router: &mut Router, text: &str, now: u64) -> Result<u16, Fail> {
    let bytes = hex::decode(alloc, text.as_bytes())?;
    match router.receive(alloc, 1, &bytes, now)? {
        Outcome::Heard(count) => Ok(count),
        _ => Ok(0),
    }
}

/// How many networks and services it knows.
fn known(alloc: Global, router: &Router, now: u64) -> Result<(usize, usize), Fail> {
    let routes = router.routes().list(alloc, now)?;
    let services = router.services().list(alloc, now)?;
    Ok((routes.len(), services.len()))
}

/// All that was advertised is gone. The other router's route stays.
#[test]
fn nothing_is_left(rt: HostRuntime) -> Result<(), Fail> {
    let alloc = rt.alloc();
    let mut router = neighbour(alloc)?;
    assert_eq!(rt; hear(alloc, &mut router, ROUTES, 1_000)?, 3);
    assert_eq!(rt; hear(alloc, &mut router, SERVICES, 1_000)?, 1);
    assert!(rt; known(alloc, &router, 1_000)? == (3, 1));
    for packet in &farewell(alloc, 2)? {
        router.receive(alloc, 1, &packet.bytes, 2_000)?;
    }
    assert!(rt; known(alloc, &router, 2_000)? == (0, 0));
    assert_eq!(rt; hear(alloc, &mut router, ROUTES, 3_000)?, 3);
    assert!(rt; known(alloc, &router, 3_000)? == (3, 0));
    Ok(())
}

#[test]
fn what_another_advertises_stays(rt: HostRuntime) -> Result<(), Fail> {
    let alloc = rt.alloc();
    let mut router = neighbour(alloc)?;
    assert_eq!(rt; hear(alloc, &mut router, ROUTES, 1_000)?, 3);
    assert_eq!(rt; hear(alloc, &mut router, ANOTHER, 1_000)?, 1);
    for packet in &farewell(alloc, 2)? {
        router.receive(alloc, 1, &packet.bytes, 2_000)?;
    }
    assert!(rt; known(alloc, &router, 2_000)? == (1, 0));
    Ok(())
}
