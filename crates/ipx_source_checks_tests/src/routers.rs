//! Two routers on network 22, and a host on network 11 that forges routes in the name of the first
//! router.

ghost use Rattle.std.specs.Prelude.{◌≡◌};

use crate::packets::bytes_of;
use ipx_carrier::Core;
use ipx_metrics::MeteredRouter;
use ipx_router::{Outcome, Port, Router};
use ipx_source_checks::{CheckedPort, SourceChecked};
use ipx_wire::{Network, Node, OutOfMemory};
use std::alloc::Global;
use std::test::Fail;

const TOLD: &str =
    "ffff00280001 00000022ffffffffffff0453 0000002200007f0000020453 0002000000440001 0002";

/// What the host sends, in the name of the first router on network 22.
const FORGED: &str =
    "ffff00280001 00000022ffffffffffff0453 0000002200007f0000020453 0002000000440010 0010";

/// A route in the name of every node of network 22.
const OF_EVERY_NODE: &str =
    "ffff00280001 00000022ffffffffffff0453 00000022ffffffffffff0453 0002000000440001 0002";

fn port(network: u32, last: u8) -> Port
    ensures { result.network.0 ≡ network }
{
    Port {
        network: Network(network),
        node: Node([0, 0, 0x7f, 0, 0, last]),
        cost: 1,
    }
}

/// The same as an Ethernet port, for source checks.
fn checked_port(network: u32, last: u8) -> CheckedPort {
    CheckedPort {
        port: port(network, last),
        ethernet: true,
    }
}

/// The first router, with ports on networks 11 and 22.
fn first(alloc: Global) -> Result<Router, OutOfMemory> {
    match Router::new(alloc, vec![in alloc; port(0x11, 1), port(0x22, 2)]?) {
        Ok(router) => Ok(router),
        Err(_) => Err(OutOfMemory),
    }
}

/// The second one, with a port on network 22.
fn second(alloc: Global) -> Result<MeteredRouter, OutOfMemory> {
    match Router::new(alloc, vec![in alloc; port(0x22, 3)]?) {
        Ok(router) => Ok(MeteredRouter::new(alloc, router)?),
        Err(_) => Err(OutOfMemory),
    }
}

/// Whether a router knows a route to network 44.
fn knows(router: &MeteredRouter) -> bool {
    router.router().routes().best(&Network(0x44), 0).is_some()
}

/// The forged packet as the first router forwards it to network 22.
fn forwarded(alloc: Global) -> Result<Vec<u8>, Fail> {
    let mut first = first(alloc)?;
    match first.receive(alloc, 1, &bytes_of(alloc, FORGED)?, 0)? {
        Outcome::Forward(reply) => Ok(reply.bytes),
        _ => Err(OutOfMemory.into()),
    }
}

/// Without checks the second router loses the route; with them it keeps it.
#[test]
fn a_forged_route_takes_nothing(rt: HostRuntime) -> Result<(), Fail> {
    let alloc = rt.alloc();
    let told = bytes_of(alloc, TOLD)?;
    let forged = forwarded(alloc)?;
    let mut unchecked = second(alloc)?;
    unchecked.hear(alloc, 0, &told, 0)?;
    assert!(rt; knows(&unchecked));
    unchecked.hear(alloc, 0, &forged, 0)?;
    assert!(rt; !knows(&unchecked));
    let mut checked = SourceChecked::new(second(alloc)?, vec![in alloc; checked_port(0x22, 3)]?);
    checked.hear(alloc, 0, &told, 0)?;
    checked.hear(alloc, 0, &forged, 0)?;
    assert!(rt; knows(checked.core()));
    assert_eq!(rt; checked.drops().forwarded_control.count, 1);
    Ok(())
}

/// Without checks the second router takes node ffffffffffff for a neighbour, and its packets for
/// network 44 go to all nodes.
#[test]
fn a_route_of_every_node_is_not_learned(rt: HostRuntime) -> Result<(), Fail> {
    let alloc = rt.alloc();
    let told = bytes_of(alloc, OF_EVERY_NODE)?;
    let mut unchecked = second(alloc)?;
    unchecked.hear(alloc, 0, &told, 0)?;
    assert!(rt; knows(&unchecked));
    let mut checked = SourceChecked::new(second(alloc)?, vec![in alloc; checked_port(0x22, 3)]?);
    checked.hear(alloc, 0, &told, 0)?;
    assert!(rt; !knows(checked.core()));
    assert_eq!(rt; checked.drops().group_source.count, 1);
    Ok(())
}

/// A first router that checks sources does not even forward it.
#[test]
fn a_router_forwards_no_looped_source(rt: HostRuntime) -> Result<(), Fail> {
    let alloc = rt.alloc();
    let ports = vec![in alloc; checked_port(0x11, 1), checked_port(0x22, 2)]?;
    let mut checked = SourceChecked::new(MeteredRouter::new(alloc, first(alloc)?)?, ports);
    checked.hear(alloc, 0, &bytes_of(alloc, FORGED)?, 0)?;
    assert_eq!(rt; checked.core().outcomes().forwarded, 0);
    assert_eq!(rt; checked.drops().looped_source.count, 1);
    Ok(())
}
