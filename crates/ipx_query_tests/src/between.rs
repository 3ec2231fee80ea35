//! A host that asks, next to a router that answers: which networks it advertises, and a listener
//! beyond it.
//!
//! The nodes are 00007f0000xx. The host is 9 on network 11. The router is 1 there and 4 on network
//! 22, where the listener is 7, at socket 4000.

ghost use Rattle.std.specs.Prelude.{◌≡◌};

use crate::fixture::{FIRST, OWN};
use ipx_carrier::{Core, HostCore, RouterCore};
use ipx_query::{PingCore, QueryCore, TableQuery};
use ipx_router::{Port, Router};
use ipx_tables::{RouteMetric, Source};
use ipx_wire::{Address, Network, Node, OutOfMemory, Socket};
use spx_messages::Endpoint;
use std::alloc::Global;
use std::test::Fail;

const AFTER: Node = Node([0, 0, 0x7f, 0, 0, 4]);

const LISTENER: Address = Address {
    network: Network(0x22),
    node: Node([0, 0, 0x7f, 0, 0, 7]),
    socket: Socket(0x4000),
};

fn port(network: u32, node: Node) -> Port
    ensures { result.network.0 ≡ network }
{
    Port {
        network: Network(network),
        node,
        cost: 1,
    }
}

/// The router between both networks.
fn router(alloc: Global) -> Result<RouterCore, OutOfMemory> {
    let ports = vec![in alloc; port(0x11, FIRST), port(0x22, AFTER)]?;
    let Ok(router) = Router::new(alloc, ports) else {
        return Err(OutOfMemory);
    };
    Ok(RouterCore::new(alloc, router))
}

/// What a core gives to a node at a given time, within 16 packets, or no bytes.
fn given_to<C: Core>(
    alloc: Global,
    core: &mut C,
    wanted: Node,
    now: u64,
) -> Result<Vec<u8>, OutOfMemory> {
    let mut room = [0; 1536];
    for _packet in 0..16 {
        let Some((_, node, count)) = core.next(alloc, now, &mut room)? else {
            break;
        };
        if node == wanted {
            return Ok(room[..count].to_vec(alloc)?);
        }
    }
    Ok(Vec::new(alloc))
}

/// The router advertises the network beyond it, by one router and one tick.
#[test]
fn a_router_is_asked(rt: HostRuntime) -> Result<(), Fail> {
    let alloc = rt.alloc();
    let mut router = router(alloc)?;
    let mut host = QueryCore::new(alloc, OWN, TableQuery::Networks, &[FIRST])?;
    let query = given_to(alloc, &mut host, FIRST, 0)?;
    router.hear(alloc, 0, &query, 0)?;
    let answer = given_to(alloc, &mut router, OWN.node, 0)?;
    host.hear(alloc, 0, &answer, 1)?;
    let source = Source {
        port: 1,
        neighbour: FIRST,
    };
    let metric = RouteMetric { ticks: 1, hops: 1 };
    let listed = host.networks(alloc, 1)?;
    assert_eq!(rt;
        listed.as_slice(),
        [(Network(0x22), source, metric)].as_slice()
    );
    assert_eq!(rt; host.status(), 0);
    assert!(rt; host.is_done(201));
    Ok(())
}

/// Each ping passes one router, there and back. All use one connection slot of the listener.
#[test]
fn a_listener_is_pinged(rt: HostRuntime) -> Result<(), Fail> {
    let alloc = rt.alloc();
    let mut router = router(alloc)?;
    let mut endpoint = Endpoint::new(alloc, LISTENER.network, LISTENER.node, AFTER);
    endpoint.listen(alloc, LISTENER.socket, 8)?;
    let mut listener = HostCore::new(endpoint);
    let mut host = PingCore::new(OWN, FIRST, LISTENER, 0x0102, 3);
    for round in 0..3 {
        let now = 1000 * round;
        let request = given_to(alloc, &mut host, FIRST, now)?;
        router.hear(alloc, 0, &request, now)?;
        let carried = given_to(alloc, &mut router, LISTENER.node, now)?;
        listener.hear(alloc, 0, &carried, now)?;
        let reply = given_to(alloc, &mut listener, AFTER, now)?;
        router.hear(alloc, 1, &reply, now)?;
        let answer = given_to(alloc, &mut router, OWN.node, now)?;
        host.hear(alloc, 0, &answer, now)?;
        assert_eq!(rt; host.answered(), round + 1);
        assert_eq!(rt; host.answer(), Some(1));
    }
    assert!(rt; host.is_done(2000));
    assert_eq!(rt; host.status(), 0);
    assert!(rt; listener.as_endpoint().state(1).is_ok());
    assert!(rt; listener.as_endpoint().state(2).is_err());
    Ok(())
}
