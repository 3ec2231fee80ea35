//! A server at a port of a router: to another network and back, and requests for routes.

use crate::fixture::{CAME, FIRST_NODE, PORT, first_place, packet, packet_for, register_all};
use ipx_router::{Outcome, Port, Reason, Router};
use ipx_wire::{Network, Node};
use ipxnet_server::{Disposition, IpxnetServer, Recipients, ServerDrop};
use std::alloc::Global;
use std::test::Fail;

/// A node of the other network.
const FAR: Node = Node([0, 0, 0x7f, 0, 0, 5]);

/// A packet from there to the first player.
const BACK: [u8; 30] = [
    0xff, 0xff, 0, 0x1e, 0, 4, 0, 0, 0xd0, 0x5b, 2, 0x7c, 0x63, 0xc8, 0xd4, 0xdf, 0x40, 1, 0, 0, 0,
    0x99, 0, 0, 0x7f, 0, 0, 5, 0x40, 1,
];

/// A request for the route to network 99.
const ASKS: [u8; 40] = [
    0xff, 0xff, 0, 0x28, 0, 1, 0, 0, 0, 0, 0xff, 0xff, 0xff, 0xff, 0xff, 0xff, 4, 0x53, 0, 0, 0xd0,
    0x5b, 2, 0x7c, 0x63, 0xc8, 0xd4, 0xdf, 4, 0x53, 0, 1, 0, 0, 0, 0x99, 0xff, 0xff, 0xff, 0xff,
];

/// A router with the server at its first port, and network 99 at its second.
fn router(alloc: Global) -> Result<Router, Fail> {
    let mut ports = Vec::new(alloc);
    ports.push(Port {
        network: PORT.network,
        node: PORT.own,
        cost: 1,
    })?;
    ports.push(Port {
        network: Network(0x99),
        node: Node([0, 0, 0x7f, 0, 0, 1]),
        cost: 1,
    })?;
    Ok(Router::new(alloc, ports)?)
}

/// To another network with source network 0: one hop more, and from the network of the port.
#[test]
fn to_another_network(rt: HostRuntime) -> Result<(), Fail> {
    let mut server = IpxnetServer::new(rt.alloc(), PORT, 64)?;
    register_all(&mut server);
    let mut router = router(rt.alloc())?;
    let mut bytes = packet(FAR, 0x4001, FIRST_NODE);
    bytes[9] = 0x99;
    assert_eq!(rt; server.hear(first_place(), &bytes, 0), Disposition::ToCore);
    let Outcome::Forward(reply) = router.receive(rt.alloc(), 1, &bytes, 0)? else {
        return Err(Fail::from(ServerDrop::Unregistered));
    };
    assert_eq!(rt; (reply.port, reply.next), (2, FAR));
    bytes[4] = 1;
    bytes[18..22].copy_from_slice(&[0, 0, 0xd0, 0x5b]);
    assert_eq!(rt; reply.bytes.as_slice(), bytes.as_slice());
    Ok(())
}

/// Type 20 is sent to no other network: the router drops it, as on any port.
#[test]
fn netbios_to_another_network(rt: HostRuntime) -> Result<(), Fail> {
    let mut server = IpxnetServer::new(rt.alloc(), PORT, 64)?;
    register_all(&mut server);
    let mut router = router(rt.alloc())?;
    let mut bytes = packet_for(0x99, FAR, 0x455, FIRST_NODE);
    bytes[5] = 20;
    assert_eq!(rt; server.hear(first_place(), &bytes, 0), Disposition::ToCore);
    let outcome = router.receive(rt.alloc(), 1, &bytes, 0)?;
    assert!(rt; matches!(outcome, Outcome::Dropped(Reason::Propagated)));
    Ok(())
}

/// And back: to the player with that node.
#[test]
fn from_another_network(rt: HostRuntime) -> Result<(), Fail> {
    let mut server = IpxnetServer::new(rt.alloc(), PORT, 64)?;
    register_all(&mut server);
    let mut router = router(rt.alloc())?;
    let Outcome::Forward(reply) = router.receive(rt.alloc(), 2, &BACK, 0)? else {
        return Err(Fail::from(ServerDrop::Unregistered));
    };
    assert_eq!(rt; reply.port, 1);
    assert_eq!(rt;
        server.give(reply.next, &reply.bytes, 0),
        Ok(Recipients::One(first_place()))
    );
    Ok(())
}

/// A program that asks for a route is answered at its node.
#[test]
fn a_route_is_asked(rt: HostRuntime) -> Result<(), Fail> {
    let mut server = IpxnetServer::new(rt.alloc(), PORT, 64)?;
    register_all(&mut server);
    let mut router = router(rt.alloc())?;
    assert_eq!(rt;
        server.hear(first_place(), &ASKS, 0),
        Disposition::ToOthersAndCore(first_place())
    );
    let Outcome::Replies(replies) = router.receive(rt.alloc(), 1, &ASKS, 0)? else {
        return Err(Fail::from(ServerDrop::Unregistered));
    };
    assert_eq!(rt; replies.len(), 1);
    assert_eq!(rt; replies[0].port, 1);
    let node = replies[0].next;
    assert_eq!(rt;
        server.give(node, &replies[0].bytes, 0),
        Ok(Recipients::One(first_place()))
    );
    Ok(())
}

/// What stays on the network of the port is not for the router: it drops it.
#[test]
fn what_stays_is_for_the_server(rt: HostRuntime) -> Result<(), Fail> {
    let mut router = router(rt.alloc())?;
    let outcome = router.receive(rt.alloc(), 1, &CAME, 0)?;
    assert!(rt; matches!(outcome, Outcome::Dropped(Reason::NotOurs)));
    Ok(())
}
