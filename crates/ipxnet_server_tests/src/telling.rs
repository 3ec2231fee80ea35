//! What clients advertise of routes and services, or send from another network: none of it reaches
//! the core.

use crate::caller::give;
use crate::fixture::{
    FIRST_NODE, PORT, SECOND_NODE, first_place, packet, packet_for, register_all, second_place,
};
use ipx_wire::{Network, Node};
use ipxnet_server::{Disposition, IpxnetServer, ServerDrop};
use std::test::Fail;

/// A response of RIP to all nodes: the sender has network 99, two hops away.
const TELLS: [u8; 40] = [
    0xff, 0xff, 0, 0x28, 0, 1, 0, 0, 0, 0, 0xff, 0xff, 0xff, 0xff, 0xff, 0xff, 4, 0x53, 0, 0, 0xd0,
    0x5b, 2, 0x7c, 0x63, 0xc8, 0xd4, 0xdf, 4, 0x53, 0, 2, 0, 0, 0, 0x99, 0, 2, 0, 3,
];

/// The same from a socket, with an operation.
fn told(to: Node, socket: u16, from: u16, operation: u8) -> [u8; 34] {
    let mut bytes = packet(to, socket, FIRST_NODE);
    bytes[28..30].copy_from_slice(&from.to_be_bytes());
    bytes[30..32].copy_from_slice(&[0, operation]);
    bytes
}

/// To the router's node: only requests go to the core, and responses are dropped.
#[test]
fn responses_to_the_router(rt: HostRuntime) -> Result<(), Fail> {
    let mut server = IpxnetServer::new(rt.alloc(), PORT, 64)?;
    register_all(&mut server);
    let rows = [
        (0x453, 0x453, 1, false),
        (0x453, 0x453, 2, true),
        (0x453, 0x4001, 2, true),
        (0x4001, 0x453, 2, true),
        (0x453, 0x453, 4, false),
        (0x452, 0x452, 1, false),
        (0x452, 0x452, 2, true),
        (0x452, 0x452, 3, false),
        (0x452, 0x4001, 4, true),
        (0x4001, 0x452, 4, true),
        (0x4001, 0x4001, 2, false),
    ];
    for (socket, from, operation, is_told) in rows {
        let wanted = if is_told {
            Disposition::Dropped(ServerDrop::Response)
        } else {
            Disposition::ToCore
        };
        let bytes = told(PORT.own, socket, from, operation);
        assert_eq!(rt; server.hear(first_place(), &bytes, 0), wanted);
    }
    assert_eq!(rt; server.counts().response, 6);
    // One byte is no operation; the core decides what it is.
    let mut short = told(PORT.own, 0x453, 0x453, 2);
    short[3] = 0x1f;
    assert_eq!(rt; server.hear(first_place(), &short, 0), Disposition::ToCore);
    Ok(())
}

/// To all nodes: the other clients get it as it came, and the core does not.
#[test]
fn responses_to_all(rt: HostRuntime) -> Result<(), Fail> {
    let mut server = IpxnetServer::new(rt.alloc(), PORT, 64)?;
    register_all(&mut server);
    assert_eq!(rt;
        give(&mut server, first_place(), &TELLS),
        (false, [false, true, true], false)
    );
    let mut asks = TELLS;
    asks[31] = 1;
    assert_eq!(rt;
        give(&mut server, first_place(), &asks),
        (false, [false, true, true], true)
    );
    for (operation, core) in [(1, true), (2, false), (3, true), (4, false)] {
        let bytes = told(Node::BROADCAST, 0x452, 0x452, operation);
        assert_eq!(rt;
            give(&mut server, first_place(), &bytes),
            (false, [false, true, true], core)
        );
    }
    assert_eq!(rt; server.counts().response, 0);
    Ok(())
}

/// To a client it is sent, and to another network it is not.
#[test]
fn responses_to_others(rt: HostRuntime) -> Result<(), Fail> {
    let mut server = IpxnetServer::new(rt.alloc(), PORT, 64)?;
    register_all(&mut server);
    let bytes = told(SECOND_NODE, 0x453, 0x453, 2);
    assert_eq!(rt;
        server.hear(first_place(), &bytes, 0),
        Disposition::ToClient(second_place())
    );
    let mut elsewhere = told(Node([0, 0, 0, 0, 0, 1]), 0x453, 0x453, 2);
    elsewhere[9] = 0x99;
    assert_eq!(rt;
        server.hear(first_place(), &elsewhere, 0),
        Disposition::Dropped(ServerDrop::Response)
    );
    elsewhere[31] = 1;
    assert_eq!(rt;
        server.hear(first_place(), &elsewhere, 0),
        Disposition::ToCore
    );
    Ok(())
}

/// From network 99: not to the core, and to clients as before. From 0 or the port's: to the core.
#[test]
fn packets_of_another_network(rt: HostRuntime) -> Result<(), Fail> {
    let mut server = IpxnetServer::new(rt.alloc(), PORT, 64)?;
    register_all(&mut server);
    let dropped = Disposition::Dropped(ServerDrop::FromElsewhere(Network(0x99)));
    let to_router = packet(PORT.own, 0x453, FIRST_NODE);
    let to_remote = packet_for(0x77, Node([0, 0, 0, 0, 0, 1]), 0x4001, FIRST_NODE);
    for bytes in [to_router, to_remote] {
        let mut forged = bytes;
        assert_eq!(rt; server.hear(first_place(), &forged, 0), Disposition::ToCore);
        forged[20..22].copy_from_slice(&[0xd0, 0x5b]);
        assert_eq!(rt; server.hear(first_place(), &forged, 0), Disposition::ToCore);
        forged[20..22].copy_from_slice(&[0, 0x99]);
        assert_eq!(rt; server.hear(first_place(), &forged, 0), dropped);
    }
    assert_eq!(rt; server.counts().from_elsewhere, 2);
    let mut asks = TELLS;
    asks[31] = 1;
    asks[20..22].copy_from_slice(&[0, 0x99]);
    assert_eq!(rt;
        server.hear(first_place(), &asks, 0),
        Disposition::ToOthers(first_place())
    );
    let mut one = packet(SECOND_NODE, 0x4001, FIRST_NODE);
    one[21] = 0x99;
    assert_eq!(rt;
        server.hear(first_place(), &one, 0),
        Disposition::ToClient(second_place())
    );
    Ok(())
}
