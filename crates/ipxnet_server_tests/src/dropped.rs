//! What is dropped, its cause, and that only a count changes.

use crate::fixture::{
    CAME, FIRST_NODE, PORT, first_place, packet, packet_for, register_all, second_place,
};
use ipx_wire::{IpxFault, Network, Node};
use ipxnet_server::{Disposition, IpxnetServer, ServerCounts, ServerDrop};
use std::net::{Ipv4Addr, SocketAddrV4};
use std::test::Fail;

/// A node that no client has.
const NOBODY: Node = Node([2, 0, 0, 0, 0, 1]);

/// Each cause for what a client sends, in order.
#[test]
fn causes(rt: HostRuntime) -> Result<(), Fail> {
    let mut server = IpxnetServer::new(rt.alloc(), PORT, 64)?;
    register_all(&mut server);
    let before = server.clients()[0];
    let rows = [
        (
            packet(NOBODY, 0x4001, FIRST_NODE),
            ServerDrop::NoSuchNode(NOBODY),
        ),
        (packet(FIRST_NODE, 0x4001, FIRST_NODE), ServerDrop::ToItself),
        (
            packet_for(0x99, Node::BROADCAST, 0x4001, FIRST_NODE),
            ServerDrop::BroadcastElsewhere(Network(0x99)),
        ),
        (
            packet_for(0x99, Node::BROADCAST, 0x453, FIRST_NODE),
            ServerDrop::BroadcastElsewhere(Network(0x99)),
        ),
        (
            packet_for(0x99, Node::BROADCAST, 2, FIRST_NODE),
            ServerDrop::PingElsewhere(Network(0x99)),
        ),
        (
            packet_for(0x99, NOBODY, 2, FIRST_NODE),
            ServerDrop::PingElsewhere(Network(0x99)),
        ),
    ];
    for (bytes, drop) in rows {
        assert_eq!(rt;
            server.hear(first_place(), &bytes, 500),
            Disposition::Dropped(drop)
        );
    }
    let wanted = ServerCounts {
        no_such_node: 1,
        to_itself: 1,
        broadcast_elsewhere: 2,
        ping_elsewhere: 2,
        ..ServerCounts::new()
    };
    assert_eq!(rt; server.counts(), wanted);
    // None of that counts as heard from it.
    assert_eq!(rt; server.clients()[0], before);
    Ok(())
}

/// Another port of the same IP address is another address.
#[test]
fn from_another_port(rt: HostRuntime) -> Result<(), Fail> {
    let mut server = IpxnetServer::new(rt.alloc(), PORT, 64)?;
    register_all(&mut server);
    let other = SocketAddrV4::new(*first_place().ip(), 48201);
    assert_eq!(rt;
        server.hear(other, &CAME, 0),
        Disposition::Dropped(ServerDrop::Unregistered)
    );
    let far = SocketAddrV4::new(Ipv4Addr::new(127, 0, 0, 2), first_place().port());
    assert_eq!(rt;
        server.hear(far, &CAME, 0),
        Disposition::Dropped(ServerDrop::Unregistered)
    );
    assert_eq!(rt; server.counts().unregistered, 2);
    Ok(())
}

/// Three bytes, and a truncated packet, from any address.
#[test]
fn no_packets(rt: HostRuntime) -> Result<(), Fail> {
    let mut server = IpxnetServer::new(rt.alloc(), PORT, 64)?;
    register_all(&mut server);
    assert_eq!(rt;
        server.hear(second_place(), b"abc", 0),
        Disposition::Dropped(ServerDrop::Malformed(IpxFault::Short(3)))
    );
    assert_eq!(rt;
        server.hear(first_place(), &CAME[..33], 0),
        Disposition::Dropped(ServerDrop::Malformed(IpxFault::Truncated(34, 33)))
    );
    assert_eq!(rt; server.counts().malformed, 2);
    Ok(())
}

/// The text of each cause.
#[test]
fn texts(rt: HostRuntime) -> Result<(), Fail> {
    let rows = [
        (
            ServerDrop::Malformed(IpxFault::Short(3)),
            "3 bytes, an IPX header needs 30",
        ),
        (
            ServerDrop::NodeTaken(FIRST_NODE),
            "the client's node is already in use: 027c63c8d4df",
        ),
        (
            ServerDrop::FullOfAddress,
            "too many clients of one IP address",
        ),
        (ServerDrop::Full, "the server is full"),
        (ServerDrop::Unregistered, "from an unregistered sender"),
        (
            ServerDrop::OtherSource(FIRST_NODE),
            "a client sent from a node that is not its own: 027c63c8d4df",
        ),
        (
            ServerDrop::TooLong(1425),
            "1425 bytes, a client accepts at most 1424",
        ),
        (
            ServerDrop::NoSuchNode(FIRST_NODE),
            "no client has the node 027c63c8d4df",
        ),
        (ServerDrop::ToItself, "a client sent to itself"),
        (
            ServerDrop::PingElsewhere(Network(0x99)),
            "a ping for network 00000099",
        ),
        (
            ServerDrop::BroadcastElsewhere(Network(0x99)),
            "a broadcast for network 00000099",
        ),
        (
            ServerDrop::FromElsewhere(Network(0x99)),
            "a client sent from network 00000099",
        ),
        (
            ServerDrop::Response,
            "a client advertised routes or services",
        ),
        (
            ServerDrop::RateLimited(first_place()),
            "too many broadcasts of a client",
        ),
        (ServerDrop::Busy, "too many copies of broadcasts"),
    ];
    for (drop, wanted) in rows {
        let text = format!(in rt.alloc(); "{drop}")?;
        assert_eq!(rt; text.as_str(), wanted);
    }
    Ok(())
}
