//! Registrations and their answers, byte by byte, and who becomes a client.

use crate::fixture::{
    ANSWER, CAME, FIRST_NODE, PORT, REGISTRATION, SECOND_NODE, SECRET, THIRD_NODE, enter,
    first_place, packet, second_place, third_place,
};
use ipx_wire::{IpxFault, Network, Node};
use ipxnet_server::{
    Client, Disposition, IpxnetServer, NoteCause, Noted, Secret, ServerDrop, ServerPort, node_of,
};
use std::net::{Ipv4Addr, SocketAddrV4};
use std::test::Fail;

/// The answer to the third player.
const THIRD_ANSWER: [u8; 30] = [
    0xff, 0xff, 0, 0x1e, 0, 0, 0, 0, 0xd0, 0x5b, 2, 0x64, 0x6a, 0xa8, 0xbe, 0x2d, 0, 2, 0, 0, 0xd0,
    0x5b, 2, 0, 0, 0, 0xd0, 0x5b, 0, 2,
];

/// Each is answered at once, with the network and its own node. It is noted, and no client yet.
#[test]
fn answers(rt: HostRuntime) -> Result<(), Fail> {
    let mut server = IpxnetServer::new(rt.alloc(), PORT, 64)?;
    assert_eq!(rt;
        server.hear(first_place(), &REGISTRATION, 7).answer(),
        Some(ANSWER)
    );
    assert_eq!(rt;
        server.hear(third_place(), &REGISTRATION, 8).answer(),
        Some(THIRD_ANSWER)
    );
    assert!(rt; server.clients().is_empty());
    let first = Noted {
        place: first_place(),
        since: 7,
        cause: NoteCause::Registration,
    };
    let third = Noted {
        place: third_place(),
        since: 8,
        cause: NoteCause::Registration,
    };
    assert_eq!(rt; server.noted(), [first, third].as_slice());
    Ok(())
}

/// Each is a client by the first packet with its node, and is noted no more.
#[test]
fn who_shows_its_node(rt: HostRuntime) -> Result<(), Fail> {
    let mut server = IpxnetServer::new(rt.alloc(), PORT, 64)?;
    enter(&mut server, first_place(), 7);
    server.hear(third_place(), &REGISTRATION, 8);
    let all = packet(Node::BROADCAST, 0x4001, THIRD_NODE);
    assert_eq!(rt;
        server.hear(third_place(), &all, 9),
        Disposition::ToOthers(third_place())
    );
    let first = Client {
        node: FIRST_NODE,
        place: first_place(),
        since: 7,
        heard: 7,
    };
    let third = Client {
        node: THIRD_NODE,
        place: third_place(),
        since: 9,
        heard: 9,
    };
    assert_eq!(rt; server.clients(), [first, third].as_slice());
    assert!(rt; server.noted().is_empty());
    Ok(())
}

/// A node belongs to the address, the network and the secret.
#[test]
fn nodes(rt: HostRuntime) -> Result<(), Fail> {
    assert_eq!(rt; node_of(PORT, first_place()), FIRST_NODE);
    assert_eq!(rt; node_of(PORT, second_place()), SECOND_NODE);
    assert_eq!(rt; node_of(PORT, third_place()), THIRD_NODE);
    let other_network = ServerPort {
        network: Network(0xd05c),
        ..PORT
    };
    let mut bytes = SECRET.0;
    bytes[31] = 0;
    let other_secret = ServerPort {
        secret: Secret(bytes),
        ..PORT
    };
    let other_router = ServerPort {
        own: Node([2, 0, 0, 0, 0, 9]),
        ..PORT
    };
    let node = |port| node_of(port, first_place());
    assert!(rt; node(other_network) != FIRST_NODE && node(other_secret) != FIRST_NODE);
    assert!(rt; node(other_network) != node(other_secret));
    assert_eq!(rt; node(other_router), FIRST_NODE);
    Ok(())
}

/// From the same address it gets the same answer. A client that registers stays as it was, and is
/// not noted. Who is noted stays noted as it was.
#[test]
fn the_same_end_again(rt: HostRuntime) -> Result<(), Fail> {
    let mut server = IpxnetServer::new(rt.alloc(), PORT, 64)?;
    enter(&mut server, first_place(), 0);
    server.hear(second_place(), &REGISTRATION, 1);
    server.hear(third_place(), &REGISTRATION, 2);
    assert_eq!(rt;
        server.hear(first_place(), &REGISTRATION, 9).answer(),
        Some(ANSWER)
    );
    assert_eq!(rt; server.clients()[0].heard, 0);
    server.hear(second_place(), &REGISTRATION, 10);
    let places = [server.noted()[0].place, server.noted()[1].place];
    assert_eq!(rt; places, [second_place(), third_place()]);
    assert_eq!(rt; server.noted()[0].since, 1);
    assert_eq!(rt; (server.clients().len(), server.noted().len()), (1, 2));
    Ok(())
}

/// Its networks, its source socket, hops and type are not read.
#[test]
fn what_is_not_looked_at(rt: HostRuntime) -> Result<(), Fail> {
    let mut server = IpxnetServer::new(rt.alloc(), PORT, 64)?;
    let mut bytes = REGISTRATION;
    bytes[4..10].copy_from_slice(&[9, 0x7f, 0x12, 0x34, 0x56, 0x78]);
    bytes[18..22].copy_from_slice(&[0, 0, 0, 0x99]);
    bytes[28..30].copy_from_slice(&[0x40, 1]);
    assert_eq!(rt;
        server.hear(first_place(), &bytes, 0).answer(),
        Some(ANSWER)
    );
    Ok(())
}

/// Whether a registration with one byte changed is one.
fn registers_with(server: &mut IpxnetServer, place: usize, value: u8) -> bool {
    let mut bytes = REGISTRATION;
    bytes[place] = value;
    server.hear(first_place(), &bytes, 0) != Disposition::Dropped(ServerDrop::Unregistered)
}

/// What is not a registration: a packet with another socket or node, or with one more byte.
#[test]
fn what_is_no_registration(rt: HostRuntime) -> Result<(), Fail> {
    let mut server = IpxnetServer::new(rt.alloc(), PORT, 64)?;
    for (place, value) in [(10, 1), (15, 0xff), (16, 0x40), (17, 3), (22, 1), (27, 1)] {
        assert!(rt; !registers_with(&mut server, place, value));
    }
    let mut longer = [0; 31];
    longer[..30].copy_from_slice(&REGISTRATION);
    assert_eq!(rt;
        server.hear(first_place(), &longer, 0),
        Disposition::Dropped(ServerDrop::Unregistered)
    );
    longer[3] = 0x1f;
    assert_eq!(rt;
        server.hear(first_place(), &longer, 0),
        Disposition::Dropped(ServerDrop::Unregistered)
    );
    let mut summed = REGISTRATION;
    summed[..2].copy_from_slice(&[0, 0]);
    assert_eq!(rt;
        server.hear(first_place(), &summed, 0),
        Disposition::Dropped(ServerDrop::Malformed(IpxFault::Checksummed(0)))
    );
    assert_eq!(rt;
        server.hear(first_place(), &REGISTRATION[..20], 0),
        Disposition::Dropped(ServerDrop::Malformed(IpxFault::Short(20)))
    );
    assert!(rt; server.clients().is_empty() && server.noted().is_empty());
    assert_eq!(rt; server.counts().unregistered, 8);
    assert_eq!(rt; server.counts().malformed, 2);
    Ok(())
}

/// A client can't have the router's node.
#[test]
fn a_node_that_is_taken(rt: HostRuntime) -> Result<(), Fail> {
    let port = ServerPort {
        own: FIRST_NODE,
        ..PORT
    };
    let mut server = IpxnetServer::new(rt.alloc(), port, 64)?;
    let taken = Disposition::Dropped(ServerDrop::NodeTaken(FIRST_NODE));
    assert_eq!(rt; server.hear(first_place(), &REGISTRATION, 0), taken);
    assert_eq!(rt; server.hear(first_place(), &CAME, 0), taken);
    assert!(rt; server.clients().is_empty());
    assert_eq!(rt; server.counts().node_taken, 2);
    Ok(())
}

/// Forged registrations: from as many addresses as they name, each gets one answer of 30 bytes, and
/// nobody becomes a client. The last 64 of five IP addresses are noted, until their second ping.
#[test]
fn forged_registrations(rt: HostRuntime) -> Result<(), Fail> {
    let mut server = IpxnetServer::new(rt.alloc(), PORT, 4)?;
    enter(&mut server, first_place(), 0);
    for number in 0..1000 {
        let last = u8::try_from(number % 5).unwrap_or(0);
        let forged = SocketAddrV4::new(Ipv4Addr::new(192, 0, 2, last), number);
        let heard = server.hear(forged, &REGISTRATION, 1);
        assert!(rt; heard.answer().is_some());
        for place in [forged, first_place()] {
            assert!(rt; !server.reaches(heard.takers(), place));
        }
    }
    assert_eq!(rt; server.clients().len(), 1);
    assert_eq!(rt; server.noted().len(), 64);
    assert_eq!(rt; server.noted()[0].place.port(), 936);
    // Others still become clients.
    enter(&mut server, second_place(), 2);
    enter(&mut server, third_place(), 2);
    assert_eq!(rt; server.clients().len(), 3);
    // One of the noted made room for the second player, which is noted no more.
    server.begin_pings(8500);
    server.hear(first_place(), b"abc", 8501);
    assert_eq!(rt; server.noted().len(), 63);
    server.begin_pings(8501);
    server.hear(first_place(), b"abc", 8501);
    assert!(rt; server.noted().is_empty());
    Ok(())
}
