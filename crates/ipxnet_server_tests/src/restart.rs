//! Players of a server that was started again: who becomes a client by a packet.

use crate::caller::give;
use crate::fixture::{
    CAME, FIRST_NODE, PORT, SECOND_NODE, THIRD_NODE, enter, first_place, packet, second_place,
    third_place,
};
use crate::sites::{north, south_place};
use ipx_wire::Node;
use ipxnet_server::{
    Disposition, IpxnetServer, Secret, ServerCounts, ServerDrop, ServerPort, node_of,
};
use std::net::SocketAddrV4;
use std::test::Fail;

/// What the player at an address sends to all.
fn to_all(place: SocketAddrV4) -> [u8; 34] {
    packet(Node::BROADCAST, 0x4001, node_of(PORT, place))
}

/// Each is a client again by what it sends, without an answer, also by what is dropped for itself.
/// From then on packets pass between them.
#[test]
fn without_a_new_registration(rt: HostRuntime) -> Result<(), Fail> {
    let mut server = IpxnetServer::new(rt.alloc(), PORT, 64)?;
    assert_eq!(rt;
        server.hear(first_place(), &CAME, 7),
        Disposition::Dropped(ServerDrop::NoSuchNode(SECOND_NODE))
    );
    let first = server.clients()[0];
    assert_eq!(rt; (first.node, first.place), (FIRST_NODE, first_place()));
    assert_eq!(rt; (first.since, first.heard), (7, 7));
    assert_eq!(rt;
        server.hear(second_place(), &packet(FIRST_NODE, 0x4001, SECOND_NODE), 8),
        Disposition::ToClient(first_place())
    );
    assert_eq!(rt;
        server.hear(first_place(), &CAME, 9),
        Disposition::ToClient(second_place())
    );
    assert_eq!(rt;
        give(
            &mut server,
            third_place(),
            &packet(Node::BROADCAST, 0x4001, THIRD_NODE)
        ),
        (false, [true, true, false], false)
    );
    assert_eq!(rt; server.clients().len(), 3);
    let wanted = ServerCounts {
        no_such_node: 1,
        ..ServerCounts::new()
    };
    assert_eq!(rt; server.counts(), wanted);
    Ok(())
}

/// What is for the core gets there, from one who was no client before.
#[test]
fn a_first_packet_to_another_network(rt: HostRuntime) -> Result<(), Fail> {
    let mut server = IpxnetServer::new(rt.alloc(), PORT, 64)?;
    let mut bytes = CAME;
    bytes[9] = 0x99;
    bytes[8] = 0;
    assert_eq!(rt; server.hear(first_place(), &bytes, 0), Disposition::ToCore);
    assert_eq!(rt; server.clients().len(), 1);
    Ok(())
}

/// From a node of another secret, or any other than the one of its address, it is dropped, and makes
/// no client.
#[test]
fn from_another_node(rt: HostRuntime) -> Result<(), Fail> {
    let mut server = IpxnetServer::new(rt.alloc(), PORT, 64)?;
    let before = ServerPort {
        secret: Secret([9; 32]),
        ..PORT
    };
    let nodes = [
        SECOND_NODE,
        PORT.own,
        Node::BROADCAST,
        Node([0; 6]),
        node_of(before, first_place()),
    ];
    for node in nodes {
        assert_eq!(rt;
            server.hear(first_place(), &packet(Node::BROADCAST, 0x4001, node), 0),
            Disposition::Dropped(ServerDrop::Unregistered)
        );
    }
    assert!(rt; server.clients().is_empty());
    assert_eq!(rt; server.counts().unregistered, 5);
    Ok(())
}

/// In a full server one who was silent for a minute makes room, and otherwise there is none.
#[test]
fn in_a_full_server(rt: HostRuntime) -> Result<(), Fail> {
    let mut server = IpxnetServer::new(rt.alloc(), PORT, 2)?;
    enter(&mut server, first_place(), 0);
    enter(&mut server, second_place(), 10);
    assert_eq!(rt;
        server.hear(third_place(), &to_all(third_place()), 59_999),
        Disposition::Dropped(ServerDrop::Full)
    );
    // It is sent to those who are clients then: the first is none any more.
    assert_eq!(rt;
        server.hear(
            third_place(),
            &packet(FIRST_NODE, 0x4001, THIRD_NODE),
            60_000
        ),
        Disposition::Dropped(ServerDrop::NoSuchNode(FIRST_NODE))
    );
    assert_eq!(rt; server.clients().len(), 2);
    assert_eq!(rt; server.clients()[0].place, second_place());
    assert_eq!(rt; server.clients()[1].place, third_place());
    Ok(())
}

/// At a joined server the node is the same, also if another site claimed it meanwhile.
#[test]
fn at_a_joined_server(rt: HostRuntime) -> Result<(), Fail> {
    let mut here = north(rt.alloc())?;
    assert_eq!(rt;
        here.hear(second_place(), &to_all(second_place()), 0),
        Disposition::ToOthers(second_place())
    );
    here.hear(
        south_place(),
        &packet(Node::BROADCAST, 0x4001, FIRST_NODE),
        0,
    );
    assert_eq!(rt;
        here.hear(first_place(), &to_all(first_place()), 1),
        Disposition::ToOthers(first_place())
    );
    assert_eq!(rt; here.clients().len(), 2);
    assert!(rt; here.remote_clients().is_empty());
    Ok(())
}

/// Who was silent for five minutes is a client again by its next packet.
#[test]
fn after_five_minutes(rt: HostRuntime) -> Result<(), Fail> {
    let mut server = IpxnetServer::new(rt.alloc(), PORT, 64)?;
    enter(&mut server, first_place(), 0);
    assert_eq!(rt;
        server.hear(first_place(), &to_all(first_place()), 300_000),
        Disposition::ToOthers(first_place())
    );
    assert_eq!(rt; server.clients()[0].since, 300_000);
    Ok(())
}
