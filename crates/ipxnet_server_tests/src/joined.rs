//! Servers at several sites that are joined as one network.

use crate::caller::reached;
use crate::fixture::{
    ANSWER, CAME, FIRST_NODE, PORT, REGISTRATION, SECOND_NODE, THIRD_NODE, enter, first_place,
    long_packet, packet, packet_for, register_all, second_place, third_place,
};
use crate::sites::{north, north_place, sites, south, south_place, west_place};
use ipx_wire::{Network, Node};
use ipxnet_server::{
    Disposition, IpxnetServer, Recipients, RemoteClient, Secret, ServerCounts, ServerDrop,
    ServerPort, node_of,
};
use std::net::SocketAddrV4;
use std::test::Fail;

/// A node that no client has.
const NOBODY: Node = Node([2, 0, 0, 0, 0, 1]);

/// Which of the two other sites get the bytes from the north.
fn passed(server: &IpxnetServer, takers: Recipients) -> [bool; 2] {
    [
        server.joins(takers, south_place()),
        server.joins(takers, west_place()),
    ]
}

/// To all nodes: to the others here and to each site once, and there only to the clients.
#[test]
fn to_all_at_each_site(rt: HostRuntime) -> Result<(), Fail> {
    let mut here = north(rt.alloc())?;
    let mut there = south(rt.alloc())?;
    enter(&mut here, first_place(), 0);
    enter(&mut here, second_place(), 0);
    enter(&mut there, third_place(), 0);
    for socket in [0x4001, 0x452, 0x453, 2] {
        let all = packet(Node::BROADCAST, socket, FIRST_NODE);
        let heard = here.hear(first_place(), &all, 0);
        assert_eq!(rt; reached(&here, heard.takers()), [false, true, false]);
        assert_eq!(rt; passed(&here, heard.takers()), [true, true]);
        let heard = there.hear(north_place(), &all, 0);
        assert_eq!(rt;
            heard,
            Disposition::FromJoined(Some(FIRST_NODE), Recipients::Here(north_place()))
        );
        assert_eq!(rt; reached(&there, heard.takers()), [false, false, true]);
        assert!(rt; !there.joins(heard.takers(), north_place()));
        assert!(rt; !there.joins(heard.takers(), west_place()));
        assert!(rt; !heard.is_for_core());
        assert_eq!(rt; heard.answer(), None);
    }
    // The site that sent it is not a client there.
    assert_eq!(rt; there.clients().len(), 1);
    assert_eq!(rt; there.counts(), ServerCounts::new());
    Ok(())
}

/// To a node that no client here has: to each site, and once it is known at a site, only to that
/// one. What is for a client here is sent to no site.
#[test]
fn to_one_at_a_site(rt: HostRuntime) -> Result<(), Fail> {
    let mut here = north(rt.alloc())?;
    enter(&mut here, first_place(), 0);
    enter(&mut here, second_place(), 0);
    assert_eq!(rt;
        here.hear(first_place(), &CAME, 0),
        Disposition::ToClient(second_place())
    );
    assert_eq!(rt;
        passed(&here, Recipients::One(second_place())),
        [false, false]
    );
    let far = packet(THIRD_NODE, 0x4001, FIRST_NODE);
    let heard = here.hear(first_place(), &far, 0);
    assert_eq!(rt; heard, Disposition::ToJoined(Recipients::Joined));
    assert_eq!(rt; passed(&here, heard.takers()), [true, true]);
    assert_eq!(rt; reached(&here, heard.takers()), [false; 3]);
    let back = packet(FIRST_NODE, 0x4001, THIRD_NODE);
    let heard = here.hear(south_place(), &back, 7);
    assert_eq!(rt;
        heard,
        Disposition::FromJoined(Some(THIRD_NODE), Recipients::One(first_place()))
    );
    assert_eq!(rt; reached(&here, heard.takers()), [true, false, false]);
    assert_eq!(rt; passed(&here, heard.takers()), [false, false]);
    let known = RemoteClient {
        node: THIRD_NODE,
        router: south_place(),
        heard: 7,
    };
    assert_eq!(rt; here.remote_clients(), [known].as_slice());
    let heard = here.hear(first_place(), &far, 0);
    assert_eq!(rt;
        heard,
        Disposition::ToJoined(Recipients::JoinedAt(south_place()))
    );
    assert_eq!(rt; passed(&here, heard.takers()), [true, false]);
    // It is at the site that showed it last.
    here.hear(west_place(), &back, 8);
    let heard = here.hear(first_place(), &far, 0);
    assert_eq!(rt; passed(&here, heard.takers()), [false, true]);
    Ok(())
}

/// Whoever forges a site's address keeps nobody out: an address whose own node is known at a site is
/// given it, and is a client by its first packet. That node is then known at no site, what is for it
/// goes to the client alone, and no site can claim it.
#[test]
fn a_claimed_node(rt: HostRuntime) -> Result<(), Fail> {
    let mut here = north(rt.alloc())?;
    enter(&mut here, second_place(), 0);
    let claim = packet(Node::BROADCAST, 0x4001, FIRST_NODE);
    here.hear(south_place(), &claim, 0);
    here.hear(south_place(), &packet(Node::BROADCAST, 0x4001, NOBODY), 0);
    assert_eq!(rt; here.remote_clients().len(), 2);
    let heard = here.hear(first_place(), &REGISTRATION, 1);
    assert_eq!(rt; heard.answer(), Some(ANSWER));
    // A registration shows nothing: the node is still known at the site.
    assert_eq!(rt; here.remote_clients().len(), 2);
    let to_first = packet(FIRST_NODE, 0x4001, SECOND_NODE);
    assert_eq!(rt;
        here.hear(second_place(), &to_first, 2),
        Disposition::ToJoined(Recipients::JoinedAt(south_place()))
    );
    assert_eq!(rt;
        here.hear(first_place(), &claim, 3),
        Disposition::ToOthers(first_place())
    );
    assert_eq!(rt; here.clients()[1].place, first_place());
    assert_eq!(rt; here.remote_clients().len(), 1);
    assert_eq!(rt; here.remote_clients()[0].node, NOBODY);
    assert_eq!(rt;
        here.hear(second_place(), &to_first, 4),
        Disposition::ToClient(first_place())
    );
    assert_eq!(rt;
        here.hear(south_place(), &claim, 5),
        Disposition::Dropped(ServerDrop::NotBehind(FIRST_NODE))
    );
    assert_eq!(rt; here.counts().node_taken, 0);
    Ok(())
}

/// A registration tells no site anything. At each the same address has the node that the secret
/// there makes. With one secret at two sites that is one node, and who is a client at both has it at
/// each.
#[test]
fn one_place_at_two_sites(rt: HostRuntime) -> Result<(), Fail> {
    let mut here = north(rt.alloc())?;
    let mut there = south(rt.alloc())?;
    let heard = here.hear(first_place(), &REGISTRATION, 0);
    assert_eq!(rt; passed(&here, heard.takers()), [false, false]);
    let all = packet(Node::BROADCAST, 0x4001, FIRST_NODE);
    here.hear(first_place(), &all, 0);
    there.hear(north_place(), &all, 0);
    // The two have one secret, by which the node is the same.
    assert_eq!(rt; there.remote_clients().len(), 1);
    enter(&mut there, first_place(), 5);
    assert_eq!(rt; there.clients()[0].node, FIRST_NODE);
    assert!(rt; there.remote_clients().is_empty());
    assert_eq!(rt;
        there.hear(north_place(), &all, 5),
        Disposition::Dropped(ServerDrop::NotBehind(FIRST_NODE))
    );
    let port = ServerPort {
        secret: Secret([9; 32]),
        ..PORT
    };
    let node = node_of(port, first_place());
    let mut third = IpxnetServer::joined_to(rt.alloc(), port, 64, sites(rt.alloc())?)?;
    third.hear(north_place(), &all, 0);
    enter(&mut third, first_place(), 5);
    assert_eq!(rt; third.clients()[0].node, node);
    assert_eq!(rt;
        third.hear(first_place(), &all, 5),
        Disposition::Dropped(ServerDrop::OtherSource(FIRST_NODE))
    );
    Ok(())
}

/// What a site may not send: from a node that is known here, so that no packet of a client comes
/// back; for another network; to no client here. A site does not register.
#[test]
fn what_a_site_may_not_send(rt: HostRuntime) -> Result<(), Fail> {
    let mut here = north(rt.alloc())?;
    enter(&mut here, first_place(), 0);
    enter(&mut here, second_place(), 0);
    let rows = [
        (
            packet(Node::BROADCAST, 0x4001, FIRST_NODE),
            ServerDrop::NotBehind(FIRST_NODE),
        ),
        (CAME, ServerDrop::NotBehind(FIRST_NODE)),
        (
            packet(FIRST_NODE, 0x4001, PORT.own),
            ServerDrop::NotBehind(PORT.own),
        ),
        (
            packet(FIRST_NODE, 0x4001, Node::BROADCAST),
            ServerDrop::NotBehind(Node::BROADCAST),
        ),
        (
            packet_for(0x99, PORT.own, 0x453, THIRD_NODE),
            ServerDrop::ForElsewhere(Network(0x99)),
        ),
        (
            packet(NOBODY, 0x4001, THIRD_NODE),
            ServerDrop::NoSuchNode(NOBODY),
        ),
        (
            packet(PORT.own, 0x453, THIRD_NODE),
            ServerDrop::NoSuchNode(PORT.own),
        ),
    ];
    for (bytes, drop) in rows {
        assert_eq!(rt;
            here.hear(south_place(), &bytes, 0),
            Disposition::Dropped(drop)
        );
    }
    assert_eq!(rt;
        here.hear(south_place(), &REGISTRATION, 0),
        Disposition::Dropped(ServerDrop::NotBehind(Node([0; 6])))
    );
    assert!(rt; here.remote_clients().is_empty());
    assert_eq!(rt; here.clients().len(), 2);
    let wanted = ServerCounts {
        not_behind: 5,
        for_elsewhere: 1,
        no_such_node: 2,
        ..ServerCounts::new()
    };
    assert_eq!(rt; here.counts(), wanted);
    Ok(())
}

/// Another port of a site's address is no site. What comes from a site that does not name this one
/// is dropped.
#[test]
fn who_is_no_site(rt: HostRuntime) -> Result<(), Fail> {
    let mut here = north(rt.alloc())?;
    register_all(&mut here);
    let all = packet(Node::BROADCAST, 0x4001, NOBODY);
    for from in [SocketAddrV4::new(*south_place().ip(), 2131), north_place()] {
        assert_eq!(rt;
            here.hear(from, &all, 0),
            Disposition::Dropped(ServerDrop::Unregistered)
        );
    }
    let mut alone = IpxnetServer::new(rt.alloc(), PORT, 64)?;
    register_all(&mut alone);
    assert_eq!(rt;
        alone.hear(south_place(), &all, 0),
        Disposition::Dropped(ServerDrop::Unregistered)
    );
    assert!(rt; alone.routers().is_empty());
    assert_eq!(rt; here.routers(), [south_place(), west_place()].as_slice());
    Ok(())
}

/// Packets of the core: to a node that no client here has they are sent to the sites, and to all
/// nodes only here. What a site's core forwards comes from another network, and shows no node here.
#[test]
fn packets_of_the_core(rt: HostRuntime) -> Result<(), Fail> {
    let mut here = north(rt.alloc())?;
    enter(&mut here, first_place(), 0);
    assert_eq!(rt;
        here.give(FIRST_NODE, &[0; 40], 0),
        Ok(Recipients::One(first_place()))
    );
    let each = here.give(THIRD_NODE, &[0; 40], 0)?;
    assert_eq!(rt; each, Recipients::Joined);
    assert_eq!(rt; passed(&here, each), [true, true]);
    here.hear(west_place(), &packet(FIRST_NODE, 0x4001, THIRD_NODE), 0);
    assert_eq!(rt;
        here.give(THIRD_NODE, &[0; 40], 0),
        Ok(Recipients::JoinedAt(west_place()))
    );
    let all = here.give(Node::BROADCAST, &[0; 40], 0)?;
    assert_eq!(rt; reached(&here, all), [true, false, false]);
    assert_eq!(rt; passed(&here, all), [false, false]);
    let told = packet(Node::BROADCAST, 0x453, PORT.own);
    assert_eq!(rt;
        here.give(Node::BROADCAST, &told, 0),
        Ok(Recipients::Nobody)
    );
    assert_eq!(rt; passed(&here, Recipients::Nobody), [false, false]);
    assert_eq!(rt;
        here.give(THIRD_NODE, &[0; 1425], 0),
        Err(ServerDrop::TooLong(1425))
    );
    // From network 00000099, with a node that a client here has too: it is another sender.
    let mut forwarded = packet(FIRST_NODE, 0x4001, FIRST_NODE);
    forwarded[18..22].copy_from_slice(&[0, 0, 0, 0x99]);
    assert_eq!(rt;
        here.hear(south_place(), &forwarded, 0),
        Disposition::FromJoined(None, Recipients::One(first_place()))
    );
    assert_eq!(rt; here.remote_clients().len(), 1);
    Ok(())
}

/// A packet of the core that comes from this network: to a client here, and to no site. There it
/// would show that its source node is here, also if it is for that node itself. From another network it is
/// sent to a site, and shows no node there.
#[test]
fn packets_of_the_core_from_this_network(rt: HostRuntime) -> Result<(), Fail> {
    let mut here = north(rt.alloc())?;
    let mut there = south(rt.alloc())?;
    enter(&mut here, first_place(), 0);
    enter(&mut there, third_place(), 0);
    let to_client = packet(THIRD_NODE, 0x4001, NOBODY);
    let to_itself = packet(NOBODY, 2, NOBODY);
    for network in [[0, 0, 0, 0], [0, 0, 0xd0, 0x5b]] {
        for (node, packet) in [(THIRD_NODE, to_client), (NOBODY, to_itself)] {
            let mut bytes = packet;
            bytes[18..22].copy_from_slice(&network);
            assert_eq!(rt;
                here.give(node, &bytes, 0),
                Err(ServerDrop::NoSuchNode(node))
            );
            assert_eq!(rt;
                here.give(FIRST_NODE, &bytes, 0),
                Ok(Recipients::One(first_place()))
            );
        }
    }
    assert_eq!(rt; here.counts().no_such_node, 4);
    let mut forwarded = to_client;
    forwarded[18..22].copy_from_slice(&[0, 0, 0, 0x99]);
    let takers = here.give(THIRD_NODE, &forwarded, 0)?;
    assert_eq!(rt; passed(&here, takers), [true, true]);
    assert_eq!(rt;
        there.hear(north_place(), &forwarded, 0),
        Disposition::FromJoined(None, Recipients::One(third_place()))
    );
    assert!(rt; there.remote_clients().is_empty());
    Ok(())
}

/// No client accepts more than 1,424 bytes, at any site.
#[test]
fn long_packets(rt: HostRuntime) -> Result<(), Fail> {
    let mut here = north(rt.alloc())?;
    enter(&mut here, first_place(), 0);
    let far = long_packet(THIRD_NODE, 1424);
    assert_eq!(rt;
        here.hear(first_place(), &far[..1424], 0),
        Disposition::ToJoined(Recipients::Joined)
    );
    let long = Disposition::Dropped(ServerDrop::TooLong(1425));
    assert_eq!(rt; here.hear(first_place(), &far[..1425], 0), long);
    let mut there = south(rt.alloc())?;
    enter(&mut there, third_place(), 0);
    let all = long_packet(Node::BROADCAST, 1424);
    assert_eq!(rt;
        there.hear(north_place(), &all[..1424], 0),
        Disposition::FromJoined(Some(FIRST_NODE), Recipients::Here(north_place()))
    );
    assert_eq!(rt; there.hear(north_place(), &all[..1425], 0), long);
    assert_eq!(rt; there.hear(north_place(), &far[..1425], 0), long);
    Ok(())
}

/// A client of a site is known for a day after its last packet, and at most 1,024 of them are.
#[test]
fn far_clients_that_go(rt: HostRuntime) -> Result<(), Fail> {
    let mut here = north(rt.alloc())?;
    let day = 86_400_000;
    here.hear(south_place(), &packet(Node::BROADCAST, 2, THIRD_NODE), 5);
    here.hear(south_place(), b"abc", day + 4);
    assert_eq!(rt; here.remote_clients().len(), 1);
    here.hear(south_place(), b"abc", day + 5);
    assert!(rt; here.remote_clients().is_empty());
    for number in 0..1025u16 {
        let mut node = NOBODY;
        node.0[4..].copy_from_slice(&number.to_be_bytes());
        here.hear(south_place(), &packet(Node::BROADCAST, 2, node), 0);
    }
    assert_eq!(rt; here.remote_clients().len(), 1024);
    assert_eq!(rt; here.remote_clients()[0].node, NOBODY);
    Ok(())
}

/// If memory is refused there is no server, and the next try makes one.
#[test]
fn refused_joined_server(rt: HostRuntime) -> Result<(), Fail> {
    let mut server = match north(rt.alloc()) {
        Ok(server) => server,
        Err(_) => north(rt.alloc())?,
    };
    assert_eq!(rt;
        server.give(THIRD_NODE, &[0; 40], 0),
        Ok(Recipients::Joined)
    );
    Ok(())
}

/// The text of the causes for what a site may not send.
#[test]
fn texts_of_sites(rt: HostRuntime) -> Result<(), Fail> {
    let rows = [
        (
            ServerDrop::NotBehind(FIRST_NODE),
            "a joined server sent from a node that is none of its clients: 027c63c8d4df",
        ),
        (
            ServerDrop::ForElsewhere(Network(0x99)),
            "a joined server sent to network 00000099",
        ),
    ];
    for (drop, wanted) in rows {
        let text = format!(in rt.alloc(); "{drop}")?;
        assert_eq!(rt; text.as_str(), wanted);
    }
    Ok(())
}
