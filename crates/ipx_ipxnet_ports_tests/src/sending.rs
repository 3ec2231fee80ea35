//! Packets of the core, and the players that they are sent to.

use crate::fixture::{
    CAME, ENTERED, PORT, SECOND_NODE, first_place, packet, registrations, second_place, servers,
    third_place, unknown_place, went_after,
};
use ipx_carrier::{PacketSent, PortDriver, PortDriverFilters};
use ipx_ipxnet_ports::{MemoryPlaces, Servers};
use ipx_wire::Node;
use ipxnet_server::{ServerCounts, node_of};
use std::alloc::Global;
use std::test::Fail;

/// The port, whose three players registered at time 5.
fn three_players(alloc: Global) -> Result<Servers<MemoryPlaces>, Fail> {
    let mut servers = servers(alloc, registrations(alloc)?)?;
    servers.set_time(5);
    let mut room = [0; 1536];
    for _datagram in 0..ENTERED {
        servers.receive(0, &mut room)?;
    }
    Ok(servers)
}

/// To a player's node: to that one, until it was silent for five minutes. To all nodes: to each.
#[test]
fn packets_to_players(rt: HostRuntime) -> Result<(), Fail> {
    let mut servers = three_players(rt.alloc())?;
    let sent = servers.send(0, SECOND_NODE, &CAME);
    assert!(rt; matches!(sent, Ok(PacketSent::Transmitted(1))));
    assert!(rt; went_after(servers.sockets(), 3, &[second_place()], &CAME));
    let sent = servers.send(0, Node::BROADCAST, &CAME);
    assert!(rt; matches!(sent, Ok(PacketSent::Transmitted(1))));
    assert!(rt;
        went_after(
            servers.sockets(),
            4,
            &[first_place(), second_place(), third_place()],
            &CAME
        )
    );
    servers.set_time(300_004);
    servers.send(0, SECOND_NODE, &CAME)?;
    assert!(rt; went_after(servers.sockets(), 7, &[second_place()], &CAME));
    servers.set_time(300_005);
    let sent = servers.send(0, SECOND_NODE, &CAME);
    assert!(rt; matches!(sent, Ok(PacketSent::Transmitted(1))));
    assert_eq!(rt; servers.sockets().went().len(), 8);
    assert_eq!(rt; servers.servers()[0].counts().no_such_node, 1);
    assert_eq!(rt; servers.filtered(), 6);
    Ok(())
}

/// To all nodes: to nobody at the sockets of RIP and SAP, and to each from those sockets, or for
/// NetBIOS. To a player's node: to that one, at any socket.
#[test]
fn what_a_router_tells(rt: HostRuntime) -> Result<(), Fail> {
    let mut servers = three_players(rt.alloc())?;
    for socket in [[4, 0x52], [4, 0x53]] {
        let mut told = packet(Node::BROADCAST);
        told[16..18].copy_from_slice(&socket);
        let sent = servers.send(0, Node::BROADCAST, &told);
        assert!(rt; matches!(sent, Ok(PacketSent::Transmitted(1))));
        assert_eq!(rt; servers.sockets().went().len(), 3);
    }
    assert_eq!(rt; servers.servers()[0].counts(), ServerCounts::new());
    let mut answer = packet(SECOND_NODE);
    answer[16..18].copy_from_slice(&[4, 0x53]);
    servers.send(0, SECOND_NODE, &answer)?;
    assert!(rt; went_after(servers.sockets(), 3, &[second_place()], &answer));
    let mut named = packet(Node::BROADCAST);
    named[5] = 20;
    named[16..18].copy_from_slice(&[4, 0x55]);
    named[28..30].copy_from_slice(&[4, 0x53]);
    servers.send(0, Node::BROADCAST, &named)?;
    assert!(rt;
        went_after(
            servers.sockets(),
            4,
            &[first_place(), second_place(), third_place()],
            &named
        )
    );
    assert_eq!(rt; servers.failures(), 0);
    Ok(())
}

/// To a node that no client has: only the server gets it.
#[test]
fn packets_to_nobody(rt: HostRuntime) -> Result<(), Fail> {
    let mut servers = three_players(rt.alloc())?;
    let sent = servers.send(0, node_of(PORT, unknown_place()), &CAME);
    assert!(rt; matches!(sent, Ok(PacketSent::Transmitted(1))));
    assert_eq!(rt; servers.sockets().went().len(), 3);
    assert_eq!(rt; servers.servers()[0].counts().no_such_node, 1);
    Ok(())
}

/// 1,424 bytes are sent to a player, and one more is not.
#[test]
fn packets_that_are_too_long(rt: HostRuntime) -> Result<(), Fail> {
    let mut servers = three_players(rt.alloc())?;
    let bytes = [0x55; 1425];
    let sent = servers.send(0, SECOND_NODE, &bytes[..1424]);
    assert!(rt; matches!(sent, Ok(PacketSent::Transmitted(1))));
    assert!(rt; went_after(servers.sockets(), 3, &[second_place()], &bytes[..1424]));
    let sent = servers.send(0, SECOND_NODE, &bytes);
    assert!(rt; matches!(sent, Ok(PacketSent::Unmapped)));
    let sent = servers.send(0, Node::BROADCAST, &bytes);
    assert!(rt; matches!(sent, Ok(PacketSent::Unmapped)));
    assert_eq!(rt; servers.sockets().went().len(), 4);
    assert_eq!(rt; servers.servers()[0].counts().too_long, 2);
    assert_eq!(rt; servers.failures(), 0);
    Ok(())
}
