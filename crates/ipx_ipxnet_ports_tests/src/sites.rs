//! A server that is joined to those of two other sites, over sockets.

use crate::fixture::{
    ANSWER, CAME, FIRST_NODE, PORT, REGISTRATION, SECOND_NODE, first_place, packet, put_player,
    unknown_place, went_after,
};
use ipx_carrier::{PacketSent, PortDriver, PortDriverFilters};
use ipx_ipxnet_ports::{MemoryPlaces, Servers};
use ipx_wire::Node;
use ipxnet_server::{IpxnetServer, node_of};
use std::alloc::{AllocError, Global};
use std::net::{Ipv4Addr, SocketAddrV4};
use std::test::Fail;

/// The addresses of the routers of the other sites.
fn south_place() -> SocketAddrV4 {
    SocketAddrV4::new(Ipv4Addr::new(198, 51, 100, 7), 2130)
}

fn west_place() -> SocketAddrV4 {
    SocketAddrV4::new(Ipv4Addr::new(203, 0, 113, 5), 2131)
}

/// A packet between two nodes.
fn between(to: Node, from: Node) -> [u8; 34] {
    let mut bytes = packet(to);
    bytes[22..28].copy_from_slice(&from.0);
    bytes
}

/// The port over these sockets, joined to the others.
fn joined(alloc: Global, sockets: MemoryPlaces) -> Result<Servers<MemoryPlaces>, AllocError> {
    let routers = Vec::from_slice(alloc, &[south_place(), west_place()])?;
    let server = IpxnetServer::joined_to(alloc, PORT, 64, routers)?;
    let mut servers = Vec::new(alloc);
    servers.push(server)?;
    Ok(Servers::new(sockets, servers))
}

/// What is sent between a player here and one in the south. Each datagram is sent once to each that
/// gets it, the answer first, and nothing that a site sent goes to any site.
#[test]
fn datagrams_of_sites(rt: HostRuntime) -> Result<(), Fail> {
    let all = packet(Node::BROADCAST);
    let back = between(FIRST_NODE, SECOND_NODE);
    let told = between(Node::BROADCAST, SECOND_NODE);
    let mut sockets = MemoryPlaces::new(rt.alloc(), 1);
    sockets.put(0, first_place(), &REGISTRATION)?;
    sockets.put(0, first_place(), &all)?;
    sockets.put(0, first_place(), &CAME)?;
    sockets.put(0, south_place(), &back)?;
    sockets.put(0, first_place(), &CAME)?;
    sockets.put(0, south_place(), &told)?;
    sockets.put(0, south_place(), &all)?;
    let mut servers = joined(rt.alloc(), sockets)?;
    let mut room = [0; 1536];
    servers.receive(0, &mut room)?;
    assert!(rt; went_after(servers.sockets(), 0, &[first_place()], &ANSWER));
    let sites = [south_place(), west_place()];
    servers.receive(0, &mut room)?;
    assert!(rt; went_after(servers.sockets(), 1, &sites, &all));
    servers.receive(0, &mut room)?;
    assert!(rt; went_after(servers.sockets(), 3, &sites, &CAME));
    servers.receive(0, &mut room)?;
    assert!(rt; went_after(servers.sockets(), 5, &[first_place()], &back));
    servers.receive(0, &mut room)?;
    assert!(rt; went_after(servers.sockets(), 6, &[south_place()], &CAME));
    servers.receive(0, &mut room)?;
    assert!(rt; went_after(servers.sockets(), 7, &[first_place()], &told));
    // What the player here sent to all comes back to nobody.
    servers.receive(0, &mut room)?;
    assert_eq!(rt; servers.sockets().went().len(), 8);
    assert_eq!(rt; servers.servers()[0].counts().not_behind, 1);
    assert_eq!(rt; servers.servers()[0].clients().len(), 1);
    assert_eq!(rt; servers.filtered(), 7);
    Ok(())
}

/// Packets of the core: to a node that no client here has they are sent to the sites, to all nodes
/// only here. One that comes from this network is sent to no site.
#[test]
fn packets_of_the_core_by_sites(rt: HostRuntime) -> Result<(), Fail> {
    let mut sockets = MemoryPlaces::new(rt.alloc(), 1);
    put_player(&mut sockets, first_place(), FIRST_NODE)?;
    sockets.put(0, west_place(), &between(FIRST_NODE, SECOND_NODE))?;
    let mut servers = joined(rt.alloc(), sockets)?;
    let mut room = [0; 1536];
    for _datagram in 0..3_u32 {
        servers.receive(0, &mut room)?;
    }
    let mut forwarded = CAME;
    forwarded[18..22].copy_from_slice(&[0, 0, 0, 0x99]);
    let sent = servers.send(0, SECOND_NODE, &forwarded);
    assert!(rt; matches!(sent, Ok(PacketSent::Transmitted(1))));
    assert!(rt; went_after(servers.sockets(), 2, &[west_place()], &forwarded));
    servers.send(0, node_of(PORT, unknown_place()), &forwarded)?;
    assert!(rt;
        went_after(
            servers.sockets(),
            3,
            &[south_place(), west_place()],
            &forwarded
        )
    );
    servers.send(0, Node::BROADCAST, &CAME)?;
    assert!(rt; went_after(servers.sockets(), 5, &[first_place()], &CAME));
    servers.send(0, SECOND_NODE, &CAME)?;
    assert_eq!(rt; servers.sockets().went().len(), 6);
    assert_eq!(rt; servers.servers()[0].counts().no_such_node, 1);
    Ok(())
}

/// A failure to send to one site keeps no other from its datagram.
#[test]
fn a_site_that_fails(rt: HostRuntime) -> Result<(), Fail> {
    let mut sockets = MemoryPlaces::new(rt.alloc(), 1);
    let all = packet(Node::BROADCAST);
    sockets.put(0, first_place(), &all)?;
    sockets.break_place(south_place());
    let mut servers = joined(rt.alloc(), sockets)?;
    let mut room = [0; 1536];
    servers.receive(0, &mut room)?;
    assert!(rt; went_after(servers.sockets(), 0, &[west_place()], &all));
    Ok(())
}
