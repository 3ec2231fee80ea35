//! A router with two ipxnet servers: what a player asks it, and what is sent from one server to the
//! other.

use crate::fixture::{
    ANSWER, FIRST_NODE, PORT, REGISTRATION, SECOND_NODE, SECRET, first_place, put_player,
    second_place, server,
};
use ipx_carrier::{
    Core, PortDriver, PortDriverFilters, PriorityRouterCore, SteppedClock, run_batch,
    run_once_over_ports,
};
use ipx_ipxnet_ports::{MemoryDatagram, MemoryPlaces, Servers};
use ipx_router::{Port, Router};
use ipx_wire::{Network, Node};
use ipxnet_server::{IpxnetServer, ServerCounts, ServerPort};
use std::alloc::Global;
use std::net::SocketAddrV4;
use std::test::Fail;

/// The other port, whose network 00000099 players are told.
const OTHER: ServerPort = ServerPort {
    network: Network(0x99),
    own: Node([2, 0, 0, 0, 0, 0x99]),
    secret: SECRET,
};

/// A request of the first player for the route to network 99, and its answer: 1 hop and 1 tick.
const ASKS: [u8; 40] = [
    0xff, 0xff, 0, 0x28, 0, 1, 0, 0, 0, 0, 0xff, 0xff, 0xff, 0xff, 0xff, 0xff, 4, 0x53, 0, 0, 0xd0,
    0x5b, 2, 0x7c, 0x63, 0xc8, 0xd4, 0xdf, 4, 0x53, 0, 1, 0, 0, 0, 0x99, 0xff, 0xff, 0xff, 0xff,
];

const TOLD: [u8; 40] = [
    0xff, 0xff, 0, 0x28, 0, 1, 0, 0, 0xd0, 0x5b, 2, 0x7c, 0x63, 0xc8, 0xd4, 0xdf, 4, 0x53, 0, 0,
    0xd0, 0x5b, 2, 0, 0, 0, 0xd0, 0x5b, 4, 0x53, 0, 2, 0, 0, 0, 0x99, 0, 1, 0, 1,
];

/// A packet of the first player to the second, on network 99; and the same one hop later.
const ACROSS: [u8; 34] = [
    0xff, 0xff, 0, 0x22, 0, 4, 0, 0, 0, 0x99, 2, 0xc0, 0xbb, 0x2b, 0x54, 0xde, 0x40, 1, 0, 0, 0, 0,
    2, 0x7c, 0x63, 0xc8, 0xd4, 0xdf, 0x40, 1, 1, 2, 3, 4,
];

const ARRIVES: [u8; 34] = [
    0xff, 0xff, 0, 0x22, 1, 4, 0, 0, 0, 0x99, 2, 0xc0, 0xbb, 0x2b, 0x54, 0xde, 0x40, 1, 0, 0, 0xd0,
    0x5b, 2, 0x7c, 0x63, 0xc8, 0xd4, 0xdf, 0x40, 1, 1, 2, 3, 4,
];

/// The answer to the second player, at the other port.
const OTHER_ANSWER: [u8; 30] = [
    0xff, 0xff, 0, 0x1e, 0, 0, 0, 0, 0, 0x99, 2, 0xc0, 0xbb, 0x2b, 0x54, 0xde, 0, 2, 0, 0, 0, 0x99,
    2, 0, 0, 0, 0, 0x99, 0, 2,
];

/// What the second player answers to a ping of the router there. By that it is a client.
const OTHER_SHOWS: [u8; 30] = [
    0xff, 0xff, 0, 0x1e, 0, 0, 0, 0, 0, 0, 2, 0, 0, 0, 0, 0x99, 0, 2, 0, 0, 0, 0, 2, 0xc0, 0xbb,
    0x2b, 0x54, 0xde, 0, 2,
];

/// A request of the first player for all routes.
const ASKS_ALL: [u8; 40] = [
    0xff, 0xff, 0, 0x28, 0, 1, 0, 0, 0, 0, 0xff, 0xff, 0xff, 0xff, 0xff, 0xff, 4, 0x53, 0, 0, 0xd0,
    0x5b, 2, 0x7c, 0x63, 0xc8, 0xd4, 0xdf, 4, 0x53, 0, 1, 0xff, 0xff, 0xff, 0xff, 0xff, 0xff, 0xff,
    0xff,
];

/// The header of a neighbour's RIP response on network 99, before 50 routes of 8 bytes each.
const TELLS: [u8; 32] = [
    0xff, 0xff, 1, 0xb0, 0, 1, 0, 0, 0, 0x99, 0xff, 0xff, 0xff, 0xff, 0xff, 0xff, 4, 0x53, 0, 0, 0,
    0x99, 0, 0, 0x7f, 0, 0, 5, 4, 0x53, 0, 2,
];

/// A router of both ports.
fn core(alloc: Global) -> Result<PriorityRouterCore, Fail> {
    let mut ports = Vec::new(alloc);
    for port in [PORT, OTHER] {
        ports.push(Port {
            network: port.network,
            node: port.own,
            cost: 1,
        })?;
    }
    Ok(PriorityRouterCore::new(alloc, Router::new(alloc, ports)?))
}

/// Both ports. The first player registers at the first one, asks, and sends to the second player,
/// who registers at the other.
fn both_servers(alloc: Global) -> Result<Servers<MemoryPlaces>, Fail> {
    let mut sockets = MemoryPlaces::new(alloc, 2);
    sockets.put(0, first_place(), &REGISTRATION)?;
    sockets.put(1, second_place(), &REGISTRATION)?;
    sockets.put(1, second_place(), &OTHER_SHOWS)?;
    sockets.put(0, first_place(), &ASKS)?;
    sockets.put(0, first_place(), &ACROSS)?;
    let mut servers = Vec::new(alloc);
    servers.push(IpxnetServer::new(alloc, PORT, 64)?)?;
    servers.push(IpxnetServer::new(alloc, OTHER, 64)?)?;
    Ok(Servers::new(sockets, servers))
}

/// Whether a datagram was sent by a port to an address, and is these bytes.
fn is_for(
    datagram: Option<&MemoryDatagram>,
    port: usize,
    place: SocketAddrV4,
    bytes: &[u8],
) -> bool {
    match datagram {
        Some(it) => it.port == port && it.place == place && it.bytes.as_slice() == bytes,
        None => false,
    }
}

/// The neighbour advertises 50 routes, from a network number on, each of 1 hop and 2 ticks.
fn tells(first: u32) -> [u8; 432] {
    let mut bytes = [0; 432];
    bytes[..32].copy_from_slice(&TELLS);
    for place in 0..50_u32 {
        let at = 32 + 8 * place as usize;
        bytes[at..at + 4].copy_from_slice(&(first + place).to_be_bytes());
        bytes[at + 4..at + 8].copy_from_slice(&[0, 1, 0, 2]);
    }
    bytes
}

/// If there are more sockets than servers, or fewer, there are as many ports as both are for.
#[test]
fn numbers_that_differ(rt: HostRuntime) -> Result<(), Fail> {
    let alloc = rt.alloc();
    for (sockets, ports) in [(0, 0), (1, 1), (2, 1)] {
        let servers = Servers::new(MemoryPlaces::new(alloc, sockets), server(alloc)?);
        assert_eq!(rt; servers.ports(), ports);
    }
    for (sockets, ports) in [(0, 0), (1, 1), (2, 2), (3, 2)] {
        let mut both = server(alloc)?;
        both.push(IpxnetServer::new(alloc, OTHER, 64)?)?;
        let servers = Servers::new(MemoryPlaces::new(alloc, sockets), both);
        assert_eq!(rt; servers.ports(), ports);
    }
    let servers = Servers::new(MemoryPlaces::new(alloc, 2), Vec::new(alloc));
    assert_eq!(rt; servers.ports(), 0);
    Ok(())
}

#[test]
fn a_router_of_two_servers(rt: HostRuntime) -> Result<(), Fail> {
    let alloc = rt.alloc();
    let mut core = core(alloc)?;
    let mut servers = both_servers(alloc)?;
    let mut clock = SteppedClock::new(0, 10);
    // Both registrations are answered. What the router asks and advertises at its start is sent to
    // nobody.
    let first = run_once_over_ports(alloc, &mut core, &mut servers, &mut clock)?;
    assert_eq!(rt; (first.heard, first.sent, first.unmapped), (0, 6, 0));
    let went = servers.sockets().went();
    assert_eq!(rt; went.len(), 2);
    assert!(rt; is_for(went.first(), 0, first_place(), &ANSWER));
    assert!(rt; is_for(went.get(1), 1, second_place(), &OTHER_ANSWER));
    // The first player's request is answered, only to that player.
    let second = run_once_over_ports(alloc, &mut core, &mut servers, &mut clock)?;
    assert_eq!(rt; (second.heard, second.sent, second.unmapped), (1, 1, 0));
    assert_eq!(rt; servers.sockets().went().len(), 3);
    assert!(rt; is_for(servers.sockets().went().last(), 0, first_place(), &TOLD));
    // What it sends to the second one arrives at the other server, one hop later.
    let third = run_once_over_ports(alloc, &mut core, &mut servers, &mut clock)?;
    assert_eq!(rt; (third.heard, third.sent, third.unmapped), (1, 1, 0));
    assert_eq!(rt; servers.sockets().went().len(), 4);
    assert!(rt; is_for(servers.sockets().went().last(), 1, second_place(), &ARRIVES));
    assert_eq!(rt; servers.filtered(), 3);
    Ok(())
}

/// The same in one batch, which is quiet in the end.
#[test]
fn a_batch_of_two_servers(rt: HostRuntime) -> Result<(), Fail> {
    let alloc = rt.alloc();
    let mut core = core(alloc)?;
    let mut servers = both_servers(alloc)?;
    let mut clock = SteppedClock::new(0, 10);
    let batch = run_batch(alloc, &mut core, &mut servers, &mut clock, 100);
    assert_eq!(rt; (batch.heard, batch.sent, batch.unmapped), (2, 8, 0));
    assert!(rt; batch.quiet && batch.fault.is_none());
    assert_eq!(rt; servers.sockets().went().len(), 4);
    assert!(rt; is_for(servers.sockets().went().last(), 1, second_place(), &ARRIVES));
    Ok(())
}

/// A table of 1,000 routes is advertised in 21 datagrams a minute, and no player gets one of them.
/// A player that asks for all of it gets all, and nobody else does.
#[test]
fn a_full_table_is_told_to_nobody(rt: HostRuntime) -> Result<(), Fail> {
    let alloc = rt.alloc();
    let mut core = core(alloc)?;
    let mut sockets = MemoryPlaces::new(alloc, 2);
    put_player(&mut sockets, first_place(), FIRST_NODE)?;
    put_player(&mut sockets, second_place(), SECOND_NODE)?;
    let mut servers_of_both = server(alloc)?;
    servers_of_both.push(IpxnetServer::new(alloc, OTHER, 64)?)?;
    let mut servers = Servers::new(sockets, servers_of_both);
    let start = run_batch(
        alloc,
        &mut core,
        &mut servers,
        &mut SteppedClock::new(0, 1),
        100,
    );
    assert!(rt; start.quiet && start.fault.is_none());
    assert_eq!(rt; servers.sockets().went().len(), 2);
    for datagram in 0..20_u32 {
        core.hear(alloc, 1, &tells(0x1_0000 + 50 * datagram), 100)?;
    }
    let minute = run_batch(
        alloc,
        &mut core,
        &mut servers,
        &mut SteppedClock::new(60_000, 1),
        200,
    );
    assert!(rt; minute.quiet && minute.fault.is_none() && minute.sent > 21);
    assert_eq!(rt; servers.sockets().went().len(), 2);
    assert_eq!(rt; servers.servers()[0].counts(), ServerCounts::new());
    let mut room = [0; 1536];
    core.hear(alloc, 0, &ASKS_ALL, 60_300)?;
    while core.queued() > 0 {
        if let Some((port, node, size)) = core.next(alloc, 60_300, &mut room)? {
            servers.send(port, node, &room[..size])?;
        }
    }
    let went = servers.sockets().went();
    assert_eq!(rt; went.len(), 23);
    assert!(rt;
        went[2..]
            .iter()
            .all(|it| it.port == 0 && it.place == first_place())
    );
    Ok(())
}
