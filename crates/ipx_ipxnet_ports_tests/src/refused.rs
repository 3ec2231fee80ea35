//! Memory is refused as a datagram is put, received or sent.

use crate::fixture::{
    ANSWER, CAME, ENTERED, FIRST_NODE, REGISTRATION, SECOND_ANSWER, SECOND_NODE, THIRD_ANSWER,
    THIRD_NODE, first_place, packet, second_place, server, shows, third_place, went_after,
};
use ipx_carrier::{PacketSent, PortDriver, PortDriverFilters};
use ipx_ipxnet_ports::{MemoryDatagram, MemoryPlaces, PlaceSockets, Servers};
use ipx_wire::{Node, OutOfMemory};
use ipxnet_server::ServerCounts;
use std::alloc::Global;
use std::net::SocketAddrV4;
use std::test::Fail;

/// Puts a datagram, again if memory is refused.
fn put(sockets: &mut MemoryPlaces, place: SocketAddrV4, bytes: &[u8]) -> Result<(), OutOfMemory> {
    match sockets.put(0, place, bytes) {
        Ok(()) => Ok(()),
        Err(_) => sockets.put(0, place, bytes),
    }
}

/// The port over these sockets, again if memory is refused.
fn over(alloc: Global, sockets: MemoryPlaces) -> Result<Servers<MemoryPlaces>, Fail> {
    let all = match server(alloc) {
        Ok(all) => all,
        Err(_) => server(alloc)?,
    };
    Ok(Servers::new(sockets, all))
}

/// Whether all that was sent is among these, in this order, each once.
fn are_of(went: &[MemoryDatagram], all: &[(SocketAddrV4, &[u8])]) -> bool {
    let mut found = 0;
    for (place, bytes) in all {
        if found < went.len()
            && went[found].place == *place
            && went[found].bytes.as_slice() == *bytes
        {
            found += 1;
        }
    }
    found == went.len()
}

/// If a datagram can't be put, those that wait are as they were. If one that comes can't be
/// recorded, nothing came; if its answer can't, it did. The sockets fail, and that is counted.
#[test]
fn refused_datagrams(rt: HostRuntime) -> Result<(), Fail> {
    let alloc = rt.alloc();
    let mut sockets = MemoryPlaces::new(alloc, 1);
    put(&mut sockets, first_place(), &REGISTRATION)?;
    let mut servers = over(alloc, sockets)?;
    let mut room = [0xaa; 1536];
    assert!(rt; matches!(servers.receive(0, &mut room), Ok(None)));
    assert_eq!(rt; room, [0xaa; 1536]);
    let known = servers.servers()[0].noted().len();
    let failures = servers.sockets().failures();
    if known == 0 {
        assert_eq!(rt; failures, 1);
        assert_eq!(rt; servers.filtered(), 0);
        assert!(rt; servers.sockets().went().is_empty());
    } else if failures == 1 {
        assert_eq!(rt; servers.filtered(), 1);
        assert!(rt; servers.sockets().went().is_empty());
    } else {
        assert_eq!(rt; failures, 0);
        assert_eq!(rt; servers.filtered(), 1);
        assert!(rt; went_after(servers.sockets(), 0, &[first_place()], &ANSWER));
    }
    assert_eq!(rt; servers.servers()[0].counts(), ServerCounts::new());
    assert_eq!(rt; servers.failures(), 0);
    // Nothing waits, even if it was lost.
    assert!(rt; matches!(servers.receive(0, &mut room), Ok(None)));
    assert_eq!(rt; servers.servers()[0].noted().len(), known);
    Ok(())
}

/// Three players register and show their nodes, and the first one sends to all. At most one datagram
/// is lost, received or sent, and all others are sent in order. Then a packet of the core is sent to
/// all except at most one.
#[test]
fn refused_relays(rt: HostRuntime) -> Result<(), Fail> {
    let alloc = rt.alloc();
    let bytes = packet(Node::BROADCAST);
    let mut sockets = MemoryPlaces::new(alloc, 1);
    let players = [
        (first_place(), FIRST_NODE),
        (second_place(), SECOND_NODE),
        (third_place(), THIRD_NODE),
    ];
    for (place, node) in players {
        put(&mut sockets, place, &REGISTRATION)?;
        put(&mut sockets, place, &shows(node))?;
    }
    put(&mut sockets, first_place(), &bytes)?;
    let mut servers = over(alloc, sockets)?;
    let mut room = [0xaa; 1536];
    for _datagram in 0..ENTERED + 1 {
        assert!(rt; matches!(servers.receive(0, &mut room), Ok(None)));
    }
    assert_eq!(rt; room, [0xaa; 1536]);
    let all: [(SocketAddrV4, &[u8]); 5] = [
        (first_place(), &ANSWER),
        (second_place(), &SECOND_ANSWER),
        (third_place(), &THIRD_ANSWER),
        (second_place(), &bytes),
        (third_place(), &bytes),
    ];
    let went = servers.sockets().went().len();
    let known = servers.servers()[0].clients().len();
    let failures = servers.sockets().failures();
    assert!(rt; are_of(servers.sockets().went(), &all));
    if servers.filtered() == 7 {
        // All of them came, and one may not have been sent.
        assert_eq!(rt; (went as u64 + failures, known), (5, 3));
        assert!(rt; failures <= 1);
    } else {
        // One did not come: a registration, which is then not answered, what makes its sender a
        // client, or what is for the others. Without its answer the first one is a client by its
        // packet to all.
        assert_eq!(rt; (servers.filtered(), failures), (6, 1));
        assert!(rt; (3..=5).contains(&went) && known >= 2);
    }
    let sent = servers.send(0, Node::BROADCAST, &CAME);
    assert!(rt; matches!(sent, Ok(PacketSent::Transmitted(1))));
    let more = servers.sockets().went().len() - went;
    let lost = servers.sockets().failures() - failures;
    assert_eq!(rt; more as u64 + lost, known as u64);
    assert!(rt; failures + lost <= 1);
    Ok(())
}
