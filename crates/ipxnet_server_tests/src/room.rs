//! How many players there may be, in all and of one IP address.

use crate::fixture::{
    FIRST_NODE, PORT, REGISTRATION, enter, first_place, packet, second_place, third_place,
};
use ipx_wire::Node;
use ipxnet_server::{
    Disposition, IpxnetServer, MAX_ADDRESS_CLIENTS, MAX_CLIENTS, ServerDrop, node_of,
};
use std::net::{Ipv4Addr, SocketAddrV4};
use std::test::Fail;

/// The address with this number: sixteen of one IP address, then those of the next.
fn place(number: u16) -> SocketAddrV4 {
    let last = u8::try_from(number / 16).unwrap_or(0);
    SocketAddrV4::new(Ipv4Addr::new(192, 0, 2, last), number)
}

/// The address with this number, all of one IP address.
fn of_one_ip(number: u16) -> SocketAddrV4 {
    SocketAddrV4::new(Ipv4Addr::new(198, 51, 100, 1), number)
}

/// Why an address does not become a client at a given time. A registration and the first packet
/// are dropped for the same cause.
fn enters(server: &mut IpxnetServer, from: SocketAddrV4, now: u64) -> Option<ServerDrop> {
    let registered = server.hear(from, &REGISTRATION, now);
    let node = node_of(PORT, from);
    match server.hear(from, &packet(Node::BROADCAST, 0x4001, node), now) {
        Disposition::Dropped(drop) if registered == Disposition::Dropped(drop) => Some(drop),
        Disposition::Dropped(_) => Some(ServerDrop::Unregistered),
        _ => None,
    }
}

/// How many are allowed: 1 to 150.
#[test]
fn how_many_there_may_be(rt: HostRuntime) -> Result<(), Fail> {
    for (most, may) in [(0, false), (1, true), (64, true), (150, true), (151, false)] {
        assert_eq!(rt; IpxnetServer::may_have(most), may);
    }
    assert_eq!(rt; (MAX_CLIENTS, MAX_ADDRESS_CLIENTS), (150, 16));
    Ok(())
}

/// In a full server, the player that was silent longest makes room after a minute.
#[test]
fn who_makes_room(rt: HostRuntime) -> Result<(), Fail> {
    let mut server = IpxnetServer::new(rt.alloc(), PORT, 2)?;
    assert_eq!(rt; enters(&mut server, first_place(), 0), None);
    assert_eq!(rt; enters(&mut server, second_place(), 10), None);
    // The first is heard again, so that the second was silent longer.
    server.hear(
        first_place(),
        &packet(Node::BROADCAST, 0x4001, FIRST_NODE),
        20,
    );
    assert_eq!(rt;
        enters(&mut server, third_place(), 60_009),
        Some(ServerDrop::Full)
    );
    assert_eq!(rt; server.counts().full, 2);
    assert_eq!(rt; enters(&mut server, third_place(), 60_010), None);
    assert_eq!(rt; server.clients().len(), 2);
    assert_eq!(rt; server.clients()[0].place, first_place());
    assert_eq!(rt; server.clients()[1].place, third_place());
    // A registration of a client does not let it stay longer.
    server.hear(first_place(), &REGISTRATION, 60_011);
    assert_eq!(rt; server.clients()[0].heard, 20);
    assert_eq!(rt; enters(&mut server, second_place(), 60_020), None);
    Ok(())
}

/// A hundred and fifty, and no more within the minute.
#[test]
fn a_full_server(rt: HostRuntime) -> Result<(), Fail> {
    let mut server = IpxnetServer::new(rt.alloc(), PORT, 150)?;
    for number in 1..=150 {
        assert_eq!(rt;
            enters(&mut server, place(number), 100 * u64::from(number)),
            None
        );
    }
    assert_eq!(rt; server.clients().len(), 150);
    let next = SocketAddrV4::new(Ipv4Addr::new(192, 0, 2, 200), 1);
    assert_eq!(rt; enters(&mut server, next, 60_099), Some(ServerDrop::Full));
    assert_eq!(rt; enters(&mut server, next, 60_100), None);
    assert_eq!(rt; server.clients().len(), 150);
    assert_eq!(rt; server.clients()[0].place, place(2));
    Ok(())
}

/// Sixteen of one IP address, and no more within the minute. They keep no other address out.
#[test]
fn sixteen_of_one_address(rt: HostRuntime) -> Result<(), Fail> {
    let mut server = IpxnetServer::new(rt.alloc(), PORT, 17)?;
    for number in 1..=16 {
        assert_eq!(rt;
            enters(&mut server, of_one_ip(number), u64::from(number)),
            None
        );
    }
    assert_eq!(rt;
        enters(&mut server, of_one_ip(17), 60_000),
        Some(ServerDrop::FullOfAddress)
    );
    assert_eq!(rt; server.counts().full_of_address, 2);
    assert_eq!(rt; enters(&mut server, first_place(), 60_000), None);
    assert_eq!(rt; server.clients().len(), 17);
    assert_eq!(rt;
        enters(&mut server, second_place(), 60_000),
        Some(ServerDrop::Full)
    );
    // Who was silent for a minute makes room for another of its address.
    assert_eq!(rt; enters(&mut server, of_one_ip(17), 60_001), None);
    assert_eq!(rt; server.clients().len(), 17);
    assert_eq!(rt; server.clients()[0].place, of_one_ip(2));
    assert_eq!(rt; server.clients()[16].place, of_one_ip(17));
    Ok(())
}

/// The one of the address goes, and not the one that was silent longest of all.
#[test]
fn another_of_its_address_goes(rt: HostRuntime) -> Result<(), Fail> {
    let mut server = IpxnetServer::new(rt.alloc(), PORT, 150)?;
    enter(&mut server, first_place(), 0);
    for number in 1..=16 {
        enter(&mut server, of_one_ip(number), 1000);
    }
    assert_eq!(rt; enters(&mut server, of_one_ip(17), 61_000), None);
    assert_eq!(rt; server.clients().len(), 17);
    assert_eq!(rt; server.clients()[0].place, first_place());
    assert_eq!(rt; server.clients()[1].place, of_one_ip(2));
    // If the clock goes back, nobody was silent.
    assert_eq!(rt;
        enters(&mut server, of_one_ip(18), 0),
        Some(ServerDrop::FullOfAddress)
    );
    Ok(())
}
