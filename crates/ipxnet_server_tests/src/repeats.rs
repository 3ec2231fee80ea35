//! IP addresses that register again and again, and of which nobody becomes a client.

use crate::fixture::{PORT, REGISTRATION, enter, first_place, second_place, third_place};
use ipxnet_server::{IpxnetServer, Repeats};
use std::net::{Ipv4Addr, SocketAddrV4};
use std::test::Fail;

/// The places of one IP address from which somebody registers: DOSBox takes another UDP port each
/// time.
fn place(ip: u8, udp_port: u16) -> SocketAddrV4 {
    SocketAddrV4::new(Ipv4Addr::new(203, 0, 113, ip), udp_port)
}

fn repeats(count: u64, last: SocketAddrV4) -> Repeats {
    Repeats {
        count,
        last: Some(last),
    }
}

/// The third registration within a minute is told, and three more are told again.
#[test]
fn the_third_time(rt: HostRuntime) -> Result<(), Fail> {
    let mut server = IpxnetServer::new(rt.alloc(), PORT, 64)?;
    let never = Repeats {
        count: 0,
        last: None,
    };
    server.hear(place(9, 1), &REGISTRATION, 1000);
    server.hear(place(9, 2), &REGISTRATION, 7000);
    assert_eq!(rt; server.repeats(), never);
    server.hear(place(9, 3), &REGISTRATION, 60_999);
    assert_eq!(rt; server.repeats(), repeats(1, place(9, 3)));
    server.hear(place(9, 3), &REGISTRATION, 61_000);
    server.hear(place(9, 3), &REGISTRATION, 61_000);
    assert_eq!(rt; server.repeats(), repeats(1, place(9, 3)));
    server.hear(place(9, 4), &REGISTRATION, 61_000);
    assert_eq!(rt; server.repeats(), repeats(2, place(9, 4)));
    Ok(())
}

/// A minute after the first one, the third is not told. Those of other IP addresses do not count.
#[test]
fn within_a_minute(rt: HostRuntime) -> Result<(), Fail> {
    let mut server = IpxnetServer::new(rt.alloc(), PORT, 64)?;
    for (ip, at) in [(9, 1000), (9, 2000), (8, 3000), (7, 4000), (9, 61_000)] {
        server.hear(place(ip, 5), &REGISTRATION, at);
    }
    assert_eq!(rt; server.repeats().count, 0);
    server.hear(place(9, 6), &REGISTRATION, 61_999);
    assert_eq!(rt; server.repeats(), repeats(1, place(9, 6)));
    Ok(())
}

/// Of an IP address of which somebody is a client no registration counts, and no other datagram
/// counts ever.
#[test]
fn who_has_a_client(rt: HostRuntime) -> Result<(), Fail> {
    let mut server = IpxnetServer::new(rt.alloc(), PORT, 64)?;
    enter(&mut server, first_place(), 0);
    for at in 1..10 {
        server.hear(first_place(), &REGISTRATION, at);
        server.hear(second_place(), &REGISTRATION, at);
        server.hear(third_place(), b"abc", at);
    }
    assert_eq!(rt; server.repeats().count, 0);
    Ok(())
}

/// Registrations from 64 other IP addresses make one forget, and those of one do not.
#[test]
fn many(rt: HostRuntime) -> Result<(), Fail> {
    let mut server = IpxnetServer::new(rt.alloc(), PORT, 64)?;
    server.hear(third_place(), &REGISTRATION, 0);
    server.hear(third_place(), &REGISTRATION, 0);
    for number in 0..300 {
        server.hear(place(9, number), &REGISTRATION, 1);
    }
    assert_eq!(rt; server.repeats(), repeats(100, place(9, 299)));
    server.hear(third_place(), &REGISTRATION, 2);
    assert_eq!(rt; server.repeats(), repeats(101, third_place()));
    server.hear(third_place(), &REGISTRATION, 3);
    server.hear(third_place(), &REGISTRATION, 3);
    for ip in 0..64 {
        server.hear(place(ip, 5), &REGISTRATION, 4);
    }
    server.hear(third_place(), &REGISTRATION, 5);
    assert_eq!(rt; server.repeats().count, 101);
    Ok(())
}
