//! Players that were clients before a restart: who is noted again, and when each is pinged.

use crate::fixture::{
    FIRST_NODE, PORT, REGISTRATION, enter, first_place, packet, second_place, third_place,
};
use crate::sites::{north, south_place};
use ipxnet_server::{Disposition, IpxnetServer, MAX_ADDRESS_NOTED, MAX_NOTED, NoteCause, Noted};
use std::net::{Ipv4Addr, SocketAddrV4};
use std::test::Fail;

/// An address of a host: 198.18.0.1, 198.18.0.2 and so on.
fn of_host(host: u8, port: u16) -> SocketAddrV4 {
    SocketAddrV4::new(Ipv4Addr::new(198, 18, 0, host), port)
}

/// Which of the noted addresses a turn at this time pings.
fn asked_at(server: &mut IpxnetServer, now: u64) -> [bool; 2] {
    let turn = server.begin_pings(now);
    let noted = server.noted();
    [
        noted.first().is_some_and(|one| turn.asks(one)),
        noted.get(1).is_some_and(|one| turn.asks(one)),
    ]
}

/// They are noted in order, and are no clients.
#[test]
fn who_is_noted(rt: HostRuntime) -> Result<(), Fail> {
    let mut server = IpxnetServer::new(rt.alloc(), PORT, 64)?;
    server.note_again(first_place(), 0);
    server.note_again(second_place(), 0);
    server.note_again(first_place(), 0);
    let first = Noted {
        place: first_place(),
        since: 0,
        cause: NoteCause::Restart(0),
    };
    let second = Noted {
        place: second_place(),
        since: 0,
        cause: NoteCause::Restart(1),
    };
    assert_eq!(rt; server.noted(), [first, second].as_slice());
    assert!(rt; server.clients().is_empty());
    Ok(())
}

/// The first is pinged at 1 and 4 seconds, the second 20 ms later each, and then neither is noted.
#[test]
fn when_they_are_pinged(rt: HostRuntime) -> Result<(), Fail> {
    let mut server = IpxnetServer::new(rt.alloc(), PORT, 64)?;
    server.note_again(first_place(), 0);
    server.note_again(second_place(), 0);
    assert_eq!(rt; server.next_pings(), Some(1000));
    assert_eq!(rt; asked_at(&mut server, 999), [false, false]);
    assert_eq!(rt; asked_at(&mut server, 1000), [true, false]);
    assert_eq!(rt; server.next_pings(), Some(1020));
    assert_eq!(rt; asked_at(&mut server, 1020), [false, true]);
    assert_eq!(rt; server.next_pings(), Some(4000));
    assert_eq!(rt; asked_at(&mut server, 3999), [false, false]);
    assert_eq!(rt; asked_at(&mut server, 4000), [true, false]);
    assert_eq!(rt; asked_at(&mut server, 4020), [true, false]);
    assert_eq!(rt; server.noted()[0].place, second_place());
    assert_eq!(rt; asked_at(&mut server, 4021), [false, false]);
    assert!(rt; server.noted().is_empty());
    assert_eq!(rt; server.next_pings(), None);
    Ok(())
}

/// Who answers is a client, and is noted no more.
#[test]
fn who_answers(rt: HostRuntime) -> Result<(), Fail> {
    let mut server = IpxnetServer::new(rt.alloc(), PORT, 64)?;
    server.note_again(first_place(), 0);
    assert_eq!(rt; asked_at(&mut server, 1000), [true, false]);
    assert_eq!(rt;
        server.hear(first_place(), &packet(PORT.own, 2, FIRST_NODE), 1001),
        Disposition::PingAnswered
    );
    assert_eq!(rt; server.clients()[0].place, first_place());
    assert!(rt; server.noted().is_empty());
    Ok(())
}

/// Nobody is who is a client, who is noted since it registered, or a joined router.
#[test]
fn who_is_not_noted(rt: HostRuntime) -> Result<(), Fail> {
    let mut server = north(rt.alloc())?;
    enter(&mut server, first_place(), 7);
    server.hear(third_place(), &REGISTRATION, 8);
    for place in [first_place(), third_place(), south_place()] {
        server.note_again(place, 9);
    }
    let wanted = Noted {
        place: third_place(),
        since: 8,
        cause: NoteCause::Registration,
    };
    assert_eq!(rt; server.noted(), [wanted].as_slice());
    Ok(())
}

/// Sixty-four are noted, sixteen of one IP address, and no other goes for them.
#[test]
fn how_many(rt: HostRuntime) -> Result<(), Fail> {
    let mut server = IpxnetServer::new(rt.alloc(), PORT, 64)?;
    for port in 1..=17 {
        server.note_again(of_host(1, port), 0);
    }
    assert_eq!(rt; server.noted().len(), MAX_ADDRESS_NOTED);
    for host in 2..=60 {
        server.note_again(of_host(host, 1), 0);
    }
    assert_eq!(rt; server.noted().len(), MAX_NOTED);
    assert_eq!(rt; server.noted()[0].place, of_host(1, 1));
    assert_eq!(rt; server.noted()[63].place, of_host(49, 1));
    assert_eq!(rt; server.noted()[63].cause, NoteCause::Restart(63));
    server.begin_pings(2259);
    let turn = server.begin_pings(2260);
    assert!(rt; turn.asks(&server.noted()[63]));
    Ok(())
}
