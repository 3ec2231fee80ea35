//! Pings of the server to silent players.

use crate::fixture::{
    FIRST_NODE, PORT, REGISTRATION, enter, first_place, packet, register_all, second_place,
    third_place,
};
use crate::sites::{north, south_place};
use ipx_wire::Node;
use ipxnet_server::{Disposition, IpxnetServer, PING_PERIOD_MS, ServerCounts};
use std::net::SocketAddrV4;
use std::test::Fail;

/// The ping: to all nodes of network 0, socket 2, from the router's node there.
const PING: [u8; 30] = [
    0xff, 0xff, 0, 0x1e, 0, 0, 0, 0, 0, 0, 0xff, 0xff, 0xff, 0xff, 0xff, 0xff, 0, 2, 0, 0, 0, 0, 2,
    0, 0, 0, 0xd0, 0x5b, 0, 2,
];

/// The first player's answer to it, as DOSBox sends it.
const OF_FIRST: [u8; 30] = [
    0xff, 0xff, 0, 0x1e, 0, 0, 0, 0, 0, 0, 2, 0, 0, 0, 0xd0, 0x5b, 0, 2, 0, 0, 0, 0, 2, 0x7c, 0x63,
    0xc8, 0xd4, 0xdf, 0, 2,
];

/// Which of the three players a turn at this time pings.
fn pinged(server: &mut IpxnetServer, now: u64) -> [bool; 3] {
    let turn = server.begin_pings(now);
    let is_pinged = |place: SocketAddrV4| {
        server
            .clients()
            .iter()
            .any(|client| client.place == place && turn.pings(client))
    };
    [
        is_pinged(first_place()),
        is_pinged(second_place()),
        is_pinged(third_place()),
    ]
}

/// A silent player is pinged after 25 seconds and each 25 after that, until it is forgotten. One that
/// was heard is not.
#[test]
fn who_is_pinged(rt: HostRuntime) -> Result<(), Fail> {
    let mut server = IpxnetServer::new(rt.alloc(), PORT, 64)?;
    assert_eq!(rt; PING_PERIOD_MS, 25_000);
    assert_eq!(rt; server.next_pings(), None);
    enter(&mut server, first_place(), 1000);
    enter(&mut server, second_place(), 2000);
    assert_eq!(rt; server.next_pings(), Some(26_000));
    assert_eq!(rt; pinged(&mut server, 25_999), [false; 3]);
    assert_eq!(rt; pinged(&mut server, 26_000), [true, false, false]);
    assert_eq!(rt; pinged(&mut server, 26_000), [false; 3]);
    assert_eq!(rt; server.next_pings(), Some(27_000));
    assert_eq!(rt; pinged(&mut server, 30_000), [false, true, false]);
    assert_eq!(rt; server.next_pings(), Some(51_000));
    // The first answers, and the second does not.
    assert_eq!(rt;
        server.hear(first_place(), &OF_FIRST, 30_001),
        Disposition::PingAnswered
    );
    assert_eq!(rt; server.next_pings(), Some(52_000));
    assert_eq!(rt; pinged(&mut server, 51_999), [false; 3]);
    assert_eq!(rt; pinged(&mut server, 52_000), [false, true, false]);
    assert_eq!(rt; pinged(&mut server, 55_000), [false; 3]);
    assert_eq!(rt; pinged(&mut server, 55_001), [true, false, false]);
    assert_eq!(rt; server.counts(), ServerCounts::new());
    Ok(())
}

/// Its bytes. Its answer is for nobody, and the player was heard.
#[test]
fn its_bytes_and_its_answer(rt: HostRuntime) -> Result<(), Fail> {
    let mut server = IpxnetServer::new(rt.alloc(), PORT, 64)?;
    register_all(&mut server);
    assert_eq!(rt; server.ping(), PING);
    let heard = server.hear(first_place(), &OF_FIRST, 9);
    assert_eq!(rt; heard, Disposition::PingAnswered);
    assert!(rt; heard.answer().is_none());
    assert!(rt; !heard.is_for_core());
    for place in [first_place(), second_place(), third_place()] {
        assert!(rt; !server.reaches(heard.takers(), place));
    }
    let last = server.clients()[2];
    assert_eq!(rt; (last.place, last.heard), (first_place(), 9));
    Ok(())
}

/// One who does not answer gets eleven pings, and is forgotten after five minutes by the next turn.
#[test]
fn who_does_not_answer(rt: HostRuntime) -> Result<(), Fail> {
    let mut server = IpxnetServer::new(rt.alloc(), PORT, 64)?;
    enter(&mut server, first_place(), 500);
    let mut pings = 0;
    for second in 1..=300 {
        if pinged(&mut server, second * 1000)[0] {
            pings += 1;
        }
    }
    assert_eq!(rt; pings, 11);
    assert_eq!(rt; server.clients().len(), 1);
    assert_eq!(rt; pinged(&mut server, 300_499), [false; 3]);
    assert_eq!(rt; server.clients().len(), 1);
    assert_eq!(rt; pinged(&mut server, 300_500), [false; 3]);
    assert!(rt; server.clients().is_empty());
    Ok(())
}

/// After a late turn the next ping comes when it is due. If the clock goes back, nobody is pinged.
#[test]
fn a_late_turn(rt: HostRuntime) -> Result<(), Fail> {
    let mut server = IpxnetServer::new(rt.alloc(), PORT, 64)?;
    enter(&mut server, first_place(), 0);
    assert_eq!(rt; pinged(&mut server, 60_000), [true, false, false]);
    assert_eq!(rt; pinged(&mut server, 30_000), [false; 3]);
    assert_eq!(rt; pinged(&mut server, 74_999), [true, false, false]);
    assert_eq!(rt; pinged(&mut server, 75_000), [true, false, false]);
    Ok(())
}

/// Only a server's own players are pinged, and not those of joined routers.
#[test]
fn at_a_joined_server(rt: HostRuntime) -> Result<(), Fail> {
    let mut here = north(rt.alloc())?;
    here.hear(
        south_place(),
        &packet(Node::BROADCAST, 0x4001, FIRST_NODE),
        0,
    );
    assert_eq!(rt; here.remote_clients().len(), 1);
    assert_eq!(rt; here.next_pings(), None);
    assert_eq!(rt; pinged(&mut here, 50_000), [false; 3]);
    assert_eq!(rt; here.remote_clients().len(), 1);
    Ok(())
}

/// Which of the three players a turn at this time pings as those that registered.
fn asked(server: &mut IpxnetServer, now: u64) -> [bool; 3] {
    let turn = server.begin_pings(now);
    let is_asked = |place: SocketAddrV4| {
        server
            .noted()
            .iter()
            .any(|noted| noted.place == place && turn.asks(noted))
    };
    [
        is_asked(first_place()),
        is_asked(second_place()),
        is_asked(third_place()),
    ]
}

/// Who registered is pinged after 5.5 and 8.5 seconds, and no more. Who answers is a client.
#[test]
fn who_registered(rt: HostRuntime) -> Result<(), Fail> {
    let mut server = IpxnetServer::new(rt.alloc(), PORT, 64)?;
    server.hear(first_place(), &REGISTRATION, 1000);
    server.hear(second_place(), &REGISTRATION, 2000);
    assert_eq!(rt; server.next_pings(), Some(6500));
    assert_eq!(rt; asked(&mut server, 6499), [false; 3]);
    assert_eq!(rt; asked(&mut server, 6500), [true, false, false]);
    assert_eq!(rt; asked(&mut server, 6500), [false; 3]);
    assert_eq!(rt; server.next_pings(), Some(7500));
    assert_eq!(rt;
        server.hear(first_place(), &OF_FIRST, 6501),
        Disposition::PingAnswered
    );
    assert_eq!(rt; server.clients()[0].node, FIRST_NODE);
    assert_eq!(rt; asked(&mut server, 7500), [false, true, false]);
    assert_eq!(rt; server.next_pings(), Some(10_500));
    assert_eq!(rt; asked(&mut server, 10_499), [false; 3]);
    assert_eq!(rt; asked(&mut server, 10_500), [false, true, false]);
    // The next is for the client, and the second player is noted no more.
    assert_eq!(rt; server.next_pings(), Some(31_501));
    assert_eq!(rt; server.noted().len(), 1);
    assert_eq!(rt; asked(&mut server, 12_000), [false; 3]);
    assert!(rt; server.noted().is_empty());
    assert_eq!(rt; server.clients().len(), 1);
    Ok(())
}

/// Who registers again is pinged 5.5 and 8.5 seconds after the first time, and after that as if it
/// had not registered yet.
#[test]
fn who_registered_again(rt: HostRuntime) -> Result<(), Fail> {
    let mut server = IpxnetServer::new(rt.alloc(), PORT, 64)?;
    server.hear(first_place(), &REGISTRATION, 0);
    server.hear(first_place(), &REGISTRATION, 4000);
    assert_eq!(rt; asked(&mut server, 5499), [false; 3]);
    assert_eq!(rt; asked(&mut server, 5500), [true, false, false]);
    server.hear(first_place(), &REGISTRATION, 6000);
    assert_eq!(rt; server.next_pings(), Some(8500));
    assert_eq!(rt; asked(&mut server, 8500), [true, false, false]);
    assert_eq!(rt; server.next_pings(), None);
    server.hear(first_place(), &REGISTRATION, 8501);
    assert_eq!(rt; server.next_pings(), Some(14_001));
    assert_eq!(rt; asked(&mut server, 14_001), [true, false, false]);
    Ok(())
}

/// However late a turn is, it pings who registered, and then one ping is left out.
#[test]
fn a_late_turn_for_who_registered(rt: HostRuntime) -> Result<(), Fail> {
    let mut server = IpxnetServer::new(rt.alloc(), PORT, 64)?;
    server.hear(first_place(), &REGISTRATION, 0);
    server.hear(second_place(), b"abc", 60_000);
    assert_eq!(rt; asked(&mut server, 60_000), [true, false, false]);
    assert_eq!(rt; server.next_pings(), None);
    assert_eq!(rt; asked(&mut server, 60_001), [false; 3]);
    assert!(rt; server.noted().is_empty());
    Ok(())
}
