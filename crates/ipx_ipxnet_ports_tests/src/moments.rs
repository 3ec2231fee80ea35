//! Players, by the times that are set: which are forgotten, which come back, and which are pinged.

use crate::fixture::{
    ANSWER, CAME, ENTERED, REGISTRATION, SECOND_ANSWER, SECOND_NODE, first_place, registrations,
    second_place, servers, shows, third_place, went_after,
};
use ipx_carrier::{PortDriver, PortDriverFilters};
use ipx_ipxnet_ports::{MemoryPlaces, PlaceSockets, Servers};
use std::test::Fail;

/// Receives this many datagrams, of which the core gets nothing.
fn hear(servers: &mut Servers<MemoryPlaces>, count: u32) -> Result<bool, Fail> {
    let mut room = [0xaa; 1536];
    for _datagram in 0..count {
        if servers.receive(0, &mut room)?.is_some() {
            return Ok(false);
        }
    }
    Ok(room == [0xaa; 1536])
}

/// A player that was silent for five minutes is unknown to others, until it sends a packet.
#[test]
fn forgotten_and_back(rt: HostRuntime) -> Result<(), Fail> {
    let alloc = rt.alloc();
    let mut sockets = registrations(alloc)?;
    sockets.put(0, first_place(), &CAME)?;
    sockets.put(0, first_place(), &CAME)?;
    sockets.put(0, second_place(), &CAME)?;
    sockets.put(0, second_place(), &REGISTRATION)?;
    sockets.put(0, second_place(), &shows(SECOND_NODE))?;
    sockets.put(0, first_place(), &CAME)?;
    let mut servers = servers(alloc, sockets)?;
    servers.set_time(5);
    assert!(rt; hear(&mut servers, ENTERED)?);
    servers.set_time(300_004);
    assert!(rt; hear(&mut servers, 1)?);
    assert!(rt; went_after(servers.sockets(), 3, &[second_place()], &CAME));
    servers.set_time(300_005);
    assert!(rt; hear(&mut servers, 2)?);
    assert_eq!(rt; servers.sockets().went().len(), 4);
    assert_eq!(rt; servers.servers()[0].counts().no_such_node, 1);
    assert_eq!(rt; servers.servers()[0].counts().unregistered, 1);
    // The first player was just heard, and is the only one.
    assert_eq!(rt; servers.servers()[0].clients().len(), 1);
    assert_eq!(rt; servers.servers()[0].clients()[0].place, first_place());
    assert!(rt; hear(&mut servers, 2)?);
    assert!(rt; went_after(servers.sockets(), 4, &[second_place()], &SECOND_ANSWER));
    assert!(rt; hear(&mut servers, 1)?);
    assert!(rt; went_after(servers.sockets(), 5, &[second_place()], &CAME));
    assert_eq!(rt; servers.filtered(), 12);
    Ok(())
}

/// Who registers again from its address is answered as before, and is noted once, since the first
/// time: no registration in its name puts off its pings.
#[test]
fn registered_again(rt: HostRuntime) -> Result<(), Fail> {
    let alloc = rt.alloc();
    let mut sockets = MemoryPlaces::new(alloc, 1);
    sockets.put(0, first_place(), &REGISTRATION)?;
    sockets.put(0, first_place(), &REGISTRATION)?;
    let mut servers = servers(alloc, sockets)?;
    servers.set_time(7);
    assert!(rt; hear(&mut servers, 1)?);
    servers.set_time(9000);
    assert!(rt; hear(&mut servers, 1)?);
    assert!(rt;
        went_after(
            servers.sockets(),
            0,
            &[first_place(), first_place()],
            &ANSWER
        )
    );
    let noted = servers.servers()[0].noted();
    assert_eq!(rt; (noted.len(), noted[0].since), (1, 7));
    assert!(rt; servers.servers()[0].clients().is_empty());
    servers.send_pings();
    assert!(rt; went_after(servers.sockets(), 2, &[first_place()], &PING));
    Ok(())
}

/// If the time is set back, no time has passed: all are known as before.
#[test]
fn a_moment_set_back(rt: HostRuntime) -> Result<(), Fail> {
    let alloc = rt.alloc();
    let mut sockets = registrations(alloc)?;
    sockets.put(0, first_place(), &CAME)?;
    let mut servers = servers(alloc, sockets)?;
    servers.set_time(300_005);
    assert!(rt; hear(&mut servers, ENTERED)?);
    servers.set_time(0);
    assert!(rt; hear(&mut servers, 1)?);
    assert!(rt; went_after(servers.sockets(), 3, &[second_place()], &CAME));
    let known = servers.servers()[0].clients();
    assert_eq!(rt; known.len(), 3);
    assert_eq!(rt;
        (known[0].place, known[1].place),
        (second_place(), third_place())
    );
    assert_eq!(rt; (known[0].since, known[2].since), (300_005, 300_005));
    Ok(())
}

/// Forged registrations: each of the addresses gets its answer, and two pings of as many bytes. They
/// make no client.
#[test]
fn who_never_shows_its_node(rt: HostRuntime) -> Result<(), Fail> {
    let alloc = rt.alloc();
    let mut sockets = MemoryPlaces::new(alloc, 1);
    for place in [first_place(), second_place()] {
        sockets.put(0, place, &REGISTRATION)?;
    }
    let mut servers = servers(alloc, sockets)?;
    assert!(rt; hear(&mut servers, 2)?);
    assert_eq!(rt; servers.next_pings(), Some(5500));
    let mut went = 2;
    for (now, pings) in [
        (5499, 0),
        (5500, 2),
        (8499, 0),
        (8500, 2),
        (20_000, 0),
        (60_000, 0),
    ] {
        servers.set_time(now);
        servers.send_pings();
        let to = [first_place(), second_place()];
        assert!(rt; went_after(servers.sockets(), went, &to[..pings], &PING));
        went += pings;
    }
    assert_eq!(rt; servers.next_pings(), None);
    assert!(rt; servers.servers()[0].clients().is_empty());
    for sent in servers.sockets().went() {
        assert_eq!(rt; sent.bytes.len(), 30);
    }
    Ok(())
}

/// The ping of the router to silent players.
const PING: [u8; 30] = [
    0xff, 0xff, 0, 0x1e, 0, 0, 0, 0, 0, 0, 0xff, 0xff, 0xff, 0xff, 0xff, 0xff, 0, 2, 0, 0, 0, 0, 2,
    0, 0, 0, 0xd0, 0x5b, 0, 2,
];

/// The first player's answer to it.
const PONG: [u8; 30] = [
    0xff, 0xff, 0, 0x1e, 0, 0, 0, 0, 0, 0, 2, 0, 0, 0, 0xd0, 0x5b, 0, 2, 0, 0, 0, 0, 2, 0x7c, 0x63,
    0xc8, 0xd4, 0xdf, 0, 2,
];

/// Silent players are pinged after 25 seconds, and again after 25 more. One that answers is not, and
/// the core gets nothing of the answer. After five minutes the others are forgotten by a turn alone.
#[test]
fn pinged_and_forgotten(rt: HostRuntime) -> Result<(), Fail> {
    let alloc = rt.alloc();
    let mut sockets = registrations(alloc)?;
    sockets.put(0, first_place(), &PONG)?;
    let mut servers = servers(alloc, sockets)?;
    servers.set_time(5);
    servers.send_pings();
    assert_eq!(rt; servers.next_pings(), None);
    assert!(rt; hear(&mut servers, ENTERED)?);
    assert_eq!(rt; servers.next_pings(), Some(25_005));
    servers.set_time(25_004);
    servers.send_pings();
    assert_eq!(rt; servers.sockets().went().len(), 3);
    servers.set_time(25_005);
    servers.send_pings();
    let all = [first_place(), second_place(), third_place()];
    assert!(rt; went_after(servers.sockets(), 3, &all, &PING));
    servers.send_pings();
    assert_eq!(rt; servers.sockets().went().len(), 6);
    assert!(rt; hear(&mut servers, 1)?);
    servers.set_time(50_005);
    servers.send_pings();
    // The first one was heard last, 25 seconds before.
    let all = [second_place(), third_place(), first_place()];
    assert!(rt; went_after(servers.sockets(), 6, &all, &PING));
    servers.set_time(300_005);
    servers.send_pings();
    assert_eq!(rt; servers.servers()[0].clients().len(), 1);
    assert_eq!(rt; servers.servers()[0].clients()[0].place, first_place());
    assert_eq!(rt; servers.filtered(), 7);
    Ok(())
}

/// A ping that cannot be sent is counted, and the other players get theirs.
#[test]
fn a_ping_that_fails(rt: HostRuntime) -> Result<(), Fail> {
    let alloc = rt.alloc();
    let mut sockets = registrations(alloc)?;
    sockets.break_place(second_place());
    let mut servers = servers(alloc, sockets)?;
    assert!(rt; hear(&mut servers, ENTERED)?);
    let before = servers.sockets().failures();
    let went = servers.sockets().went().len();
    servers.set_time(25_000);
    servers.send_pings();
    assert_eq!(rt; servers.sockets().failures(), before + 1);
    assert!(rt;
        went_after(
            servers.sockets(),
            went,
            &[first_place(), third_place()],
            &PING
        )
    );
    assert_eq!(rt; servers.failures(), 0);
    Ok(())
}
