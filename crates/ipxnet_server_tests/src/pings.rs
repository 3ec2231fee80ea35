//! What `ipxnet ping` sends, and who answers it.

use crate::caller::give;
use crate::fixture::{
    CAME, PORT, enter, first_place, packet, register_all, second_place, third_place,
};
use ipxnet_server::{Disposition, IpxnetServer, ServerDrop};
use std::test::Fail;

/// A ping of the first player.
const PING: [u8; 30] = [
    0xff, 0xff, 0, 0x1e, 0, 0, 0, 0, 0, 0, 0xff, 0xff, 0xff, 0xff, 0xff, 0xff, 0, 2, 0, 0, 0, 0, 2,
    0x7c, 0x63, 0xc8, 0xd4, 0xdf, 0, 2,
];

/// The router's answer to it.
const ANSWER: [u8; 30] = [
    0xff, 0xff, 0, 0x1e, 0, 0, 0, 0, 0, 0, 2, 0x7c, 0x63, 0xc8, 0xd4, 0xdf, 0, 2, 0, 0, 0, 0, 2, 0,
    0, 0, 0xd0, 0x5b, 0, 2,
];

/// The second player's answer to it.
const OF_SECOND: [u8; 30] = [
    0xff, 0xff, 0, 0x1e, 0, 0, 0, 0, 0, 0, 2, 0x7c, 0x63, 0xc8, 0xd4, 0xdf, 0, 2, 0, 0, 0, 0, 2,
    0x3d, 0x99, 0x6d, 0xb9, 0xd7, 0, 2,
];

/// The router answers with its node, and the others get the ping; the core does not.
#[test]
fn a_ping(rt: HostRuntime) -> Result<(), Fail> {
    let mut server = IpxnetServer::new(rt.alloc(), PORT, 64)?;
    register_all(&mut server);
    assert_eq!(rt;
        give(&mut server, first_place(), &PING),
        (true, [false, true, true], false)
    );
    assert_eq!(rt; server.hear(first_place(), &PING, 0).answer(), Some(ANSWER));
    // The others answer for themselves, only to the sender.
    assert_eq!(rt;
        give(&mut server, second_place(), &OF_SECOND),
        (false, [true, false, false], false)
    );
    Ok(())
}

/// It may name the network, come from another socket, and be longer.
#[test]
fn a_ping_of_another_kind(rt: HostRuntime) -> Result<(), Fail> {
    let mut server = IpxnetServer::new(rt.alloc(), PORT, 64)?;
    register_all(&mut server);
    let mut bytes = CAME;
    bytes[10..18].copy_from_slice(&[0xff, 0xff, 0xff, 0xff, 0xff, 0xff, 0, 2]);
    assert_eq!(rt;
        server.hear(first_place(), &bytes, 0).answer(),
        Some(ANSWER)
    );
    Ok(())
}

/// A ping to one node is sent there like any packet. To the router's node it is what an answer to a
/// ping is too: for nobody. One to another network is dropped.
#[test]
fn pings_that_the_router_leaves(rt: HostRuntime) -> Result<(), Fail> {
    let mut server = IpxnetServer::new(rt.alloc(), PORT, 64)?;
    register_all(&mut server);
    let mut bytes = PING;
    bytes[10..16].copy_from_slice(&[2, 0x64, 0x6a, 0xa8, 0xbe, 0x2d]);
    assert_eq!(rt;
        server.hear(first_place(), &bytes, 0),
        Disposition::ToClient(third_place())
    );
    bytes[10..16].copy_from_slice(&PORT.own.0);
    assert_eq!(rt;
        server.hear(first_place(), &bytes, 0),
        Disposition::PingAnswered
    );
    let mut elsewhere = PING;
    elsewhere[9] = 0x99;
    let dropped = server.hear(first_place(), &elsewhere, 0);
    assert!(rt; matches!(dropped, Disposition::Dropped(ServerDrop::PingElsewhere(_))));
    elsewhere[10..16].copy_from_slice(&[2, 0, 0, 0, 0, 1]);
    server.hear(first_place(), &elsewhere, 0);
    assert_eq!(rt; server.counts().ping_elsewhere, 2);
    Ok(())
}

/// From an address that is not registered it is not answered.
#[test]
fn a_ping_of_an_unknown_sender(rt: HostRuntime) -> Result<(), Fail> {
    let mut server = IpxnetServer::new(rt.alloc(), PORT, 64)?;
    enter(&mut server, second_place(), 0);
    assert_eq!(rt;
        give(&mut server, third_place(), &PING),
        (false, [false; 3], false)
    );
    assert_eq!(rt; server.counts().unregistered, 1);
    Ok(())
}
