//! What becomes of a datagram of one of three players: it is answered, it is sent to the others,
//! and the core gets what is for it.

use crate::fixture::{
    ANSWER, CAME, PORT, REGISTRATION, after_registrations, first_place, packet, second_place,
    servers, third_place, unknown_place, went_after,
};
use ipx_carrier::{PortDriver, PortDriverFilters};
use ipx_ipxnet_ports::MemoryPlaces;
use ipx_wire::Node;
use std::test::Fail;

/// A ping of the first player, and the router's answer.
const PING: [u8; 30] = [
    0xff, 0xff, 0, 0x1e, 0, 0, 0, 0, 0, 0, 0xff, 0xff, 0xff, 0xff, 0xff, 0xff, 0, 2, 0, 0, 0, 0, 2,
    0x7c, 0x63, 0xc8, 0xd4, 0xdf, 0, 2,
];

const PONG: [u8; 30] = [
    0xff, 0xff, 0, 0x1e, 0, 0, 0, 0, 0, 0, 2, 0x7c, 0x63, 0xc8, 0xd4, 0xdf, 0, 2, 0, 0, 0, 0, 2, 0,
    0, 0, 0xd0, 0x5b, 0, 2,
];

/// A registration is answered, byte by byte, and the core gets nothing of it.
#[test]
fn a_registration(rt: HostRuntime) -> Result<(), Fail> {
    let alloc = rt.alloc();
    let mut sockets = MemoryPlaces::new(alloc, 1);
    sockets.put(0, first_place(), &REGISTRATION)?;
    let mut servers = servers(alloc, sockets)?;
    servers.set_time(7);
    let mut room = [0xaa; 1536];
    assert!(rt; matches!(servers.receive(0, &mut room), Ok(None)));
    assert!(rt; went_after(servers.sockets(), 0, &[first_place()], &ANSWER));
    assert_eq!(rt; room, [0xaa; 1536]);
    assert_eq!(rt; servers.filtered(), 1);
    let noted = servers.servers()[0].noted();
    assert_eq!(rt; noted.len(), 1);
    assert_eq!(rt; (noted[0].place, noted[0].since), (first_place(), 7));
    assert!(rt; servers.servers()[0].clients().is_empty());
    // Now nothing waits.
    assert!(rt; matches!(servers.receive(0, &mut room), Ok(None)));
    assert_eq!(rt; servers.filtered(), 1);
    Ok(())
}

/// To all nodes: to both others, in the order in which they were heard, and not back.
#[test]
fn to_all(rt: HostRuntime) -> Result<(), Fail> {
    let bytes = packet(Node::BROADCAST);
    let mut servers = after_registrations(rt.alloc(), &bytes)?;
    let mut room = [0xaa; 1536];
    assert!(rt; matches!(servers.receive(0, &mut room), Ok(None)));
    assert!(rt;
        went_after(
            servers.sockets(),
            3,
            &[second_place(), third_place()],
            &bytes
        )
    );
    assert_eq!(rt; room, [0xaa; 1536]);
    assert_eq!(rt; servers.filtered(), 7);
    Ok(())
}

/// To the node of one player: only to that one.
#[test]
fn to_one(rt: HostRuntime) -> Result<(), Fail> {
    let mut servers = after_registrations(rt.alloc(), &CAME)?;
    let mut room = [0; 1536];
    assert!(rt; matches!(servers.receive(0, &mut room), Ok(None)));
    assert!(rt; went_after(servers.sockets(), 3, &[second_place()], &CAME));
    Ok(())
}

/// A ping is answered first, and sent to the others after that.
#[test]
fn a_ping(rt: HostRuntime) -> Result<(), Fail> {
    let mut servers = after_registrations(rt.alloc(), &PING)?;
    let mut room = [0; 1536];
    assert!(rt; matches!(servers.receive(0, &mut room), Ok(None)));
    let sent = servers.sockets().went();
    assert_eq!(rt; sent.len(), 6);
    assert_eq!(rt; sent[3].place, first_place());
    assert_eq!(rt; sent[3].bytes.as_slice(), PONG.as_slice());
    assert!(rt;
        went_after(
            servers.sockets(),
            4,
            &[second_place(), third_place()],
            &PING
        )
    );
    assert_eq!(rt; servers.filtered(), 7);
    Ok(())
}

/// To the router's node: the core gets it as it came, as far as it fits its buffer, and no player
/// does.
#[test]
fn to_the_core(rt: HostRuntime) -> Result<(), Fail> {
    let bytes = packet(PORT.own);
    let mut servers = after_registrations(rt.alloc(), &bytes)?;
    let mut room = [0xaa; 1536];
    assert!(rt; matches!(servers.receive(0, &mut room), Ok(Some(34))));
    assert_eq!(rt; &room[..34], bytes.as_slice());
    assert_eq!(rt; room[34], 0xaa);
    assert_eq!(rt; servers.sockets().went().len(), 3);
    assert_eq!(rt; servers.filtered(), 6);
    let mut servers = after_registrations(rt.alloc(), &bytes)?;
    let mut small = [0xaa; 12];
    assert!(rt; matches!(servers.receive(0, &mut small), Ok(Some(12))));
    assert_eq!(rt; small.as_slice(), &bytes[..12]);
    Ok(())
}

/// A request to all nodes for a route reaches the router too.
#[test]
fn to_all_and_the_core(rt: HostRuntime) -> Result<(), Fail> {
    let mut bytes = packet(Node::BROADCAST);
    bytes[16..18].copy_from_slice(&[4, 0x53]);
    bytes[30..32].copy_from_slice(&[0, 1]);
    let mut servers = after_registrations(rt.alloc(), &bytes)?;
    let mut room = [0; 1536];
    assert!(rt; matches!(servers.receive(0, &mut room), Ok(Some(34))));
    assert_eq!(rt; &room[..34], bytes.as_slice());
    assert!(rt;
        went_after(
            servers.sockets(),
            3,
            &[second_place(), third_place()],
            &bytes
        )
    );
    assert_eq!(rt; servers.filtered(), 6);
    Ok(())
}

/// What an unregistered sender sends is dropped, and it gets nothing.
#[test]
fn an_unknown_sender(rt: HostRuntime) -> Result<(), Fail> {
    let alloc = rt.alloc();
    let mut sockets = MemoryPlaces::new(alloc, 1);
    sockets.put(0, first_place(), &REGISTRATION)?;
    sockets.put(0, unknown_place(), &CAME)?;
    sockets.put(0, unknown_place(), &packet(Node::BROADCAST))?;
    sockets.put(0, unknown_place(), &REGISTRATION[..20])?;
    sockets.put(0, first_place(), &packet(Node::BROADCAST))?;
    let mut servers = servers(alloc, sockets)?;
    let mut room = [0xaa; 1536];
    for _datagram in 0..5_u32 {
        assert!(rt; matches!(servers.receive(0, &mut room), Ok(None)));
    }
    // Only the answer to the first player was sent.
    assert!(rt; went_after(servers.sockets(), 0, &[first_place()], &ANSWER));
    assert_eq!(rt; room, [0xaa; 1536]);
    assert_eq!(rt; servers.servers()[0].counts().unregistered, 2);
    assert_eq!(rt; servers.servers()[0].counts().malformed, 1);
    assert_eq!(rt; servers.filtered(), 5);
    Ok(())
}
