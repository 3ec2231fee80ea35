//! What a switch notices of frames that show a mistake on the segment.

use crate::switch_caller::give;
use crate::switch_fixture::{FIRST, PORT, SECOND, arp, frame};
use ipx_ethernet::{Claim, EthernetPort, Notices, Sender, StationMove, Switch};
use ipx_wire::{Network, Node};
use std::alloc::Global;
use std::process::Abort;
use std::test::Fail;

/// Nothing was noticed.
const NONE: Notices = Notices {
    claims: 0,
    last_claim: None,
    moves: 0,
    last_move: None,
    last_own: None,
    last_encapsulation: None,
};

/// RIP of the router 00001b2c3d4e to all stations, in Ethernet II. It answers, from socket 453 of
/// network 23 and with no hop, that network 44 is 1 hop and 2 ticks away.
const RIP: [u8; 54] = [
    0xff, 0xff, 0xff, 0xff, 0xff, 0xff, 0, 0, 0x1b, 0x2c, 0x3d, 0x4e, 0x81, 0x37, 0xff, 0xff, 0,
    0x28, 0, 1, 0, 0, 0, 0x23, 0xff, 0xff, 0xff, 0xff, 0xff, 0xff, 4, 0x53, 0, 0, 0, 0x23, 0, 0,
    0x1b, 0x2c, 0x3d, 0x4e, 4, 0x53, 0, 2, 0, 0, 0, 0x44, 0, 1, 0, 2,
];

/// Where the fields are in it: the destination, the source, the length or type, the hops, and the
/// source network, node and socket of the packet.
const TO: usize = 0;

const FROM: usize = 6;

const TYPE: usize = 12;

const HOPS: usize = 18;

const SOURCE_NETWORK: usize = 32;

const SOURCE_NODE: usize = 36;

const SOURCE_SOCKET: usize = 42;

const ROUTER: Node = Node([0, 0, 0x1b, 0x2c, 0x3d, 0x4e]);

/// That frame with other bytes at a place.
fn with(place: usize, bytes: &[u8]) -> [u8; 54] {
    let mut frame = RIP;
    frame[place..place + bytes.len()].copy_from_slice(bytes);
    frame
}

/// What a switch has noticed after one frame from the remote 1.
fn after(rt: &impl Abort, alloc: Global, bytes: &[u8]) -> Result<Notices, Fail> {
    let mut switch = Switch::new(alloc, PORT, true)?;
    assert_eq!(rt; switch.notices(), NONE);
    give(&mut switch, 1, bytes, 1000);
    Ok(switch.notices())
}

fn claim_of(network: u32) -> Notices {
    Notices {
        claims: 1,
        last_claim: Some(Claim {
            router: Sender {
                node: ROUTER,
                end: 1,
            },
            network: Network(network),
        }),
        ..NONE
    }
}

/// RIP and SAP of a router that has another network than the port.
#[test]
fn claims(rt: HostRuntime) -> Result<(), Fail> {
    assert_eq!(rt; after(&rt, rt.alloc(), &RIP)?, claim_of(0x23));
    let sap = with(SOURCE_SOCKET, &[4, 0x52]);
    assert_eq!(rt; after(&rt, rt.alloc(), &sap)?, claim_of(0x23));
    let large = with(SOURCE_NETWORK, &[0, 0, 0xd0, 0x5b]);
    assert_eq!(rt; after(&rt, rt.alloc(), &large)?, claim_of(0xd05b));
    Ok(())
}

/// Frames that lack one of the conditions claim nothing.
#[test]
fn no_claims(rt: HostRuntime) -> Result<(), Fail> {
    let rows = [
        ("to one station", with(TO, &PORT.own.0)),
        ("to a group", with(TO, &[9, 0, 0x1b, 0xff, 0xff, 0xff])),
        ("socket 451", with(SOURCE_SOCKET, &[4, 0x51])),
        ("socket 454", with(SOURCE_SOCKET, &[4, 0x54])),
        ("one hop", with(HOPS, &[1])),
        (
            "another node",
            with(SOURCE_NODE, &[0, 0, 0x1b, 0x2c, 0x3d, 0x4f]),
        ),
        ("network 0", with(SOURCE_NETWORK, &[0, 0, 0, 0])),
        ("the port's network", with(SOURCE_NETWORK, &[0, 0, 0, 0x22])),
        ("another protocol", with(TYPE, &[8, 0])),
        (
            "a source that is a group",
            with(FROM, &[1, 0, 0x1b, 0x2c, 0x3d, 0x4e]),
        ),
    ];
    for (name, bytes) in rows {
        assert_eq!(rt; (name, after(&rt, rt.alloc(), &bytes)?), (name, NONE));
    }
    // Cut by a byte, it is no packet. An ARP request is none either.
    assert_eq!(rt; after(&rt, rt.alloc(), &RIP[..53])?, NONE);
    assert_eq!(rt; after(&rt, rt.alloc(), &arp(FIRST))?, NONE);
    assert_eq!(rt; after(&rt, rt.alloc(), &[])?, NONE);
    Ok(())
}

/// In raw 802.3 it is a frame of another encapsulation.
#[test]
fn another_encapsulation(rt: HostRuntime) -> Result<(), Fail> {
    let raw = with(TYPE, &[0, 0x28]);
    let last = Notices {
        last_encapsulation: Some(Sender {
            node: ROUTER,
            end: 1,
        }),
        ..NONE
    };
    assert_eq!(rt; after(&rt, rt.alloc(), &raw)?, last);
    Ok(())
}

/// A frame from the port's own address says where it came from, and nothing else.
#[test]
fn the_own_address(rt: HostRuntime) -> Result<(), Fail> {
    let mut switch = Switch::new(rt.alloc(), PORT, false)?;
    give(&mut switch, 2, &with(FROM, &PORT.own.0), 1000);
    let last = Notices {
        last_own: Some(2),
        ..NONE
    };
    assert_eq!(rt; switch.notices(), last);
    assert_eq!(rt; switch.counts().own, 1);
    Ok(())
}

/// A station that is heard at another remote has moved, unless a second has passed.
#[test]
fn moves(rt: HostRuntime) -> Result<(), Fail> {
    let mut switch = Switch::new(rt.alloc(), PORT, true)?;
    let bytes = frame(SECOND, FIRST);
    give(&mut switch, 0, &bytes, 1000);
    give(&mut switch, 0, &bytes, 1001);
    assert_eq!(rt; switch.notices(), NONE);
    give(&mut switch, 2, &bytes, 2000);
    let last = Notices {
        moves: 1,
        last_move: Some(StationMove {
            node: FIRST,
            before: 0,
            after: 2,
        }),
        ..NONE
    };
    assert_eq!(rt; switch.notices(), last);
    // A second later it may be there, and also if the clock went back.
    give(&mut switch, 1, &bytes, 3000);
    give(&mut switch, 0, &bytes, 2999);
    assert_eq!(rt; switch.notices(), last);
    give(&mut switch, 1, &bytes, 2999);
    assert_eq!(rt; switch.notices().moves, 2);
    // Another station is another.
    give(&mut switch, 2, &frame(FIRST, SECOND), 2999);
    assert_eq!(rt; switch.notices().moves, 2);
    Ok(())
}

/// In each encapsulation of a port its own frames are the ones in which a router claims a network.
#[test]
fn claims_in_802_2(rt: HostRuntime) -> Result<(), Fail> {
    let port = EthernetPort {
        encapsulation: ipx_ethernet::Encapsulation::Llc,
        ..PORT
    };
    let mut switch = Switch::new(rt.alloc(), port, true)?;
    let mut bytes = [0; 60];
    bytes[..12].copy_from_slice(&RIP[..12]);
    bytes[12..17].copy_from_slice(&[0, 0x2b, 0xe0, 0xe0, 3]);
    bytes[17..57].copy_from_slice(&RIP[14..]);
    give(&mut switch, 1, &bytes, 1000);
    assert_eq!(rt; switch.notices(), claim_of(0x23));
    give(&mut switch, 1, &RIP, 1000);
    assert_eq!(rt; switch.notices().claims, 1);
    Ok(())
}
