//! Requests that ping a listener, and their answers.

use ipx_carrier::Core;
use ipx_query::PingCore;
use ipx_wire::{Address, Network, Node, Socket};
use std::alloc::Global;
use std::process::Abort;
use std::test::Fail;

const OWN: Address = Address {
    network: Network(0x11),
    node: Node([0, 0, 0x7f, 0, 0, 9]),
    socket: Socket(0x4003),
};

const ROUTER: Node = Node([0, 0, 0x7f, 0, 0, 1]);

const LISTENER: Address = Address {
    network: Network(0x22),
    node: Node([0, 0, 0x0a, 2, 0, 0x1e]),
    socket: Socket(0x4002),
};

/// The request of id 0102 with one buffer: a system packet that asks for an acknowledgement, of
/// stream 00, to id ffff, with sequence, acknowledge and allocation numbers 0.
const REQUEST: &str = "ffff002a00050000002200000a02001e40020000001100007f0000094003\
    c0000102ffff000000000000";

/// The reply over two routers, from id 0305, and the same over three.
const REPLY: &str = "ffff002a02050000001100007f00000940030000002200000a02001e4002\
    800003050102000000000000";

const LATER: &str = "ffff002a03050000001100007f00000940030000002200000a02001e4002\
    800003050102000000000000";

/// What is not an answer: it asks for an acknowledgement; it is not a system packet; of stream fe;
/// to another id; from id ffff, and from id 0; from another socket, node and network; to another
/// socket, node and network; of type 4; with a truncated SPX header.
const STRANGE: [&str; 14] = [
    "ffff002a02050000001100007f00000940030000002200000a02001e4002c00003050102000000000000",
    "ffff002a02050000001100007f00000940030000002200000a02001e4002000003050102000000000000",
    "ffff002a02050000001100007f00000940030000002200000a02001e400280fe03050102000000000000",
    "ffff002a02050000001100007f00000940030000002200000a02001e4002800003050103000000000000",
    "ffff002a02050000001100007f00000940030000002200000a02001e40028000ffff0102000000000000",
    "ffff002a02050000001100007f00000940030000002200000a02001e4002800000000102000000000000",
    "ffff002a02050000001100007f00000940030000002200000a02001e4004800003050102000000000000",
    "ffff002a02050000001100007f00000940030000002200000a02001f4002800003050102000000000000",
    "ffff002a02050000001100007f00000940030000002300000a02001e4002800003050102000000000000",
    "ffff002a02050000001100007f00000940040000002200000a02001e4002800003050102000000000000",
    "ffff002a02050000001100007f00000840030000002200000a02001e4002800003050102000000000000",
    "ffff002a02050000001200007f00000940030000002200000a02001e4002800003050102000000000000",
    "ffff002a02040000001100007f00000940030000002200000a02001e4002800003050102000000000000",
    "ffff002902050000001100007f00000940030000002200000a02001e40028000030501020000000000",
];

/// A host that sends this many requests to the listener through the router.
fn pinger(count: u32) -> PingCore {
    PingCore::new(OWN, ROUTER, LISTENER, 0x0102, count)
}

/// Whether the core gives the request at a given time, to this node.
fn asks(alloc: Global, core: &mut PingCore, now: u64, first: Node) -> Result<bool, Fail> {
    let mut room = [0; 1536];
    let Some((port, node, count)) = core.next(alloc, now, &mut room)? else {
        return Ok(false);
    };
    let text = hex::encode(alloc, &room[..count])?;
    Ok(port == 0 && node == first && text.as_str() == REQUEST)
}

/// Whether it gives nothing at a given time.
fn rests(alloc: Global, core: &mut PingCore, now: u64) -> Result<bool, Fail> {
    let mut room = [0; 1536];
    Ok(core.next(alloc, now, &mut room)?.is_none())
}

fn hear(alloc: Global, core: &mut PingCore, text: &str) -> Result<(), Fail> {
    let bytes = hex::decode(alloc, text)?;
    core.hear(alloc, 0, &bytes, 0)?;
    Ok(())
}

fn stands(rt: &impl Abort, core: &PingCore, sent: u32, answered: u64, answer: Option<u8>) {
    assert_eq!(rt; core.sent(), sent);
    assert_eq!(rt; core.answered(), answered);
    assert_eq!(rt; core.answer(), answer);
}

/// One request a second, each of the same bytes, to the router.
#[test]
fn one_request_a_second(rt: HostRuntime) -> Result<(), Fail> {
    let alloc = rt.alloc();
    let mut core = pinger(3);
    assert!(rt; asks(alloc, &mut core, 7000, ROUTER)?);
    assert!(rt; rests(alloc, &mut core, 7999)?);
    assert!(rt; asks(alloc, &mut core, 8000, ROUTER)?);
    assert!(rt; rests(alloc, &mut core, 8001)?);
    assert!(rt; asks(alloc, &mut core, 9500, ROUTER)?);
    assert!(rt; rests(alloc, &mut core, 99_000)?);
    stands(&rt, &core, 3, 0, None);
    assert!(rt; !core.is_done(11_499));
    assert!(rt; core.is_done(11_500));
    assert_eq!(rt; core.status(), 1);
    Ok(())
}

/// An answer counts once, and for the latest request.
#[test]
fn answers_count(rt: HostRuntime) -> Result<(), Fail> {
    let alloc = rt.alloc();
    let mut core = pinger(2);
    hear(alloc, &mut core, REPLY)?;
    stands(&rt, &core, 0, 0, None);
    assert!(rt; asks(alloc, &mut core, 0, ROUTER)?);
    hear(alloc, &mut core, REPLY)?;
    stands(&rt, &core, 1, 1, Some(2));
    hear(alloc, &mut core, LATER)?;
    stands(&rt, &core, 1, 1, Some(2));
    assert!(rt; !core.is_done(900));
    assert!(rt; asks(alloc, &mut core, 1000, ROUTER)?);
    stands(&rt, &core, 2, 1, None);
    assert_eq!(rt; core.passed(), 2);
    assert!(rt; !core.is_done(1000));
    hear(alloc, &mut core, LATER)?;
    stands(&rt, &core, 2, 2, Some(3));
    assert_eq!(rt; core.passed(), 3);
    assert!(rt; core.is_done(1000));
    assert_eq!(rt; core.status(), 0);
    Ok(())
}

#[test]
fn what_is_no_answer(rt: HostRuntime) -> Result<(), Fail> {
    let alloc = rt.alloc();
    let mut core = pinger(1);
    assert!(rt; asks(alloc, &mut core, 0, ROUTER)?);
    for text in STRANGE {
        hear(alloc, &mut core, text)?;
        stands(&rt, &core, 1, 0, None);
    }
    hear(alloc, &mut core, "")?;
    stands(&rt, &core, 1, 0, None);
    assert_eq!(rt; core.status(), 1);
    Ok(())
}

/// A listener on the host's own network is asked without a router. Without requests it is over at
/// once.
#[test]
fn at_hand_and_none(rt: HostRuntime) -> Result<(), Fail> {
    let alloc = rt.alloc();
    let near = Address {
        network: Network(0x11),
        ..LISTENER
    };
    let mut core = PingCore::new(OWN, ROUTER, near, 1, 1);
    let mut room = [0; 1536];
    let given = core.next(alloc, 0, &mut room)?;
    assert!(rt; given == Some((0, near.node, 42)));
    assert_eq!(rt; room[32], 0);
    assert_eq!(rt; room[33], 1);
    assert!(rt; pinger(0).is_done(0));
    Ok(())
}
