//! Worked cases of datagrams in a buffer that the router may change, with literal bytes before and
//! after.

use crate::fixture::{NETWORK_44, answer, three_ports};
use crate::nothing::bytes_at_last;
use crate::refused::{answer_at_last, ports_at_last};
use ipx_router::{InPlace, Outcome, Router};
use ipx_wire::OutOfMemory;
use std::alloc::Global;
use std::process::Abort;
use std::test::Fail;

/// What the router answers in place. A port that does not exist is reported as out of memory.
fn answer_in_place(
    alloc: Global,
    router: &mut Router,
    number: u8,
    bytes: &mut [u8],
) -> Result<InPlace, OutOfMemory> {
    if number == 0 || number as usize > router.ports().len() {
        return Err(OutOfMemory);
    }
    router.receive_in_place(alloc, number, bytes, 0)
}

/// The answer as text. For a forwarded packet, that is its port, next node and length.
fn answer_text(alloc: Global, outcome: &InPlace) -> Result<String, Fail> {
    let text = match outcome {
        InPlace::Forward { port, next, count } => {
            let next = hex::encode(alloc, next.0)?;
            format!(in alloc; "on {port} {next} {count}")?
        }
        InPlace::Replies(replies) => {
            let count = replies.len();
            format!(in alloc; "replies {count}")?
        }
        InPlace::Heard(count) => format!(in alloc; "heard {count}")?,
        InPlace::Dropped(reason) => {
            let number = reason.number();
            format!(in alloc; "dropped {number}")?
        }
    };
    Ok(text)
}

/// The port, the bytes that come in, the answer, and all bytes of the buffer after it.
#[derive(Clone, Copy)]
struct Case {
    port: u8,
    before: &'static str,
    answer: &'static str,
    after: &'static str,
}

/// Packets that are changed: by a learned route, with padding; by a port, with a source network of
/// 0; and one that takes its last hop.
const CHANGED: [Case; 3] = [
    Case {
        port: 1,
        before: "ffff001e00000000004400007f00000540000000001100007f0000034001aabb",
        answer: "on 2 00007f000009 30",
        after: "ffff001e01000000004400007f00000540000000001100007f0000034001aabb",
    },
    Case {
        port: 1,
        before: "ffff002000000000002200007f00000840000000000000007f0000034001abcd",
        answer: "on 2 00007f000008 32",
        after: "ffff002001000000002200007f00000840000000001100007f0000034001abcd",
    },
    Case {
        port: 3,
        before: "ffff001e0e000000001100007f00000540000000003300007f0000034001",
        answer: "on 1 00007f000005 30",
        after: "ffff001e0f000000001100007f00000540000000003300007f0000034001",
    },
];

/// Packets that stay unchanged: dropped for its hops, its network, its type or its length; a
/// response that is learned, and a request that is answered.
const LEFT: [(u8, &str, &str); 6] = [
    (
        3,
        "ffff001e0f000000001100007f00000540000000003300007f0000034001",
        "dropped 22",
    ),
    (
        1,
        "ffff001e00000000009900007f00000540000000001100007f0000034001aabb",
        "dropped 21",
    ),
    (
        1,
        "ffff001e00140000002200007f00000540000000001100007f0000034001",
        "dropped 19",
    ),
    (
        1,
        "ffff001f00000000002200007f00000540000000001100007f0000034001",
        "dropped 18",
    ),
    (2, NETWORK_44, "heard 1"),
    (
        1,
        "ffff0028000100000011ffffffffffff04530000001100007f00000304530001ffffffffffffffff",
        "replies 1",
    ),
];

fn is_answered(
    rt: &impl Abort,
    alloc: Global,
    router: &mut Router,
    case: &Case,
) -> Result<(), Fail> {
    let mut bytes = hex::decode(alloc, case.before.as_bytes())?;
    let outcome = answer_in_place(alloc, router, case.port, &mut bytes)?;
    assert_eq!(rt; answer_text(alloc, &outcome)?.as_str(), case.answer);
    assert_eq!(rt; hex::encode(alloc, bytes.as_slice())?.as_str(), case.after);
    Ok(())
}

#[test]
fn changed_in_place(rt: HostRuntime) -> Result<(), Fail> {
    let alloc = rt.alloc();
    let mut router = three_ports(alloc)?;
    answer(alloc, &mut router, 2, NETWORK_44, 0)?;
    for case in &CHANGED {
        is_answered(&rt, alloc, &mut router, case)?;
    }
    for (port, text, answer) in LEFT {
        let case = Case {
            port,
            before: text,
            answer,
            after: text,
        };
        is_answered(&rt, alloc, &mut router, &case)?;
    }
    Ok(())
}

/// A packet from network 11 to network 44, and one to network 22.
const ONWARD: [[u8; 30]; 2] = [
    [
        0xff, 0xff, 0, 30, 0, 0, 0, 0, 0, 0x44, 0, 0, 0x7f, 0, 0, 5, 0x40, 0, 0, 0, 0, 0x11, 0, 0,
        0x7f, 0, 0, 3, 0x40, 1,
    ],
    [
        0xff, 0xff, 0, 30, 0, 0, 0, 0, 0, 0x22, 0, 0, 0x7f, 0, 0, 5, 0x40, 0, 0, 0, 0, 0, 0, 0,
        0x7f, 0, 0, 3, 0x40, 1,
    ],
];

/// A request for every route, from network 11.
const EVERY_ROUTE: &str =
    "ffff0028000100000011ffffffffffff04530000001100007f00000304530001ffffffffffffffff";

/// A packet that is forwarded needs no memory, so it is tried only once. One that is answered may
/// need some. If it is refused, the bytes stay unchanged.
#[test]
fn refused_memory_in_place(rt: HostRuntime) -> Result<(), Fail> {
    let alloc = rt.alloc();
    let mut router = ports_at_last(alloc)?;
    let heard = answer_at_last(alloc, &mut router, 2, NETWORK_44)?;
    assert!(rt; matches!(heard, Outcome::Heard(1)));
    for packet in ONWARD {
        let mut bytes = packet;
        let onward = answer_in_place(alloc, &mut router, 1, &mut bytes)?;
        assert!(rt;
            matches!(
                onward,
                InPlace::Forward {
                    port: 2,
                    count: 30,
                    ..
                }
            )
        );
        assert_eq!(rt; bytes[4], 1);
    }
    let request = bytes_at_last(alloc, EVERY_ROUTE)?;
    let mut bytes = bytes_at_last(alloc, EVERY_ROUTE)?;
    if answer_in_place(alloc, &mut router, 1, &mut bytes).is_err() {
        assert_eq!(rt; bytes.as_slice(), request.as_slice());
        let replies = answer_in_place(alloc, &mut router, 1, &mut bytes)?;
        assert!(rt; matches!(replies, InPlace::Replies(_)));
    }
    assert_eq!(rt; bytes.as_slice(), request.as_slice());
    Ok(())
}
