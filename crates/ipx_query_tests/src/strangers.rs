//! Packets that are not an answer change nothing.

use crate::fixture::{OWN, asked, hear, host};
use ipx_carrier::Core;
use ipx_query::{QueryCore, TableQuery};
use std::test::Fail;

/// One route, from the first router to the host: an answer. Its source network may be 0, and so may
/// its destination network.
const ANSWERS: [&str; 3] = [
    "ffff002800010000001100007f00000940030000001100007f000001045300020000002200020008",
    "ffff002800010000001100007f00000940030000000000007f000001045300020000002200020008",
    "ffff002800010000000000007f00000940030000001100007f000001045300020000002200020008",
];

/// To another socket, node and network; to all nodes; from a node that was not asked, and from one
/// of another network; from the socket of SAP; a request, an operation 3, no operation; a truncated
/// datagram, and an empty one; and an answer that one router forwarded, and one that fifteen did.
const STRANGE: [&str; 14] = [
    "ffff002800010000001100007f00000904530000001100007f000001045300020000002200020008",
    "ffff002800010000001100007f00000840030000001100007f000001045300020000002200020008",
    "ffff002800010000001200007f00000940030000001100007f000001045300020000002200020008",
    "ffff0028000100000011ffffffffffff40030000001100007f000001045300020000002200020008",
    "ffff002800010000001100007f00000940030000001100007f000003045300020000002200020008",
    "ffff002800010000001100007f00000940030000001200007f000001045300020000002200020008",
    "ffff002800010000001100007f00000940030000001100007f000001045200020000002200020008",
    "ffff002800010000001100007f00000940030000001100007f000001045300010000002200020008",
    "ffff002800010000001100007f00000940030000001100007f000001045300030000002200020008",
    "ffff001e00010000001100007f00000940030000001100007f0000010453",
    "ffff002800010000001100007f00000940030000001100007f0000010453000200000022000200",
    "",
    "ffff002801010000001100007f00000940030000001100007f000001045300020000002200020008",
    "ffff00280f010000000000007f00000940030000000000007f000001045300020000002200020008",
];

fn has_heard(core: &QueryCore) -> bool {
    core.routers().iter().any(|router| router.answered)
}

#[test]
fn unknown_senders_are_not_heard(rt: HostRuntime) -> Result<(), Fail> {
    let alloc = rt.alloc();
    let mut core = asked(alloc, TableQuery::Networks)?;
    for text in STRANGE {
        hear(alloc, &mut core, text, 10)?;
        assert!(rt; !has_heard(&core));
        assert!(rt; core.networks(alloc, 10)?.is_empty());
    }
    assert_eq!(rt; core.status(), 1);
    Ok(())
}

#[test]
fn answers_are_heard(rt: HostRuntime) -> Result<(), Fail> {
    let alloc = rt.alloc();
    for text in ANSWERS {
        let mut core = asked(alloc, TableQuery::Networks)?;
        hear(alloc, &mut core, text, 10)?;
        assert!(rt; has_heard(&core));
        assert_eq!(rt; core.networks(alloc, 10)?.len(), 1);
    }
    Ok(())
}

/// What came before the first query is not an answer, nor is an answer to another question.
#[test]
fn too_early(rt: HostRuntime) -> Result<(), Fail> {
    let alloc = rt.alloc();
    let mut core = host(alloc, TableQuery::Networks)?;
    hear(alloc, &mut core, ANSWERS[0], 10)?;
    assert!(rt; !has_heard(&core));
    let mut core = asked(alloc, TableQuery::Services(4))?;
    hear(alloc, &mut core, ANSWERS[0], 10)?;
    assert!(rt; !has_heard(&core));
    assert!(rt; core.networks(alloc, 10)?.is_empty());
    Ok(())
}

/// A host that asks no router accepts no answer.
#[test]
fn nobody_is_asked(rt: HostRuntime) -> Result<(), Fail> {
    let alloc = rt.alloc();
    let mut core = QueryCore::new(alloc, OWN, TableQuery::Networks, &[])?;
    let mut room = [0; 1536];
    assert!(rt; core.next(alloc, 0, &mut room)?.is_none());
    hear(alloc, &mut core, ANSWERS[0], 10)?;
    assert!(rt; core.networks(alloc, 10)?.is_empty());
    Ok(())
}
