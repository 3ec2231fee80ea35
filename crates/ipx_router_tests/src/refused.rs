//! A router that is refused memory: any one refused request is returned as out of memory, and the
//! same call succeeds after that. Run these tests with each request refused.

use crate::fixture::{NETWORK_44, TO_NETWORK_44, answer, three_ports};
use crate::services::{query, services};
use ipx_router::{NewFault, Outcome, Router};
use std::alloc::{AllocError, Global};
use std::process::Abort;
use std::test::Fail;

/// The router of `three_ports`. If memory is refused, it is tried again.
pub fn ports_at_last(alloc: Global) -> Result<Router, NewFault> {
    match three_ports(alloc) {
        Ok(router) => Ok(router),
        Err(_) => three_ports(alloc),
    }
}

/// What the router answers. If memory is refused, it is asked again.
pub fn answer_at_last(
    alloc: Global,
    router: &mut Router,
    number: u8,
    text: &str,
) -> Result<Outcome, Fail> {
    match answer(alloc, router, number, text, 0) {
        Ok(outcome) => Ok(outcome),
        Err(_) => Ok(answer(alloc, router, number, text, 0)?),
    }
}

/// The number of packets that are advertised. If memory is refused, it is tried again.
fn told_at_last(alloc: Global, router: &mut Router, now: u64) -> Result<usize, Fail> {
    match router.tell(alloc, now) {
        Ok(told) => Ok(told.len()),
        Err(_) => Ok(router.tell(alloc, now)?.len()),
    }
}

/// The number of packets that ask at the start. If memory is refused, it is tried again.
fn asked_at_last(alloc: Global, router: &Router) -> Result<usize, Fail> {
    match router.start(alloc) {
        Ok(asked) => Ok(asked.len()),
        Err(_) => Ok(router.start(alloc)?.len()),
    }
}

/// The number of packets in the answer.
fn number_of_replies(outcome: &Outcome) -> usize {
    match outcome {
        Outcome::Replies(replies) => replies.len(),
        _ => 0,
    }
}

#[test]
fn refused_memory(rt: HostRuntime) -> Result<(), Fail> {
    let alloc = rt.alloc();
    let mut router = ports_at_last(alloc)?;
    let heard = answer_at_last(alloc, &mut router, 2, NETWORK_44)?;
    assert!(rt; matches!(heard, Outcome::Heard(1)));
    assert_eq!(rt; told_at_last(alloc, &mut router, 0)?, 3);
    assert_eq!(rt; asked_at_last(alloc, &router)?, 6);
    refused_memory_of_routes(&rt, alloc, &mut router)?;
    refused_memory_of_services(&rt, alloc, &mut router)
}

/// Requests for every route, and for the route to network 44.
const REQUESTS: [&str; 2] = [
    "ffff0028000100000011ffffffffffff04530000001100007f00000304530001ffffffffffffffff",
    "ffff0028000100000011ffffffffffff04530000001100007f0000030453000100000044ffffffff",
];

/// A query for the nearest service of any kind.
const NEAREST: &str = "ffff0022000400000011ffffffffffff04520000001100007f00000340010003ffff";

/// The same for replies, and for a packet that is forwarded.
fn refused_memory_of_routes(
    rt: &impl Abort,
    alloc: Global,
    router: &mut Router,
) -> Result<(), Fail> {
    for text in REQUESTS {
        assert_eq!(rt;
            number_of_replies(&answer_at_last(alloc, router, 1, text)?),
            1
        );
    }
    let onward = answer_at_last(alloc, router, 1, TO_NETWORK_44)?;
    assert!(rt; matches!(&onward, Outcome::Forward(reply) if reply.bytes.len() == 30));
    let none = answer_at_last(alloc, router, 1, NEAREST)?;
    assert!(rt; matches!(&none, Outcome::Replies(replies) if replies.is_empty()));
    Ok(())
}

/// Services in hex. If memory is refused, it is tried again.
pub fn services_at_last(alloc: Global, first: u8, count: u8) -> Result<String, AllocError> {
    match services(alloc, first, count, 2) {
        Ok(text) => Ok(text),
        Err(_) => services(alloc, first, count, 2),
    }
}

/// A query in hex. If memory is refused, it is tried again.
fn query_at_last(alloc: Global, operation: u8) -> Result<String, AllocError> {
    match query(alloc, 0x11, operation, "0004") {
        Ok(text) => Ok(text),
        Err(_) => query(alloc, 0x11, operation, "0004"),
    }
}

/// The same for services, on a router that learned none.
fn refused_memory_of_services(
    rt: &impl Abort,
    alloc: Global,
    router: &mut Router,
) -> Result<(), Fail> {
    let six = services_at_last(alloc, b'A', 6)?;
    let heard = answer_at_last(alloc, router, 2, &six)?;
    assert!(rt; matches!(heard, Outcome::Heard(6)));
    for operation in [1, 3] {
        let text = query_at_last(alloc, operation)?;
        let outcome = answer_at_last(alloc, router, 1, &text)?;
        assert_eq!(rt; number_of_replies(&outcome), 1);
    }
    assert_eq!(rt; told_at_last(alloc, router, 60_000)?, 5);
    Ok(())
}
