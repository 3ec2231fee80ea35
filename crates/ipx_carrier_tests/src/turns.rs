//! Turns of a router: worked rows, with literal values.

use crate::fixture::{no_peers, one_peer_each, one_turn, text_of, two_ports};
use ipx_carrier::{Datagrams, MemoryDatagrams, Report, RunFault, SentDatagram};
use std::alloc::Global;
use std::process::Abort;
use std::test::Fail;

/// What the router of `two_ports` sends: on each port it asks for routes and for services, and then
/// it advertises each network on the other port.
pub const SIX: [&str; 6] = [
    "0 9 ffff0028000100000011ffffffffffff04530000001100007f00000104530001ffffffffffffffff",
    "0 9 ffff0022000400000011ffffffffffff04520000001100007f00000104520001ffff",
    "1 8 ffff0028000100000022ffffffffffff04530000002200007f00000204530001ffffffffffffffff",
    "1 8 ffff0022000400000022ffffffffffff04520000002200007f00000204520001ffff",
    "0 9 ffff0028000100000011ffffffffffff04530000001100007f000001045300020000002200010001",
    "1 8 ffff0028000100000022ffffffffffff04530000002200007f000002045300020000001100010001",
];

/// Compares what was sent with the first of the six.
pub fn are_first(rt: &impl Abort, alloc: Global, sent: &[SentDatagram]) -> Result<(), Fail> {
    for (datagram, text) in sent.iter().zip(SIX.iter()) {
        assert_eq!(rt; text_of(alloc, datagram)?.as_str(), *text);
    }
    Ok(())
}

#[test]
fn carrier_rows(rt: HostRuntime) -> Result<(), Fail> {
    let alloc = rt.alloc();
    let mut core = two_ports(alloc)?;
    let mut datagrams = MemoryDatagrams::new(alloc, 2)?;
    let report = one_turn(alloc, &mut core, &mut datagrams, &one_peer_each(alloc)?)?;
    assert!(rt; report == expected(6));
    assert_eq!(rt; datagrams.received(), 2);
    assert_eq!(rt; datagrams.sent().len(), 6);
    are_first(&rt, alloc, datagrams.sent())
}

fn expected(sent: u128) -> Report {
    Report {
        turns: 1,
        heard: 0,
        sent,
        unmapped: 0,
    }
}

#[test]
fn no_peer_gets_nothing(rt: HostRuntime) -> Result<(), Fail> {
    let alloc = rt.alloc();
    let mut core = two_ports(alloc)?;
    let mut datagrams = MemoryDatagrams::new(alloc, 2)?;
    let report = one_turn(alloc, &mut core, &mut datagrams, &no_peers(alloc)?)?;
    assert!(rt; report == expected(0));
    assert_eq!(rt; datagrams.received(), 2);
    assert!(rt; datagrams.sent().is_empty());
    assert_eq!(rt; datagrams.failures(), 0);
    Ok(())
}

/// The k-th call of the device fails. What was sent before that remains.
fn fails_at(rt: &impl Abort, alloc: Global, k: u64) -> Result<(), Fail> {
    let mut core = two_ports(alloc)?;
    let mut datagrams = MemoryDatagrams::new(alloc, 2)?;
    datagrams.fail_at(k);
    let answer = one_turn(alloc, &mut core, &mut datagrams, &one_peer_each(alloc)?);
    assert!(rt; matches!(answer, Err(RunFault::Device)));
    assert_eq!(rt; datagrams.failures(), 1);
    assert_eq!(rt; datagrams.refusals(), 0);
    assert_eq!(rt; datagrams.sent().len() as u64, k.saturating_sub(3));
    are_first(rt, alloc, datagrams.sent())
}

#[test]
fn device_rows(rt: HostRuntime) -> Result<(), Fail> {
    let alloc = rt.alloc();
    for k in 1..9 {
        fails_at(&rt, alloc, k)?;
    }
    Ok(())
}

#[test]
fn a_call_that_is_not_made_fails_nothing(rt: HostRuntime) -> Result<(), Fail> {
    let alloc = rt.alloc();
    let mut core = two_ports(alloc)?;
    let mut datagrams = MemoryDatagrams::new(alloc, 2)?;
    datagrams.fail_at(9);
    let report = one_turn(alloc, &mut core, &mut datagrams, &one_peer_each(alloc)?)?;
    assert!(rt; report == expected(6));
    Ok(())
}
