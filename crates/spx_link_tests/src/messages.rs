//! A message from its first packet to its last, and one to a peer with one buffer.

use crate::end::{End, REQUEST, joined, one_unit, system, unit};
use spx_link::{Received, Sent};
use std::process::Abort;
use std::test::Fail;

/// The request, its reply, a unit, and its acknowledgement before it is taken.
#[test]
fn one_message(rt: HostRuntime) -> Result<(), Fail> {
    let alloc = rt.alloc();
    let mut a = End::dial(alloc, 8)?;
    let mut b = End::accept(alloc, &REQUEST, 8)?;
    joins(&rt, &mut a, &mut b)?;
    a.offer(one_unit(alloc, 0x61)?)?;
    assert_eq!(rt; a.poll(0), Some((Sent::Unit, unit(0, 0))));
    hands_out(&rt, &mut b)
}

fn joins(rt: &impl Abort, a: &mut End, b: &mut End) -> Result<(), Fail> {
    assert_eq!(rt; a.poll(0), Some((Sent::Request, REQUEST)));
    assert_eq!(rt; b.numbers().map(|numbers| numbers.room), Some(8));
    assert_eq!(rt; b.poll(0), Some((Sent::Reply, system(0, 7))));
    assert_eq!(rt; a.receive(&system(0, 7), &[], 0)?, Received::Joined);
    Ok(())
}

fn hands_out(rt: &impl Abort, b: &mut End) -> Result<(), Fail> {
    assert_eq!(rt; b.receive(&unit(0, 0), b"a", 0)?, Received::Kept);
    assert_eq!(rt; b.poll(0), Some((Sent::Ack, system(1, 7))));
    assert_eq!(rt; b.receive(&unit(0, 0), b"a", 0)?, Received::Repeat);
    assert_eq!(rt; b.receive(&unit(0, 2), b"c", 0)?, Received::Kept);
    takes(rt, b);
    Ok(())
}

fn takes(rt: &impl Abort, b: &mut End) {
    assert_eq!(rt; b.peek(), Some(0));
    assert_eq!(rt; b.take(), Some(1));
    assert_eq!(rt; b.poll(0), Some((Sent::Ack, system(1, 8))));
    assert_eq!(rt; b.sent(0), None);
}

/// One buffer: the second unit waits for the take of the first.
#[test]
fn one_buffer(rt: HostRuntime) -> Result<(), Fail> {
    let alloc = rt.alloc();
    let mut a = joined(&rt, alloc, 0)?;
    a.offer(one_unit(alloc, 0x78)?)?;
    a.offer(one_unit(alloc, 0x79)?)?;
    sends_one_again(&rt, &mut a);
    a.receive(&system(1, 0), &[], 500)?;
    probes_and_sends(&rt, &mut a)
}

fn sends_one_again(rt: &impl Abort, a: &mut End) {
    assert_eq!(rt; a.sent(0), Some(Sent::Unit));
    assert_eq!(rt; a.sent(0), None);
    assert_eq!(rt; a.sent(499), None);
    assert_eq!(rt; a.sent(500), Some(Sent::Again));
}

fn probes_and_sends(rt: &impl Abort, a: &mut End) -> Result<(), Fail> {
    assert_eq!(rt; a.sent(999), None);
    assert_eq!(rt; a.sent(1000), Some(Sent::Probe));
    a.receive(&system(1, 1), &[], 1000)?;
    assert_eq!(rt; a.sent(1000), Some(Sent::Unit));
    Ok(())
}

#[test]
fn over_one_buffer(rt: HostRuntime) -> Result<(), Fail> {
    let mut b = End::accept(rt.alloc(), &unit(0, 0), 1)?;
    assert_eq!(rt; b.receive(&unit(0, 0), b"x", 0)?, Received::Kept);
    assert_eq!(rt; b.receive(&unit(0, 1), b"y", 0)?, Received::OverAllocation);
    Ok(())
}
