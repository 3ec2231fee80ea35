//! The end of a connection, confirmed or unanswered.

use crate::end::{End, joined, one_unit, system, unit};
use ipx_wire::SpxHeader;
use spx_link::{OfferFault, Received, Sent, State};
use std::process::Abort;
use std::test::Fail;

/// The packet of the end.
fn end_packet() -> SpxHeader {
    let mut end = unit(0xfe, 0);
    end.last = false;
    end
}

fn confirmation() -> SpxHeader {
    let mut confirmation = system(1, 7);
    confirmation.stream = 0xff;
    confirmation
}

/// The end is lost once, and confirmed twice.
#[test]
fn closing(rt: HostRuntime) -> Result<(), Fail> {
    let mut a = joined(&rt, rt.alloc(), 7)?;
    a.end()?;
    sends_its_end(&rt, &mut a);
    let mut b = End::accept(rt.alloc(), &system(0, 7), 8)?;
    assert_eq!(rt; b.sent(0), Some(Sent::Reply));
    confirms_twice(&rt, &mut b)?;
    is_confirmed_once(&rt, &mut a)
}

fn sends_its_end(rt: &impl Abort, a: &mut End) {
    assert_eq!(rt; a.state(), Some(State::Ending));
    assert_eq!(rt; a.poll(0), Some((Sent::Unit, end_packet())));
    assert_eq!(rt; a.poll(500), Some((Sent::Again, end_packet())));
}

fn confirms_twice(rt: &impl Abort, b: &mut End) -> Result<(), Fail> {
    for answer in [Received::PeerEnded, Received::Repeat] {
        assert_eq!(rt; b.receive(&end_packet(), &[], 500)?, answer);
        assert_eq!(rt; b.state(), Some(State::PeerEnded));
        assert_eq!(rt; b.poll(500), Some((Sent::Confirm, confirmation())));
    }
    Ok(())
}

fn is_confirmed_once(rt: &impl Abort, a: &mut End) -> Result<(), Fail> {
    for answer in [Received::Confirmed, Received::System] {
        assert_eq!(rt; a.receive(&confirmation(), &[], 500)?, answer);
        assert_eq!(rt; a.state(), Some(State::Confirmed));
    }
    Ok(())
}

/// An end that nobody answers is sent ten times, and then the link is lost.
#[test]
fn no_answer(rt: HostRuntime) -> Result<(), Fail> {
    let mut a = joined(&rt, rt.alloc(), 7)?;
    a.end()?;
    assert_eq!(rt; a.sent(0), Some(Sent::Unit));
    for turn in 1..10u64 {
        assert_eq!(rt; a.sent(turn * 500), Some(Sent::Again));
        assert_eq!(rt; a.state(), Some(State::Ending));
    }
    assert_eq!(rt; a.sent(5000), None);
    assert_eq!(rt; a.state(), Some(State::Lost));
    assert_eq!(rt; a.offer(one_unit(rt.alloc(), 0)?), Err(OfferFault::Ended));
    assert_eq!(rt; a.receive(&system(1, 7), &[], 5000)?, Received::Stranger);
    Ok(())
}

#[test]
fn no_end_before_it_is_live(rt: HostRuntime) -> Result<(), Fail> {
    let mut opening = End::dial(rt.alloc(), 8)?;
    assert_eq!(rt; opening.end(), Err(OfferFault::NotLive));
    Ok(())
}

/// A unit after the peer's end is not kept, and needs no answer.
#[test]
fn after_the_end(rt: HostRuntime) -> Result<(), Fail> {
    let mut b = joined(&rt, rt.alloc(), 7)?;
    assert_eq!(rt; b.receive(&end_packet(), &[], 0)?, Received::PeerEnded);
    assert_eq!(rt; b.sent(0), Some(Sent::Confirm));
    assert_eq!(rt; b.receive(&unit(0, 1), b"a", 0)?, Received::Ahead);
    assert_eq!(rt; b.sent(0), None);
    Ok(())
}
