//! Units that are received ahead of missing ones.

use crate::end::{End, joined, system, unit};
use ipx_wire::SpxHeader;
use spx_link::{Received, Sent, State};
use std::process::Abort;
use std::test::Fail;

/// Units 3, 2, 1 and 0, three times over: each is kept once, and all are taken in order.
#[test]
fn ahead_rows(rt: HostRuntime) -> Result<(), Fail> {
    let mut end = joined(&rt, rt.alloc(), 7)?;
    for answer in [Received::Kept, Received::Repeat, Received::Repeat] {
        comes_backwards(&rt, &mut end, answer)?;
    }
    assert_eq!(rt;
        end.numbers()
            .map(|numbers| (numbers.expected, numbers.held)),
        Some((4, 4))
    );
    hands_out_in_order(&rt, &mut end);
    Ok(())
}

/// The body of each unit has as many bytes as its number.
fn comes_backwards(rt: &impl Abort, end: &mut End, answer: Received) -> Result<(), Fail> {
    for (seq, body) in [(3, b"abc"), (2, b"ab\0"), (1, b"a\0\0"), (0, b"\0\0\0")] {
        let length = usize::from(seq).min(3);
        assert_eq!(rt; end.receive(&unit(0, seq), &body[..length], 0)?, answer);
    }
    Ok(())
}

fn hands_out_in_order(rt: &impl Abort, end: &mut End) {
    for length in 0..4usize {
        assert_eq!(rt; end.take(), Some(length));
    }
    assert_eq!(rt; end.take(), None);
}

/// Units ahead are neither shown nor taken, and take no buffer of the allocation.
#[test]
fn waits_for_the_missing(rt: HostRuntime) -> Result<(), Fail> {
    let mut end = joined(&rt, rt.alloc(), 7)?;
    assert_eq!(rt; end.receive(&unit(0, 2), b"c", 0)?, Received::Kept);
    assert_eq!(rt; end.poll(0), Some((Sent::Ack, system(0, 7))));
    assert_eq!(rt; end.receive(&unit(0, 2), b"c", 0)?, Received::Repeat);
    shows_nothing(&rt, &mut end);
    Ok(())
}

fn shows_nothing(rt: &impl Abort, end: &mut End) {
    assert_eq!(rt;
        end.numbers()
            .map(|numbers| (numbers.expected, numbers.held)),
        Some((0, 0))
    );
    assert_eq!(rt; end.peek(), None);
    assert_eq!(rt; end.take(), None);
}

/// The packet of the peer's end, after one unit.
fn end_packet() -> SpxHeader {
    let mut end = unit(0xfe, 1);
    end.last = false;
    end
}

/// An end that is received before a missing unit ends nothing until that unit is received.
#[test]
fn end_ahead(rt: HostRuntime) -> Result<(), Fail> {
    let mut end = joined(&rt, rt.alloc(), 7)?;
    assert_eq!(rt; end.receive(&end_packet(), b"x", 0)?, Received::Kept);
    assert_eq!(rt; end.state(), Some(State::Live));
    assert_eq!(rt; end.receive(&unit(0, 0), b"x", 0)?, Received::PeerEnded);
    confirms(&rt, &mut end);
    hands_out_with_the_end(&rt, &mut end);
    Ok(())
}

fn confirms(rt: &impl Abort, end: &mut End) {
    let mut confirmation = system(2, 7);
    confirmation.stream = 0xff;
    confirmation.limit = 7;
    assert_eq!(rt; end.state(), Some(State::PeerEnded));
    assert_eq!(rt; end.poll(0), Some((Sent::Confirm, confirmation)));
    assert_eq!(rt; end.sent(0), None);
}

/// The end keeps no body.
fn hands_out_with_the_end(rt: &impl Abort, end: &mut End) {
    assert_eq!(rt; end.peek(), Some(0));
    assert_eq!(rt; end.take(), Some(1));
    assert_eq!(rt; end.peek(), Some(0xfe));
    assert_eq!(rt; end.take(), Some(0));
    assert_eq!(rt; end.take(), None);
}
