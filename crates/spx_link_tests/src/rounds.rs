//! Worked examples of rounds without loss: how many two links need, and what happens if a round is
//! incomplete.

use crate::pair::{Side, can_go_on, convey, is_delivered, pair, round, rounds_for, take_all};
use spx_link::State;
use std::alloc::Global;
use std::process::Abort;
use std::test::Fail;

/// Two links, with 5 buffers and with 1. The first sends a unit, and another one waits. The second
/// reads it, and sends a unit of its own, which allows the first no more. The second's user takes
/// the unit, and the packet that announces the free buffer is lost. The first holds the second's
/// unit.
fn without_room(rt: &impl Abort, alloc: Global) -> Result<(Side, Side), Fail> {
    let (mut a, mut b) = pair(rt, alloc, 5, 1)?;
    a.offer(alloc)?;
    a.offer(alloc)?;
    convey(&mut a, &mut b, 0);
    b.offer(alloc)?;
    convey(&mut b, &mut a, 0);
    take_all(rt, &mut b);
    assert!(rt; b.poll(0).is_some());
    assert!(rt; b.poll(0).is_none());
    assert!(rt; can_go_on(&a, &b));
    assert_eq!(rt; (a.waiting(), rounds_for(&a, &b)), (1, 4));
    Ok((a, b))
}

/// The first acknowledges what it held, in two rounds. In the third it probes, and in the fourth
/// the unit arrives.
#[test]
fn needs_all_rounds(rt: HostRuntime) -> Result<(), Fail> {
    let (mut a, mut b) = without_room(&rt, rt.alloc())?;
    for now in [500, 1000, 1500] {
        round(&rt, &mut a, &mut b, now);
        assert_eq!(rt; (is_delivered(&a, &b), b.taken()), (false, 1), "at {now}");
    }
    round(&rt, &mut a, &mut b, 2000);
    assert!(rt; is_delivered(&a, &b));
    assert_eq!(rt; (a.taken(), b.taken()), (1, 2));
    Ok(())
}

/// Rounds 499 ms apart are not enough for this: a probe is due after 500.
#[test]
fn rounds_too_soon(rt: HostRuntime) -> Result<(), Fail> {
    let (mut a, mut b) = without_room(&rt, rt.alloc())?;
    for now in [499, 998, 1497, 1996] {
        round(&rt, &mut a, &mut b, now);
    }
    assert!(rt; !is_delivered(&a, &b));
    Ok(())
}

/// Two links, and the first has a unit that waits: four rounds are enough.
fn with_a_unit(rt: &impl Abort, alloc: Global) -> Result<(Side, Side), Fail> {
    let (mut a, b) = pair(rt, alloc, 1, 1)?;
    a.offer(alloc)?;
    assert!(rt; can_go_on(&a, &b));
    assert_eq!(rt; rounds_for(&a, &b), 4);
    Ok((a, b))
}

/// Everything that one end gives at this time, except the last packet, is read by the other.
fn convey_all_but_one(from: &mut Side, to: &mut Side, now: u64) {
    let mut last = from.poll(now);
    while let Some(parcel) = last {
        last = from.poll(now);
        if last.is_some() {
            to.receive(&parcel);
        }
    }
}

/// Rounds that lose the last packet.
#[test]
fn rounds_without_the_last_packet(rt: HostRuntime) -> Result<(), Fail> {
    let (mut a, mut b) = with_a_unit(&rt, rt.alloc())?;
    for now in [500, 1000, 1500, 2000] {
        convey_all_but_one(&mut a, &mut b, now);
        take_all(&rt, &mut b);
        convey_all_but_one(&mut b, &mut a, now);
        take_all(&rt, &mut a);
    }
    assert_eq!(rt; (is_delivered(&a, &b), b.taken()), (false, 0));
    Ok(())
}

/// Rounds in which the second user takes nothing: one of two waiting units is sent.
#[test]
fn rounds_without_a_take(rt: HostRuntime) -> Result<(), Fail> {
    let (mut a, mut b) = with_a_unit(&rt, rt.alloc())?;
    a.offer(rt.alloc())?;
    assert_eq!(rt; rounds_for(&a, &b), 5);
    for now in [500, 1000, 1500, 2000, 2500] {
        convey(&mut a, &mut b, now);
        convey(&mut b, &mut a, now);
        take_all(&rt, &mut a);
    }
    assert_eq!(rt; (is_delivered(&a, &b), a.waiting()), (false, 1));
    Ok(())
}

/// A unit was already sent ten times: the link is lost in the first round.
#[test]
fn rounds_after_ten_sends(rt: HostRuntime) -> Result<(), Fail> {
    let (mut a, mut b) = with_a_unit(&rt, rt.alloc())?;
    for now in 0..10 {
        assert!(rt; can_go_on(&a, &b));
        assert!(rt; a.poll(500 * now).is_some());
    }
    assert!(rt; !can_go_on(&a, &b));
    round(&rt, &mut a, &mut b, 5000);
    assert_eq!(rt; (a.state(), b.taken()), (State::Lost, 0));
    Ok(())
}

/// Ten probes were already sent: the same.
#[test]
fn rounds_after_ten_probes(rt: HostRuntime) -> Result<(), Fail> {
    let (mut a, mut b) = without_room(&rt, rt.alloc())?;
    assert!(rt; a.poll(0).is_some());
    for now in 1..11 {
        assert!(rt; can_go_on(&a, &b));
        assert!(rt; a.poll(500 * now).is_some());
    }
    assert!(rt; !can_go_on(&a, &b));
    round(&rt, &mut a, &mut b, 5500);
    assert_eq!(rt; (a.state(), b.taken()), (State::Lost, 1));
    Ok(())
}
