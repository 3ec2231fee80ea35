//! Links with a window, and manual links.

use crate::end::{End, joined, one_unit, system};
use spx_link::{Sent, State};
use std::alloc::Global;
use std::process::Abort;
use std::test::Fail;

/// A manual end with so many units outstanding, sent at time 0, and none waiting.
fn manual(rt: &impl Abort, alloc: Global, count: u8) -> Result<End, Fail> {
    let mut end = joined(rt, alloc, 7)?;
    end.pace(8192, true);
    for byte in 0..count {
        end.offer(one_unit(alloc, byte)?)?;
        assert_eq!(rt; end.sent(0), Some(Sent::Unit));
    }
    assert_eq!(rt; end.sent(0), None);
    Ok(end)
}

/// What kind of packet a poll gives, and its number.
fn numbered(end: &mut End, now: u64) -> Option<(Sent, u16)> {
    let (what, header) = end.poll(now)?;
    Some((what, header.seq))
}

/// A window of 2 lets two of three units go, and a window of 3 the third.
#[test]
fn window_of_two(rt: HostRuntime) -> Result<(), Fail> {
    let mut end = joined(&rt, rt.alloc(), 7)?;
    end.pace(2, true);
    for byte in 0..3 {
        end.offer(one_unit(rt.alloc(), byte)?)?;
    }
    assert_eq!(rt; numbered(&mut end, 0), Some((Sent::Unit, 0)));
    assert_eq!(rt; numbered(&mut end, 0), Some((Sent::Unit, 1)));
    assert_eq!(rt; end.sent(0), None);
    assert_eq!(rt; end.next_due(), None);
    end.pace(3, true);
    assert_eq!(rt; end.next_due(), Some(0));
    assert_eq!(rt; numbered(&mut end, 0), Some((Sent::Unit, 2)));
    Ok(())
}

/// A window of 0 lets no new unit go.
#[test]
fn window_of_none(rt: HostRuntime) -> Result<(), Fail> {
    let mut end = joined(&rt, rt.alloc(), 7)?;
    end.pace(0, false);
    end.offer(one_unit(rt.alloc(), 0)?)?;
    assert_eq!(rt; end.next_due(), None);
    assert_eq!(rt; end.sent(0), None);
    end.pace(9000, false);
    assert_eq!(rt; end.sent(0), Some(Sent::Unit));
    Ok(())
}

/// A manual link retransmits nothing by itself.
#[test]
fn nothing_by_itself(rt: HostRuntime) -> Result<(), Fail> {
    let mut end = manual(&rt, rt.alloc(), 2)?;
    assert_eq!(rt; end.next_due(), None);
    assert_eq!(rt; end.sent(500), None);
    assert_eq!(rt; end.sent(5000), None);
    Ok(())
}

/// The unit that is asked for is sent under its own number, once.
#[test]
fn the_second_again(rt: HostRuntime) -> Result<(), Fail> {
    let mut end = manual(&rt, rt.alloc(), 3)?;
    end.again(1);
    assert_eq!(rt; end.next_due(), Some(0));
    assert_eq!(rt; numbered(&mut end, 20), Some((Sent::Again, 1)));
    assert_eq!(rt; end.sent(20), None);
    assert_eq!(rt; end.next_due(), None);
    Ok(())
}

/// A place without an outstanding unit gives nothing, nor does one that was asked for before
/// `pace`.
#[test]
fn no_such_place(rt: HostRuntime) -> Result<(), Fail> {
    let mut end = manual(&rt, rt.alloc(), 3)?;
    end.again(3);
    assert_eq!(rt; end.next_due(), None);
    assert_eq!(rt; end.sent(20), None);
    end.again(2);
    end.pace(8192, true);
    assert_eq!(rt; end.next_due(), None);
    assert_eq!(rt; end.sent(20), None);
    Ok(())
}

/// An acknowledgement between the call and the poll: the place counts from the new first unit.
#[test]
fn acknowledged_between(rt: HostRuntime) -> Result<(), Fail> {
    let mut end = manual(&rt, rt.alloc(), 3)?;
    end.again(1);
    end.receive(&system(1, 8), &[], 10)?;
    assert_eq!(rt; numbered(&mut end, 20), Some((Sent::Again, 2)));
    end.again(1);
    end.receive(&system(2, 9), &[], 30)?;
    assert_eq!(rt; end.next_due(), None);
    assert_eq!(rt; end.sent(40), None);
    Ok(())
}

/// A manual link sends a unit as often as it is asked for. By the clock again, nine more sends
/// count.
#[test]
fn three_hundred_manual(rt: HostRuntime) -> Result<(), Fail> {
    let mut end = manual(&rt, rt.alloc(), 1)?;
    for now in 1..300 {
        end.again(0);
        assert_eq!(rt; numbered(&mut end, now), Some((Sent::Again, 0)));
    }
    assert_eq!(rt; end.state(), Some(State::Live));
    end.pace(8192, false);
    for time in 2..11 {
        assert_eq!(rt; numbered(&mut end, time * 500), Some((Sent::Again, 0)));
    }
    assert_eq!(rt; end.sent(5500), None);
    assert_eq!(rt; end.state(), Some(State::Lost));
    Ok(())
}

/// If its peer allows nothing, a manual link probes sixty times, and is then lost.
#[test]
fn sixty_probes(rt: HostRuntime) -> Result<(), Fail> {
    let mut end = joined(&rt, rt.alloc(), 0)?;
    end.pace(8192, true);
    for byte in 0..2 {
        end.offer(one_unit(rt.alloc(), byte)?)?;
    }
    assert_eq!(rt; numbered(&mut end, 0), Some((Sent::Unit, 0)));
    end.receive(&system(1, 0), &[], 0)?;
    for time in 1..61 {
        assert_eq!(rt; end.sent(time * 500 - 1), None);
        assert_eq!(rt; end.sent(time * 500), Some(Sent::Probe));
    }
    assert_eq!(rt; end.state(), Some(State::Live));
    assert_eq!(rt; end.sent(30_500), None);
    assert_eq!(rt; end.state(), Some(State::Lost));
    Ok(())
}

/// By the clock again, a unit that was sent over 500 ms ago is sent at once.
#[test]
fn back_to_the_clock(rt: HostRuntime) -> Result<(), Fail> {
    let mut end = manual(&rt, rt.alloc(), 1)?;
    assert_eq!(rt; end.sent(600), None);
    end.pace(8192, false);
    assert_eq!(rt; end.next_due(), Some(500));
    assert_eq!(rt; numbered(&mut end, 600), Some((Sent::Again, 0)));
    assert_eq!(rt; end.next_due(), Some(1100));
    Ok(())
}

/// By the clock a place that is asked for changes nothing.
#[test]
fn asked_by_the_clock(rt: HostRuntime) -> Result<(), Fail> {
    let mut end = joined(&rt, rt.alloc(), 7)?;
    end.offer(one_unit(rt.alloc(), 0)?)?;
    assert_eq!(rt; end.sent(0), Some(Sent::Unit));
    end.again(0);
    assert_eq!(rt; end.next_due(), Some(500));
    assert_eq!(rt; end.sent(499), None);
    assert_eq!(rt; numbered(&mut end, 500), Some((Sent::Again, 0)));
    Ok(())
}
