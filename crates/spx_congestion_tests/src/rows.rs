//! Worked examples: time, window and place.

use crate::numbers::{Paced, again, numbers, window};
use spx_congestion::{Pacer, SentKind};
use spx_link::{Numbers, Sent};
use std::test::Fail;

/// A window of 27 units. Ten are sent at once, and the others are spread over the round trip: one
/// every two milliseconds at 100 ms, since 2 x 6,912 / 100 = 138 of 256 come in a millisecond.
#[test]
fn a_window_is_spread(rt: HostRuntime) -> Result<(), Fail> {
    let mut paced = Paced::joined(rt.alloc(), 100)?;
    assert_eq!(rt; paced.pacer.next_due(100), None);
    assert_eq!(rt; paced.plan(100), window(10));
    paced.send(10, 100);
    assert_eq!(rt; paced.plan(100), window(10));
    assert_eq!(rt; paced.pacer.next_due(100), Some(101));
    assert_eq!(rt; paced.plan(101), window(10));
    assert_eq!(rt; paced.plan(102), window(11));
    paced.send(1, 102);
    // 276 - 256 + 138 = 158, and one more millisecond.
    assert_eq!(rt; paced.plan(103), window(11));
    assert_eq!(rt; paced.plan(104), window(12));
    // Credit is no more than ten units: 11 + 10.
    assert_eq!(rt; paced.plan(200), window(21));
    paced.send(10, 200);
    assert_eq!(rt; paced.plan(250), window(27));
    paced.send(6, 250);
    // All 27 are in flight: nothing is held back, and the wait is 3 x 100 from the first on.
    assert_eq!(rt; paced.plan(251), window(27));
    assert_eq!(rt; paced.pacer.next_due(251), Some(400));
    Ok(())
}

/// In slow start each acknowledged unit lets two go.
#[test]
fn slow_start(rt: HostRuntime) -> Result<(), Fail> {
    let mut paced = Paced::joined(rt.alloc(), 100)?;
    for now in [100, 200, 300] {
        let more = paced.plan(now).window;
        assert!(rt; more <= 27);
        paced.send(if now < 300 { 10 } else { 7 }, now);
    }
    // A unit of the first ten: 28 units, 26 of them in flight. Its round trip is 200 ms, so credit
    // grows by 2 x 7,168 / 200 = 71.
    paced.acknowledge(1, 300);
    assert_eq!(rt; paced.plan(310), window(28));
    // Nine more at once count as four: 32, and 17 in flight. The round trip is 1,620 / 8 = 202, and
    // the credit 3 x 256 + 10 x 71 + 10 x (2 x 8,192 / 202 = 81) = 2,288, for eight.
    paced.acknowledge(9, 320);
    assert_eq!(rt; paced.plan(320), window(25));
    assert_eq!(rt; paced.plan(360), window(27));
    paced.send(10, 360);
    assert_eq!(rt; paced.plan(400), window(32));
    Ok(())
}

/// Packets that are neither a duplicate nor a sign of loss.
#[test]
fn what_is_no_duplicate(rt: HostRuntime) -> Result<(), Fail> {
    let mut paced = Paced::joined(rt.alloc(), 100)?;
    paced.plan(100);
    paced.send(10, 100);
    let before = numbers(0, 10);
    for by in 1..10 {
        let room = Numbers {
            room: before.room + by,
            ..before
        };
        paced.pacer.heard(before, room, false, 200);
        let unit = Numbers {
            expected: by,
            ..before
        };
        paced.pacer.heard(before, unit, false, 200);
    }
    paced.double(2, 200);
    assert_eq!(rt; paced.plan(210).again, None);
    paced.double(1, 210);
    assert_eq!(rt; paced.plan(210).again, Some(0));
    Ok(())
}

/// After an idle timeout the window is at most 27 units.
#[test]
fn idle(rt: HostRuntime) -> Result<(), Fail> {
    let mut paced = Paced::joined(rt.alloc(), 10)?;
    for now in 10..100 {
        paced.fill(now);
        if now >= 20 {
            paced.acknowledge(4, now);
        }
    }
    for now in 100..140 {
        paced.fill(now);
    }
    let most = paced.out();
    assert!(rt; most > 40);
    paced.acknowledge(most, 140);
    for now in 1140..1180 {
        paced.fill(now);
    }
    assert_eq!(rt; paced.out(), 27);
    Ok(())
}

/// Whatever numbers are passed, a call returns, and a plan keeps its bounds.
#[test]
fn numbers_that_do_not_fit(rt: HostRuntime) -> Result<(), Fail> {
    let most = Numbers {
        next: u16::MAX,
        out: u16::MAX,
        room: u16::MAX,
        expected: u16::MAX,
        held: u16::MAX,
        buffers: u16::MAX,
    };
    let mut pacer = Pacer::new(rt.alloc())?;
    for now in [u64::MAX, 0, 1 << 63, u64::MAX - 1, 5] {
        for (before, after) in [(numbers(0, 0), most), (most, numbers(9, 1)), (most, most)] {
            for what in [
                SentKind::Request,
                SentKind::Unit,
                SentKind::Again,
                SentKind::End,
                SentKind::Other,
            ] {
                pacer.heard(before, after, true, now);
                pacer.gave(what, before, now);
                let plan = pacer.plan(after, now);
                assert!(rt; plan.window <= 8192);
                assert!(rt; plan.again.is_none_or(|place| place < after.out));
                assert!(rt; pacer.next_due(now).is_some() || after.out == 0);
            }
        }
    }
    Ok(())
}

/// How each packet is counted.
#[test]
fn what_a_link_gave(rt: HostRuntime) {
    for (what, stream, gave) in [
        (Sent::Request, 0, SentKind::Request),
        (Sent::Reply, 0, SentKind::Other),
        (Sent::Confirm, 255, SentKind::Other),
        (Sent::Unit, 0, SentKind::Unit),
        (Sent::Unit, 253, SentKind::Unit),
        (Sent::Unit, 254, SentKind::End),
        (Sent::Again, 254, SentKind::Again),
        (Sent::Ack, 0, SentKind::Other),
        (Sent::Probe, 0, SentKind::Other),
    ] {
        assert_eq!(rt; SentKind::of(what, stream), gave);
    }
}

/// A place is counted from the first outstanding unit. A plan that asks for one lets no new unit
/// go.
#[test]
fn a_plan_that_asks(rt: HostRuntime) -> Result<(), Fail> {
    let mut paced = Paced::joined(rt.alloc(), 100)?;
    paced.plan(100);
    paced.send(10, 100);
    paced.acknowledge(5, 200);
    paced.double(3, 200);
    assert_eq!(rt; paced.plan(201), again(0));
    assert_eq!(rt; paced.pacer.next_due(201), Some(202));
    Ok(())
}
