//! Missing units that are sent again before a timeout.

use crate::numbers::{Paced, again, window};
use std::alloc::Global;
use std::test::Fail;

/// Ten units were sent at 100, over a round trip of 100 ms, and the first is missing.
fn with_ten_out(alloc: Global) -> Result<Paced, Fail> {
    let mut paced = Paced::joined(alloc, 100)?;
    paced.plan(100);
    paced.send(10, 100);
    Ok(paced)
}

/// Three duplicates mean that it is missing. The window is then 27 x 3/5 = 16 units, and 8 are in
/// flight: 10, less 3 that were received, and 1 that is sent again. Credit is for ten, less that
/// one.
#[test]
fn three_duplicates(rt: HostRuntime) -> Result<(), Fail> {
    let mut paced = with_ten_out(rt.alloc())?;
    paced.double(2, 200);
    assert_eq!(rt; paced.plan(200), window(20));
    paced.double(1, 200);
    assert_eq!(rt; paced.plan(200), again(0));
    paced.send_again(200);
    assert_eq!(rt; paced.plan(200), window(18));
    paced.send(8, 200);
    assert_eq!(rt; paced.plan(200), window(18));
    // One duplicate more: 1.5 / 16.2 of a unit, and one fewer is in flight: 15 of 16.
    paced.double(1, 300);
    assert_eq!(rt; paced.plan(300), window(19));
    Ok(())
}

/// Fewer duplicates if fewer are outstanding: two of three, and one of two.
#[test]
fn few_outstanding(rt: HostRuntime) -> Result<(), Fail> {
    for (out, wanted) in [(1, 1), (2, 1), (3, 2), (4, 3), (5, 3)] {
        let mut paced = Paced::joined(rt.alloc(), 100)?;
        paced.plan(100);
        paced.send(out, 100);
        paced.double(wanted - 1, 200);
        assert_eq!(rt; paced.plan(200).again, None, "of {out}");
        paced.double(1, 200);
        assert_eq!(rt; paced.plan(200).again, Some(0), "of {out}");
    }
    Ok(())
}

/// Each acknowledgement shows the next missing unit, until everything is acknowledged that was
/// outstanding when the repair began.
#[test]
fn a_second_hole(rt: HostRuntime) -> Result<(), Fail> {
    let mut paced = with_ten_out(rt.alloc())?;
    paced.double(8, 200);
    paced.plan(200);
    paced.send_again(200);
    paced.acknowledge(4, 300);
    assert_eq!(rt; paced.plan(300), again(0));
    paced.send_again(300);
    assert_eq!(rt; paced.plan(300).again, None);
    paced.acknowledge(6, 400);
    assert_eq!(rt; paced.out(), 0);
    assert_eq!(rt; paced.plan(400).again, None);
    assert_eq!(rt; paced.pacer.next_due(400), None);
    Ok(())
}

/// A unit that was sent again and is missing again is sent once more a round trip and a quarter
/// later. The time after that is twice as long.
#[test]
fn missing_again(rt: HostRuntime) -> Result<(), Fail> {
    let mut paced = with_ten_out(rt.alloc())?;
    paced.double(9, 200);
    paced.plan(200);
    paced.send_again(200);
    // All were received except that one: the timeout would be at 500.
    assert_eq!(rt; paced.pacer.next_due(200), Some(325));
    assert_eq!(rt; paced.plan(324).again, None);
    assert_eq!(rt; paced.plan(325), again(0));
    paced.send_again(325);
    paced.double(1, 400);
    assert_eq!(rt; paced.pacer.next_due(400), Some(575));
    assert_eq!(rt; paced.plan(575), again(0));
    Ok(())
}

/// Acknowledgements after a timeout that was too short do not show what is missing: as many as were
/// sent again in the last round trip.
#[test]
fn repairs_that_were_not_needed(rt: HostRuntime) -> Result<(), Fail> {
    let mut paced = with_ten_out(rt.alloc())?;
    paced.plan(400);
    paced.send_again(400);
    paced.acknowledge(1, 401);
    for _ in 0..2 {
        paced.plan(401);
        paced.send_again(401);
    }
    paced.acknowledge(9, 402);
    paced.plan(410);
    paced.send(4, 410);
    paced.double(3, 420);
    assert_eq!(rt; paced.plan(420).again, None);
    paced.double(3, 430);
    assert_eq!(rt; paced.plan(430), again(0));
    Ok(())
}
