//! The timeout of an acknowledgement, and what follows a timeout.

use crate::numbers::{Paced, again, window};
use std::test::Fail;

/// 500 ms before anything is measured. After a request 3 times its round trip, and at least 200.
#[test]
fn the_first_wait(rt: HostRuntime) -> Result<(), Fail> {
    for (trip, wait) in [(10, 200), (66, 200), (67, 201), (100, 300), (2000, 6000)] {
        let mut paced = Paced::joined(rt.alloc(), trip)?;
        paced.plan(trip);
        paced.send(1, trip);
        assert_eq!(rt;
            paced.pacer.next_due(trip),
            Some(trip + wait),
            "after {trip}"
        );
    }
    Ok(())
}

/// RFC 6298: after a sample of 100 the variation is 50 and the timeout 100 + 4 x 50. After a sample
/// of 60 the round trip is 760 / 8 = 95, and 4 x 50 - 50 + 40 = 190 is added.
#[test]
fn the_measured_wait(rt: HostRuntime) -> Result<(), Fail> {
    let mut paced = Paced::joined(rt.alloc(), 1)?;
    paced.plan(1000);
    paced.send(1, 1000);
    paced.acknowledge(1, 1100);
    paced.plan(1200);
    paced.send(1, 1200);
    assert_eq!(rt; paced.pacer.next_due(1200), Some(1500));
    paced.acknowledge(1, 1260);
    paced.plan(1300);
    paced.send(1, 1300);
    assert_eq!(rt; paced.pacer.next_due(1300), Some(1585));
    Ok(())
}

/// One unit is sent again, then four are in flight. The timeout doubles up to four seconds.
#[test]
fn a_wait_that_is_over(rt: HostRuntime) -> Result<(), Fail> {
    let mut paced = Paced::joined(rt.alloc(), 100)?;
    paced.plan(100);
    paced.send(10, 100);
    assert_eq!(rt; paced.plan(399), window(20));
    let mut now = 400;
    for wait in [600, 1200, 2400, 4000, 4000] {
        assert_eq!(rt; paced.pacer.next_due(now - 1), Some(now));
        assert_eq!(rt; paced.plan(now), again(0));
        paced.send_again(now);
        assert_eq!(rt; paced.plan(now), window(13));
        now += wait;
        assert_eq!(rt; paced.plan(now - 1), window(13));
    }
    Ok(())
}

/// After ten in a row the connection is given up, but not if anything new is acknowledged before.
#[test]
fn ten_waits_that_are_over(rt: HostRuntime) -> Result<(), Fail> {
    let mut paced = Paced::joined(rt.alloc(), 100)?;
    paced.plan(100);
    paced.send(10, 100);
    let mut now = 100;
    for wait in [300, 600, 1200, 2400, 4000, 4000, 4000, 4000, 4000] {
        now += wait;
        assert_eq!(rt; paced.plan(now), again(0));
        paced.send_again(now);
    }
    assert_eq!(rt; paced.plan(now + 3999).again, None);
    assert!(rt; !paced.pacer.has_given_up());
    paced.plan(now + 4000);
    assert!(rt; paced.pacer.has_given_up());
    paced.acknowledge(1, now + 4001);
    assert!(rt; !paced.pacer.has_given_up());
    Ok(())
}

/// After a timeout outstanding units are sent again in order: 1, then 2, 4 more at each
/// acknowledgement.
#[test]
fn all_goes_again_in_order(rt: HostRuntime) -> Result<(), Fail> {
    let mut paced = Paced::joined(rt.alloc(), 100)?;
    paced.plan(100);
    paced.send(10, 100);
    paced.plan(400);
    paced.send_again(400);
    paced.acknowledge(1, 500);
    for place in [0, 1] {
        assert_eq!(rt; paced.plan(500), again(place));
        paced.send_again(500);
    }
    assert_eq!(rt; paced.plan(500).again, None);
    paced.acknowledge(1, 600);
    for place in [1, 2, 3] {
        assert_eq!(rt; paced.plan(600), again(place));
        paced.send_again(600);
    }
    assert_eq!(rt; paced.plan(600).again, None);
    Ok(())
}

/// The end alone is sent again at each timeout, and besides that half a second to a second after it
/// was sent last.
#[test]
fn the_end_alone(rt: HostRuntime) -> Result<(), Fail> {
    for (trip, wait) in [(100, 500), (250, 750), (2000, 1000)] {
        let mut paced = Paced::joined(rt.alloc(), trip)?;
        let mut now = 5000;
        paced.plan(now);
        paced.send_end(now);
        assert_eq!(rt; paced.pacer.next_due(now), Some(now + wait));
        for _ in 0..8 {
            let due = paced.pacer.next_due(now).unwrap_or(0);
            assert!(rt; due > now && due <= now + wait);
            assert_eq!(rt; paced.plan(due - 1).again, None);
            assert_eq!(rt; paced.plan(due), again(0));
            paced.send_again(due);
            now = due;
        }
    }
    Ok(())
}

/// Plans each millisecond until the connection is given up, sends what the plans allow, and returns
/// when that was and how often the first unit was sent again. If the peer asks, a packet that
/// acknowledges nothing new comes each three seconds.
fn until_given_up(paced: &mut Paced, start: u64, asks: bool) -> (u64, u32) {
    let (mut now, mut again) = (start, 0);
    while !paced.pacer.has_given_up() && now < start + 100_000 {
        now += 1;
        if asks && now % 3000 == 0 {
            paced.double(1, now);
        }
        let plan = paced.plan(now);
        if plan.again == Some(0) {
            paced.send_again(now);
            again += 1;
        }
        paced.send(plan.window.saturating_sub(paced.out()), now);
    }
    (now, again)
}

/// A peer that acknowledges nothing, and asks each three seconds whether the sender is there. The
/// first unit is sent again at each timeout, and after ten the connection is given up: after 0.3,
/// 0.6, 1.2 and 2.4 seconds, and six times 4; or after ten times 6.
#[test]
fn packets_without_news(rt: HostRuntime) -> Result<(), Fail> {
    for (trip, end) in [(100, 28_600), (2000, 62_000)] {
        for asks in [false, true] {
            let mut paced = Paced::joined(rt.alloc(), trip)?;
            paced.plan(trip);
            paced.send(10, trip);
            assert_eq!(rt;
                until_given_up(&mut paced, trip, asks),
                (end, 10),
                "after {trip}, {asks}"
            );
        }
    }
    Ok(())
}

/// All ten units count as received or given up, but the first is missing. Further duplicates take
/// nothing out of flight, so the timeouts come as if there were none: 28.5 seconds from 200 on.
#[test]
fn duplicates_of_nothing_in_flight(rt: HostRuntime) -> Result<(), Fail> {
    for more in [0, 1, 5] {
        let mut paced = Paced::joined(rt.alloc(), 100)?;
        paced.plan(100);
        paced.send(10, 100);
        paced.double(10, 200);
        assert_eq!(rt; paced.plan(200), again(0));
        paced.send_again(200);
        paced.double(more, 290);
        let mut now = 290;
        while !paced.pacer.has_given_up() {
            now += 1;
            if paced.plan(now).again.is_some() {
                paced.send_again(now);
            }
        }
        assert_eq!(rt; now, 28_700, "{more} more");
    }
    Ok(())
}

/// The end is sent again each half second, but only these waits are timeouts: 0.5, 0.6, 1.2 and 2.4
/// seconds, and six times 4. Then it is given up, also if the peer asks meanwhile.
#[test]
fn the_end_is_given_up(rt: HostRuntime) -> Result<(), Fail> {
    for asks in [false, true] {
        let mut paced = Paced::joined(rt.alloc(), 100)?;
        paced.plan(5000);
        paced.send_end(5000);
        let (now, _) = until_given_up(&mut paced, 5000, asks);
        assert_eq!(rt; now, 33_700, "{asks}");
    }
    Ok(())
}

/// With a unit before it the end has the timeout of any unit.
#[test]
fn the_end_after_a_unit(rt: HostRuntime) -> Result<(), Fail> {
    let mut paced = Paced::joined(rt.alloc(), 2000)?;
    paced.plan(5000);
    paced.send(1, 5000);
    paced.send_end(5000);
    assert_eq!(rt; paced.pacer.next_due(5000), Some(11_000));
    paced.acknowledge(1, 5100);
    // Its round trip was 100 ms, and the timeout is 300: half a second for the end, which is now
    // alone.
    assert_eq!(rt; paced.pacer.next_due(5100), Some(5600));
    Ok(())
}
