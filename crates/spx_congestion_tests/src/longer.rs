//! A path that becomes longer.

use crate::numbers::Paced;
use std::alloc::Global;
use std::collections::VecDeque;
use std::test::Fail;

/// A connection with round trips of 50 ms, measured in its first tenth of a second.
fn with_trips_of_50(alloc: Global) -> Result<Paced, Fail> {
    let mut paced = Paced::joined(alloc, 50)?;
    paced.plan(50);
    paced.send(10, 50);
    for _ in 0..10 {
        paced.acknowledge(1, 100);
    }
    Ok(paced)
}

/// It sends what it may from this time on, for half a second with round trips of 70 ms. It returns
/// how many units are in flight then.
fn in_flight(alloc: Global, paced: &mut Paced, from: u64) -> Result<u16, Fail> {
    let mut sent = VecDeque::new(alloc);
    for now in from..from + 500 {
        let before = paced.out();
        paced.fill(now);
        sent.push_back(paced.out() - before)?;
        if now >= from + 70 {
            let came = sent.pop_front().unwrap_or(0);
            for _ in 0..came {
                paced.acknowledge(1, now);
            }
        }
    }
    Ok(paced.out())
}

/// Round trips of 50 ms, and of 70 half a minute later, which is over an eighth more than 50. The
/// shorter ones are forgotten by then. So no queue is suspected, and slow start goes on. From 27
/// units, doubled every 70 ms, over 100 are in flight half a second later.
#[test]
fn a_longer_path_is_no_queue(rt: HostRuntime) -> Result<(), Fail> {
    let mut paced = with_trips_of_50(rt.alloc())?;
    let out = in_flight(rt.alloc(), &mut paced, 30_000)?;
    assert!(rt; out > 100, "{out} units");
    Ok(())
}

/// The same 20.1 seconds after the shorter ones, if one of 70 ms was measured just before.
#[test]
fn a_shorter_path_is_forgotten_after_20_seconds(rt: HostRuntime) -> Result<(), Fail> {
    let mut paced = with_trips_of_50(rt.alloc())?;
    paced.plan(19_900);
    paced.send(1, 19_900);
    paced.acknowledge(1, 19_970);
    let out = in_flight(rt.alloc(), &mut paced, 20_200)?;
    assert!(rt; out > 100, "{out} units");
    Ok(())
}

/// Nine seconds after the shorter ones they are remembered, so a queue is suspected, and slow start
/// ends.
#[test]
fn a_shorter_path_is_remembered_for_10_seconds(rt: HostRuntime) -> Result<(), Fail> {
    let mut paced = with_trips_of_50(rt.alloc())?;
    let out = in_flight(rt.alloc(), &mut paced, 9_000)?;
    assert!(rt; out <= 100, "{out} units");
    Ok(())
}
