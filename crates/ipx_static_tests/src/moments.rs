//! When static advertisements are received.

use crate::fixture::{ask, ears};
use ipx_carrier::Core;
use std::test::Fail;

/// At first, and each time that the core is asked a minute later or more.
#[test]
fn once_a_minute(rt: HostRuntime) -> Result<(), Fail> {
    let alloc = rt.alloc();
    let mut core = ears(alloc, 1, 0, None)?;
    for now in [
        1000, 1000, 60_999, 61_000, 61_001, 120_999, 150_000, 209_999, 210_000,
    ] {
        ask(alloc, &mut core, now)?;
    }
    assert_eq!(rt;
        core.core().sizes(alloc)?.as_str(),
        "1000:40 61000:40 150000:40 210000:40 "
    );
    assert_eq!(rt; core.core().asked, 9);
    Ok(())
}

/// When to ask next, if one waits: at once at first, and then a minute after the last time.
#[test]
fn when_to_ask_next(rt: HostRuntime) -> Result<(), Fail> {
    let alloc = rt.alloc();
    let mut core = ears(alloc, 1, 0, None)?;
    assert!(rt; core.next_refresh() == Some(0));
    ask(alloc, &mut core, 1000)?;
    assert!(rt; core.next_refresh() == Some(61_000));
    ask(alloc, &mut core, 60_999)?;
    assert!(rt; core.next_refresh() == Some(61_000));
    ask(alloc, &mut core, u64::MAX - 60_000)?;
    assert!(rt; core.next_refresh() == Some(u64::MAX));
    ask(alloc, &mut core, u64::MAX)?;
    assert!(rt; core.next_refresh() == None);
    Ok(())
}

/// If the clock goes back, the minute is counted from the last time.
#[test]
fn a_clock_that_goes_back(rt: HostRuntime) -> Result<(), Fail> {
    let alloc = rt.alloc();
    let mut core = ears(alloc, 1, 0, None)?;
    for now in [100_000, 30_000, 159_999, 160_000] {
        ask(alloc, &mut core, now)?;
    }
    assert_eq!(rt; core.core().sizes(alloc)?.as_str(), "100000:40 160000:40 ");
    Ok(())
}

/// Other datagrams are received as they come, and no advertisement with them.
#[test]
fn what_comes_in_is_heard(rt: HostRuntime) -> Result<(), Fail> {
    let alloc = rt.alloc();
    let mut core = ears(alloc, 1, 0, None)?;
    assert_eq!(rt; core.ports(), 2);
    core.hear(alloc, 1, b"abc", 7)?;
    assert_eq!(rt; core.core().text(alloc)?.as_str(), "1 7 616263\n");
    Ok(())
}

/// If memory runs out for the second of three advertisements, the first was received, and all are a
/// minute later.
#[test]
fn a_word_that_is_missed(rt: HostRuntime) -> Result<(), Fail> {
    let alloc = rt.alloc();
    let mut core = ears(alloc, 51, 1, Some(1))?;
    assert!(rt; ask(alloc, &mut core, 0).is_err());
    assert_eq!(rt; core.core().asked, 0);
    ask(alloc, &mut core, 59_999)?;
    assert_eq!(rt; core.core().sizes(alloc)?.as_str(), "0:432 ");
    ask(alloc, &mut core, 60_000)?;
    let wanted = "0:432 60000:432 60000:40 60000:96 ";
    assert_eq!(rt; core.core().sizes(alloc)?.as_str(), wanted);
    Ok(())
}
