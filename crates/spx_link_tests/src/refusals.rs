//! What links refuse: units and the end in the wrong state, and a seventeenth link.

use crate::end::{End, HERE, joined, one_unit, system, there};
use spx_link::{Links, LinksFault, OfferFault, Sent, State};
use std::test::Fail;

#[test]
fn nothing_is_queued_before_it_is_live(rt: HostRuntime) -> Result<(), Fail> {
    let mut opening = End::dial(rt.alloc(), 8)?;
    let refused = opening.offer(one_unit(rt.alloc(), 0)?);
    assert_eq!(rt; refused, Err(OfferFault::NotLive));
    assert_eq!(rt; OfferFault::NotLive.number(), 25);
    assert_eq!(rt; opening.end(), Err(OfferFault::NotLive));
    assert_eq!(rt; opening.state(), Some(State::Opening));
    Ok(())
}

/// The end is sent, and nothing after it.
#[test]
fn nothing_is_queued_after_the_end(rt: HostRuntime) -> Result<(), Fail> {
    let mut ending = joined(&rt, rt.alloc(), 7)?;
    ending.end()?;
    assert_eq!(rt; ending.end(), Err(OfferFault::Ended));
    let refused = ending.offer(one_unit(rt.alloc(), 0)?);
    assert_eq!(rt; refused, Err(OfferFault::Ended));
    assert_eq!(rt; OfferFault::Ended.number(), 26);
    assert_eq!(rt; ending.sent(0), Some(Sent::Unit));
    assert_eq!(rt; ending.sent(0), None);
    Ok(())
}

#[test]
fn sixteen_accepted(rt: HostRuntime) -> Result<(), Fail> {
    let mut links = Links::new(rt.alloc());
    for id in 1..17u16 {
        let made = links.accept(rt.alloc(), HERE, there(), &system(0, 7), 8, 0)?;
        assert_eq!(rt; made, id);
    }
    let refused = links.accept(rt.alloc(), HERE, there(), &system(0, 7), 8, 0);
    assert_eq!(rt; refused, Err(LinksFault::TooMany));
    assert_eq!(rt; LinksFault::TooMany.number(), 28);
    assert_eq!(rt; links.after(16), None);
    Ok(())
}
