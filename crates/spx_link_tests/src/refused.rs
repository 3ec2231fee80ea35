//! A link when memory is refused. Run these with each allocation refused.

use crate::end::{joined, unit_again};
use spx_link::{OfferFault, Sent, State};
use std::test::Fail;

/// Each call of a link that needs memory. If it is refused once, nothing changed, and the same call
/// succeeds the next time.
#[test]
fn refused_memory(rt: HostRuntime) -> Result<(), Fail> {
    let mut end = joined(&rt, rt.alloc(), 7)?;
    for _ in 0..5 {
        if end.offer(unit_again(rt.alloc())?) == Err(OfferFault::OutOfMemory) {
            assert_eq!(rt; end.sent(0), None);
            end.offer(unit_again(rt.alloc())?)?;
        }
        assert_eq!(rt; end.sent(0), Some(Sent::Unit));
    }
    Ok(())
}

/// The same for the end, with no unit before it.
#[test]
fn refused_end(rt: HostRuntime) -> Result<(), Fail> {
    let mut ending = joined(&rt, rt.alloc(), 7)?;
    if ending.end() == Err(OfferFault::OutOfMemory) {
        assert_eq!(rt; ending.state(), Some(State::Live));
        ending.end()?;
    }
    assert_eq!(rt; ending.state(), Some(State::Ending));
    Ok(())
}
