//! A pacer when memory is refused.

use crate::numbers::numbers;
use ipx_wire::OutOfMemory;
use spx_congestion::{Pacer, SentKind};
use std::test::Fail;

/// A pacer makes two allocations. If one is refused, no pacer is made, and the same call succeeds
/// the next time. No other call allocates.
#[test]
fn refused_pacer(rt: HostRuntime) -> Result<(), Fail> {
    let mut pacer = match Pacer::new(rt.alloc()) {
        Ok(pacer) => pacer,
        Err(OutOfMemory) => Pacer::new(rt.alloc())?,
    };
    assert_eq!(rt; pacer.plan(numbers(0, 0), 0).window, 10);
    pacer.gave(SentKind::Unit, numbers(0, 1), 0);
    pacer.heard(numbers(0, 1), numbers(1, 0), false, 5);
    assert_eq!(rt; pacer.next_due(5), None);
    Ok(())
}
