//! How long a caller may sleep.

use crate::end::{End, joined, one_unit, system};
use spx_link::Sent;
use std::process::Abort;
use std::test::Fail;

/// A request is due at once, and then 500 ms after the last one.
#[test]
fn due_request(rt: HostRuntime) -> Result<(), Fail> {
    let mut end = End::dial(rt.alloc(), 8)?;
    assert_eq!(rt; end.next_due(), Some(0));
    assert_eq!(rt; end.sent(7), Some(Sent::Request));
    assert_eq!(rt; end.next_due(), Some(507));
    assert_eq!(rt; end.sent(506), None);
    assert_eq!(rt; end.sent(507), Some(Sent::Request));
    Ok(())
}

/// A link with nothing to send waits for a packet or a call. One with a unit outstanding waits 500 ms.
#[test]
fn due_unit(rt: HostRuntime) -> Result<(), Fail> {
    let mut end = joined(&rt, rt.alloc(), 7)?;
    assert_eq!(rt; end.next_due(), None);
    end.offer(one_unit(rt.alloc(), 0)?)?;
    assert_eq!(rt; end.next_due(), Some(0));
    assert_eq!(rt; end.sent(40), Some(Sent::Unit));
    assert_eq!(rt; end.next_due(), Some(540));
    end.receive(&system(1, 7), &[], 50)?;
    assert_eq!(rt; end.next_due(), None);
    Ok(())
}

/// If the peer has no free buffer, the next probe.
#[test]
fn due_probe(rt: HostRuntime) -> Result<(), Fail> {
    let mut end = joined(&rt, rt.alloc(), 0xffff)?;
    end.offer(one_unit(rt.alloc(), 0)?)?;
    assert_eq!(rt; end.next_due(), Some(500));
    probes(&rt, &mut end);
    Ok(())
}

fn probes(rt: &impl Abort, end: &mut End) {
    assert_eq!(rt; end.sent(499), None);
    assert_eq!(rt; end.sent(500), Some(Sent::Probe));
    assert_eq!(rt; end.next_due(), Some(1000));
}
