//! The calls of an endpoint.

use crate::hosts::{Host, joins, passes};
use crate::units::message;
use spx_link::{OfferFault, Received, Sent, State};
use spx_messages::{Arrived, EndFault, Taken};
use std::process::Abort;
use std::test::Fail;

/// Calls with an id that no link has.
#[test]
fn no_such_end(rt: HostRuntime) -> Result<(), Fail> {
    let mut near = Host::near(rt.alloc());
    assert_eq!(rt; near.dial()?, 1);
    let sent = near.send_over(9, &message(rt.alloc(), 0, 1)?);
    assert_eq!(rt; sent, Err(EndFault::NoSuchEnd));
    assert_eq!(rt; EndFault::NoSuchEnd.number(), 34);
    assert_eq!(rt; near.pace(9, 8192, true), Err(EndFault::NoSuchEnd));
    assert_eq!(rt; near.again(9, 0), Err(EndFault::NoSuchEnd));
    assert_eq!(rt; near.release(9), Err(EndFault::NoSuchEnd));
    assert_eq!(rt; near.state(9), Err(EndFault::NoSuchEnd));
    assert_eq!(rt; near.is_all_acked(9), Err(EndFault::NoSuchEnd));
    Ok(())
}

/// Nothing is sent over a link that is not open yet. A message that cannot be split is reported
/// before that.
#[test]
fn not_open_yet(rt: HostRuntime) -> Result<(), Fail> {
    let mut near = Host::near(rt.alloc());
    assert_eq!(rt; near.next_due(), None);
    assert_eq!(rt; near.dial()?, 1);
    assert_eq!(rt; near.next_due(), Some(0));
    let sent = near.send(&message(rt.alloc(), 0, 1)?);
    assert_eq!(rt; sent, Err(EndFault::Offer(OfferFault::NotLive)));
    let bad = near.send(&message(rt.alloc(), 0xfe, 1)?);
    assert_eq!(rt; bad.map_err(|fault| fault.number()), Err(30));
    Ok(())
}

/// A window of 0 delays a message. With manual retransmission its unit is sent again when asked
/// for, and the far host reads it once. A link that is not open yet refuses neither call.
#[test]
fn paced(rt: HostRuntime) -> Result<(), Fail> {
    let mut near = Host::near(rt.alloc());
    let mut far = Host::far(rt.alloc());
    joins(&rt, &mut near, &mut far)?;
    near.pace(1, 0, true)?;
    near.send(&message(rt.alloc(), 0, 1)?)?;
    assert_eq!(rt; passes(&mut near, &mut far)?, None);
    near.pace(1, 1, true)?;
    let first = passes(&mut near, &mut far)?;
    assert_eq!(rt; first, Some(Arrived::Link(1, Received::Kept)));
    near.again(1, 0)?;
    let second = passes(&mut near, &mut far)?;
    assert_eq!(rt; second, Some(Arrived::Link(1, Received::Repeat)));
    assert_eq!(rt; near.sent(), Some((1, Sent::Again)));
    assert_eq!(rt; near.dial()?, 2);
    near.pace(2, 8192, true)?;
    near.again(2, 0)?;
    assert_eq!(rt; near.state(2)?, State::Opening);
    Ok(())
}

/// The end of a connection comes after the message that was sent before it.
#[test]
fn ends(rt: HostRuntime) -> Result<(), Fail> {
    let mut near = Host::near(rt.alloc());
    let mut far = Host::far(rt.alloc());
    joins(&rt, &mut near, &mut far)?;
    near.send(&message(rt.alloc(), 0, 1)?)?;
    near.close()?;
    assert!(rt; !near.is_all_acked(1)?);
    passes(&mut near, &mut far)?;
    let ended = passes(&mut near, &mut far)?;
    assert_eq!(rt; ended, Some(Arrived::Link(1, Received::PeerEnded)));
    takes_the_end(&rt, &mut far)?;
    let confirmed = passes(&mut far, &mut near)?;
    assert_eq!(rt; confirmed, Some(Arrived::Link(1, Received::Confirmed)));
    assert_eq!(rt; near.state(1)?, State::Confirmed);
    assert!(rt; near.is_all_acked(1)?);
    assert!(rt; !far.is_all_acked(1)?);
    Ok(())
}

fn takes_the_end(rt: &impl Abort, far: &mut Host) -> Result<(), Fail> {
    assert_eq!(rt; far.held()?, 2);
    assert!(rt; matches!(far.take()?, Taken::Whole(_)));
    assert_eq!(rt; far.next_stream()?, Some(0xfe));
    assert!(rt; matches!(far.take()?, Taken::PeerEnd));
    assert!(rt; matches!(far.take()?, Taken::Nothing));
    Ok(())
}

/// A released id is gone, and the next link has the next one.
#[test]
fn released(rt: HostRuntime) -> Result<(), Fail> {
    let mut near = Host::near(rt.alloc());
    assert_eq!(rt; near.dial()?, 1);
    near.release(1)?;
    assert_eq!(rt; near.state(1), Err(EndFault::NoSuchEnd));
    assert_eq!(rt; near.dial()?, 2);
    assert_eq!(rt; near.state(2)?, State::Opening);
    Ok(())
}
