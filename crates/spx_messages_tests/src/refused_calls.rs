//! An endpoint if memory is refused. Run these with each request for memory refused.

use crate::hosts::{Host, ROOM, joins, passes, whole};
use crate::refused::message_at_last;
use spx_link::{Sent, State};
use spx_messages::{Arrived, EndFault, Message, Taken};
use std::process::Abort;
use std::test::Fail;

/// The number of the fault for refused memory.
const WANT: u8 = 27;

/// A listen that is refused succeeds when it is repeated. No other socket listens after that.
#[test]
fn refused_listen(rt: HostRuntime) -> Result<(), Fail> {
    let mut near = Host::near(rt.alloc());
    let mut far = Host::far(rt.alloc());
    for socket in 0x4002..0x4007 {
        if far.listen(socket).is_err() {
            far.listen(socket)?;
        }
    }
    assert_eq!(rt; near.dial_at_last()?, 1);
    assert_eq!(rt; passes(&mut near, &mut far)?, Some(Arrived::NoListener));
    Ok(())
}

/// A link is made. If memory is refused, none was.
#[test]
fn refused_dial(rt: HostRuntime) -> Result<(), Fail> {
    let mut near = Host::near(rt.alloc());
    for id in 1..6u16 {
        if let Err(fault) = near.dial() {
            assert_eq!(rt; fault.number(), WANT);
            assert_eq!(rt; near.state(id), Err(EndFault::NoSuchEnd));
            near.dial()?;
        }
        assert_eq!(rt; near.state(id), Ok(State::Opening));
    }
    Ok(())
}

/// A request for a connection. If memory is refused, no link was made, and no link read it.
#[test]
fn refused_accept(rt: HostRuntime) -> Result<(), Fail> {
    let mut near = Host::near(rt.alloc());
    let mut far = Host::far(rt.alloc());
    far.opens()?;
    near.dial_at_last()?;
    let mut room = [0; ROOM];
    let count = near.poll(&mut room).unwrap_or(0);
    accepts(&rt, &mut far, &room[..count])
}

fn accepts(rt: &impl Abort, far: &mut Host, bytes: &[u8]) -> Result<(), Fail> {
    if far.receive(bytes).is_err() {
        assert_eq!(rt; far.state(1), Err(EndFault::NoSuchEnd));
        assert_eq!(rt; far.heard(), None);
        assert_eq!(rt; far.receive(bytes)?, Arrived::Accepted(1));
    }
    assert_eq!(rt; far.state(1), Ok(State::Live));
    Ok(())
}

/// Sends a message. If memory is refused, none was queued, and it is tried again.
fn sends(rt: &impl Abort, near: &mut Host, sent: &Message) -> Result<(), Fail> {
    if let Err(fault) = near.send(sent) {
        assert_eq!(rt; fault.number(), WANT);
        assert!(rt; !near.speaks());
        near.send(sent)?;
    }
    Ok(())
}

#[test]
fn refused_send(rt: HostRuntime) -> Result<(), Fail> {
    let mut near = Host::near(rt.alloc());
    let mut far = Host::far(rt.alloc());
    joins(&rt, &mut near, &mut far)?;
    let sent = message_at_last(rt.alloc(), 2, 500)?;
    for _ in 0..5 {
        sends(&rt, &mut near, &sent)?;
        assert!(rt; near.speaks());
        assert_eq!(rt; near.sent(), Some((1, Sent::Unit)));
    }
    Ok(())
}

/// An end that is refused leaves the link open.
#[test]
fn refused_close(rt: HostRuntime) -> Result<(), Fail> {
    let mut near = Host::near(rt.alloc());
    let mut far = Host::far(rt.alloc());
    joins(&rt, &mut near, &mut far)?;
    if let Err(fault) = near.close() {
        assert_eq!(rt; fault.number(), WANT);
        assert_eq!(rt; near.state(1), Ok(State::Live));
        near.close()?;
    }
    assert_eq!(rt; near.state(1), Ok(State::Ending));
    Ok(())
}

/// A take that is refused leaves the unit where it was, and succeeds when it is repeated.
fn takes(rt: &impl Abort, far: &mut Host) -> Result<Taken, Fail> {
    let held = far.held()?;
    match far.take() {
        Ok(taken) => Ok(taken),
        Err(fault) => {
            assert_eq!(rt; fault.number(), WANT);
            assert_eq!(rt; far.held()?, held);
            Ok(far.take()?)
        }
    }
}

/// Passes a unit and takes it.
fn passes_and_takes(rt: &impl Abort, near: &mut Host, far: &mut Host) -> Result<Taken, Fail> {
    passes(near, far)?;
    takes(rt, far)
}

/// A message of three units, each taken, some on a second try.
#[test]
fn refused_take(rt: HostRuntime) -> Result<(), Fail> {
    let mut near = Host::near(rt.alloc());
    let mut far = Host::far(rt.alloc());
    joins(&rt, &mut near, &mut far)?;
    let sent = message_at_last(rt.alloc(), 2, 1_100)?;
    sends(&rt, &mut near, &sent)?;
    for _ in 0..2 {
        assert!(rt; matches!(passes_and_takes(&rt, &mut near, &mut far)?, Taken::Part));
    }
    let got = whole(passes_and_takes(&rt, &mut near, &mut far)?);
    assert!(rt; got.is_some_and(|m| m.stream == 2 && m.body == sent.body));
    Ok(())
}
