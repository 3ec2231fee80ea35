//! Messages between two hosts, and a host's answers to datagrams.

use crate::hosts::{Host, ROOM, joins, passes};
use crate::units::message;
use spx_link::{Received, Sent, State};
use spx_messages::{Arrived, EndFault, Message, MessageFault, Taken};
use std::alloc::Global;
use std::process::Abort;
use std::test::Fail;

/// The first packet of a host that asks for a connection.
const REQUEST: &str =
    "ffff002a00050000001100007f00000440000000001100007f0000034001c0000001ffff000000000007";

/// The same with stream FE.
const END: &str =
    "ffff002a00050000001100007f00000440000000001100007f0000034001c0fe0001ffff000000000007";

#[test]
fn first_poll(rt: HostRuntime) -> Result<(), Fail> {
    let mut near = Host::near(rt.alloc());
    assert_eq!(rt; near.dial()?, 1);
    let mut room = [0; ROOM];
    let count = near.poll(&mut room).unwrap_or(0);
    assert_eq!(rt; count, 42);
    assert_eq!(rt; near.sent(), Some((1, Sent::Request)));
    let bytes = &room[..count];
    let text = hex::encode(rt.alloc(), bytes)?;
    assert_eq!(rt; text.as_str(), REQUEST);
    Ok(())
}

/// On the same network no router is needed.
#[test]
fn next_node(rt: HostRuntime) -> Result<(), Fail> {
    let mut near = Host::near(rt.alloc());
    near.dial()?;
    let mut room = [0; ROOM];
    assert!(rt; near.speaks_to_far(&mut room));
    Ok(())
}

/// What a host answers to a datagram in hex. Text that is no hex gives `None`.
fn answer(alloc: Global, host: &mut Host, text: &str) -> Result<Option<Arrived>, Fail> {
    let Ok(bytes) = hex::decode(alloc, text.as_bytes()) else {
        return Ok(None);
    };
    Ok(Some(host.receive(&bytes)?))
}

/// A packet of stream FE is no request, and there is no link for it.
#[test]
fn end_for_nobody(rt: HostRuntime) -> Result<(), Fail> {
    let mut far = Host::far(rt.alloc());
    far.opens()?;
    assert_eq!(rt; answer(rt.alloc(), &mut far, END)?, Some(Arrived::Stranger));
    assert_eq!(rt; far.heard(), None);
    Ok(())
}

/// A repeated request is answered by another reply, and no link reads it.
#[test]
fn request_again(rt: HostRuntime) -> Result<(), Fail> {
    let alloc = rt.alloc();
    let mut far = Host::far(alloc);
    far.opens()?;
    assert_eq!(rt;
        answer(alloc, &mut far, REQUEST)?,
        Some(Arrived::Accepted(1))
    );
    let again = answer(alloc, &mut far, REQUEST)?;
    assert_eq!(rt; again, Some(Arrived::Link(1, Received::Repeat)));
    assert_eq!(rt; far.heard(), None);
    Ok(())
}

/// A unit that arrives twice is kept once, and read by its link both times.
#[test]
fn unit_again(rt: HostRuntime) -> Result<(), Fail> {
    let mut near = Host::near(rt.alloc());
    let mut far = Host::far(rt.alloc());
    joins(&rt, &mut near, &mut far)?;
    near.send(&message(rt.alloc(), 0, 1)?)?;
    let mut room = [0; ROOM];
    let count = near.poll(&mut room).unwrap_or(0);
    let bytes = &room[..count];
    assert_eq!(rt; far.receive(bytes)?, Arrived::Link(1, Received::Kept));
    assert_eq!(rt; far.receive(bytes)?, Arrived::Link(1, Received::Repeat));
    assert_eq!(rt; far.heard(), Some(1));
    Ok(())
}

/// The first message that the far host completes.
fn first_message(near: &mut Host, far: &mut Host) -> Result<Option<Message>, Fail> {
    for _ in 0..200 {
        passes(near, far)?;
        if let Taken::Whole(message) = far.take()? {
            return Ok(Some(message));
        }
        passes(far, near)?;
    }
    Ok(None)
}

/// Whether a message of so many bytes arrives complete and unchanged.
fn comes_out(rt: &impl Abort, alloc: Global, length: usize) -> Result<bool, Fail> {
    let mut near = Host::near(alloc);
    let mut far = Host::far(alloc);
    joins(rt, &mut near, &mut far)?;
    let sent = message(alloc, 3, length)?;
    near.send(&sent)?;
    let got = first_message(&mut near, &mut far)?;
    Ok(got.is_some_and(|m| m.stream == 3 && m.body == sent.body))
}

#[test]
fn messages_pass(rt: HostRuntime) -> Result<(), Fail> {
    for length in [0, 534, 535, 65_535] {
        assert!(rt; comes_out(&rt, rt.alloc(), length)?, "of {length} bytes");
    }
    Ok(())
}

/// Passes a unit from the near host to the far one, without its end of message.
fn passes_part(rt: &impl Abort, near: &mut Host, far: &mut Host) -> Result<(), Fail> {
    let mut room = [0; ROOM];
    let count = near.poll(&mut room).unwrap_or(0);
    room[30] &= 0xef;
    let bytes = &room[..count];
    assert_eq!(rt; far.receive(bytes)?, Arrived::Link(1, Received::Kept));
    Ok(())
}

/// 65,535 bytes that end no message, in 123 units.
fn fills(rt: &impl Abort, near: &mut Host, far: &mut Host) -> Result<(), Fail> {
    for _ in 0..123 {
        passes_part(rt, near, far)?;
        assert!(rt; matches!(far.take()?, Taken::Part));
        passes(far, near)?;
    }
    Ok(())
}

/// 65,536 bytes without an end of message: the link becomes lost, and the message after them is
/// still complete.
#[test]
fn overlong_message(rt: HostRuntime) -> Result<(), Fail> {
    let mut near = Host::near(rt.alloc());
    let mut far = Host::far(rt.alloc());
    joins(&rt, &mut near, &mut far)?;
    near.send(&message(rt.alloc(), 0, 65_535)?)?;
    fills(&rt, &mut near, &mut far)?;
    near.send(&message(rt.alloc(), 0, 1)?)?;
    near.send(&message(rt.alloc(), 4, 2)?)?;
    passes_part(&rt, &mut near, &mut far)?;
    passes(&mut near, &mut far)?;
    is_lost(&rt, &mut far)
}

fn is_lost(rt: &impl Abort, far: &mut Host) -> Result<(), Fail> {
    let overlong = EndFault::Message(MessageFault::Overlong);
    assert_eq!(rt; far.take().err(), Some(overlong));
    assert_eq!(rt; far.state(1), Ok(State::Lost));
    let next = far.take_whole()?;
    assert!(rt; next.is_some_and(|m| m.stream == 4 && m.body.len() == 2));
    Ok(())
}
