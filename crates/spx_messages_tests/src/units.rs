//! Messages split into units, and units joined to messages.

use spx_messages::{Inbox, Message, MessageFault, cut};
use std::alloc::{AllocError, Global};
use std::process::Abort;
use std::test::Fail;

/// A message of so many bytes, with a byte 07 at the end.
pub fn message(alloc: Global, stream: u8, length: usize) -> Result<Message, AllocError> {
    let mut body = vec![in alloc; 1u8; length]?;
    if let Some(last) = body.last_mut() {
        *last = 7;
    }
    Ok(Message { stream, body })
}

/// The number of units of a message, and the length of the last.
fn counts(alloc: Global, length: usize) -> Result<(usize, usize), Fail> {
    let units = cut(alloc, &message(alloc, 0, length)?)?;
    let last = units.last().map_or(0, |unit| unit.body.len());
    Ok((units.len(), last))
}

/// Messages of 0, 534, 535 and 65,535 bytes.
#[test]
fn cut_into_units(rt: HostRuntime) -> Result<(), Fail> {
    assert_eq!(rt; counts(rt.alloc(), 0)?, (1, 0));
    assert_eq!(rt; counts(rt.alloc(), 534)?, (1, 534));
    assert_eq!(rt; counts(rt.alloc(), 535)?, (2, 1));
    assert_eq!(rt; counts(rt.alloc(), 65_535)?, (123, 387));
    Ok(())
}

/// Why a message is not split.
fn refusal(alloc: Global, stream: u8, length: usize) -> Result<Option<MessageFault>, Fail> {
    Ok(cut(alloc, &message(alloc, stream, length)?).err())
}

#[test]
fn refusal_rows(rt: HostRuntime) -> Result<(), Fail> {
    let alloc = rt.alloc();
    assert_eq!(rt;
        refusal(alloc, 0, 65_536)?,
        Some(MessageFault::TooLong(65_536))
    );
    assert_eq!(rt;
        refusal(alloc, 0xff, 65_536)?,
        Some(MessageFault::TooLong(65_536))
    );
    assert_eq!(rt;
        refusal(alloc, 0xfe, 1)?,
        Some(MessageFault::BadStream(0xfe))
    );
    assert_eq!(rt;
        refusal(alloc, 0xff, 1)?,
        Some(MessageFault::BadStream(0xff))
    );
    Ok(())
}

/// The numbers of the faults.
#[test]
fn fault_numbers(rt: HostRuntime) {
    assert_eq!(rt; MessageFault::OutOfMemory.number(), 27);
    assert_eq!(rt; MessageFault::TooLong(65_536).number(), 29);
    assert_eq!(rt; MessageFault::BadStream(0xfe).number(), 30);
    assert_eq!(rt; MessageFault::Overlong.number(), 31);
}

/// A message that is split and joined again.
fn passed(alloc: Global, sent: &Message) -> Result<Option<Message>, Fail> {
    let units = cut(alloc, sent)?;
    let mut inbox = Inbox::new(alloc);
    let mut got = None;
    for unit in units.iter() {
        got = inbox.push(alloc, unit)?;
    }
    Ok(got)
}

/// Whether a message of so many bytes is joined from its units unchanged.
fn comes_out(alloc: Global, stream: u8, length: usize) -> Result<bool, Fail> {
    let sent = message(alloc, stream, length)?;
    let got = passed(alloc, &sent)?;
    Ok(got.is_some_and(|m| m.stream == stream && m.body == sent.body))
}

#[test]
fn join_rows(rt: HostRuntime) -> Result<(), Fail> {
    assert!(rt; comes_out(rt.alloc(), 0, 0)?);
    assert!(rt; comes_out(rt.alloc(), 0xfd, 534)?);
    assert!(rt; comes_out(rt.alloc(), 1, 535)?);
    assert!(rt; comes_out(rt.alloc(), 1, 65_535)?);
    Ok(())
}

/// Three units: the two of a message of 535 bytes of stream 1, and between them one of stream FE
/// with a byte and an end of message. The inbox leaves that one out. The message that the third
/// completes has only the bytes of the first and the last.
#[test]
fn end_between_two_units(rt: HostRuntime) -> Result<(), Fail> {
    let alloc = rt.alloc();
    let sent = message(alloc, 1, 535)?;
    let units = cut(alloc, &sent)?;
    let mut ends = cut(alloc, &message(alloc, 0, 1)?)?;
    if let Some(end) = ends.last_mut() {
        end.stream = 0xfe;
    }
    let mut inbox = Inbox::new(alloc);
    let mut got = vec![in alloc;]?;
    for unit in units
        .iter()
        .take(1)
        .chain(ends.iter())
        .chain(units.iter().skip(1))
    {
        got.push(inbox.push(alloc, unit)?)?;
    }
    let none = got.iter().take(2).all(Option::is_none);
    let whole = got.pop().flatten();
    assert!(rt; none);
    assert!(rt; got.len() == 2);
    assert!(rt; whole.is_some_and(|m| m.stream == 1 && m.body == sent.body));
    Ok(())
}

/// An empty inbox also leaves out a unit of stream FE.
#[test]
fn end_in_an_empty_inbox(rt: HostRuntime) -> Result<(), Fail> {
    let alloc = rt.alloc();
    let mut ends = cut(alloc, &message(alloc, 0, 1)?)?;
    if let Some(end) = ends.last_mut() {
        end.stream = 0xfe;
    }
    let mut inbox = Inbox::new(alloc);
    for end in ends.iter() {
        assert!(rt; inbox.push(alloc, end)?.is_none());
    }
    assert!(rt; joins_alone(alloc, &mut inbox)?);
    Ok(())
}

/// 65,536 bytes without an end of message are refused, and the inbox is empty after that.
#[test]
fn overlong_row(rt: HostRuntime) -> Result<(), Fail> {
    let alloc = rt.alloc();
    let mut inbox = Inbox::new(alloc);
    assert_eq!(rt; fill(alloc, &mut inbox)?, 65_535);
    let one = cut(alloc, &message(alloc, 0, 1)?)?;
    assert_eq!(rt;
        one.first().and_then(|unit| inbox.push(alloc, unit).err()),
        Some(MessageFault::Overlong)
    );
    assert!(rt; joins_alone(alloc, &mut inbox)?);
    Ok(())
}

/// Adds 65,535 bytes of a message that is not complete, and counts them.
fn fill(alloc: Global, inbox: &mut Inbox) -> Result<usize, Fail> {
    let mut units = cut(alloc, &message(alloc, 0, 65_535)?)?;
    if let Some(last) = units.last_mut() {
        last.last = false;
    }
    let mut bytes: usize = 0;
    for unit in units.iter() {
        if unit.stream != 0xfe && inbox.push(alloc, unit)?.is_none() {
            bytes = bytes.saturating_add(unit.body.len());
        }
    }
    Ok(bytes)
}

/// A message of one unit comes out unchanged.
fn joins_alone(alloc: Global, inbox: &mut Inbox) -> Result<bool, Fail> {
    let units = cut(alloc, &message(alloc, 3, 1)?)?;
    let mut got = None;
    for unit in units.iter() {
        got = inbox.push(alloc, unit)?;
    }
    Ok(got.is_some_and(|m| m.stream == 3 && m.body.len() == 1))
}
