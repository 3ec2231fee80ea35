//! Messages if memory is refused. Run these with each request for memory refused.

use crate::units::message;
use spx_link::Unit;
use spx_messages::{Inbox, Message, MessageFault, cut};
use std::alloc::{AllocError, Global};
use std::process::Abort;
use std::test::Fail;

/// A message. If memory is refused, it is tried again.
pub fn message_at_last(alloc: Global, stream: u8, length: usize) -> Result<Message, AllocError> {
    match message(alloc, stream, length) {
        Ok(sent) => Ok(sent),
        Err(_) => message(alloc, stream, length),
    }
}

/// The units of a message. If memory is refused, it is split again.
fn cut_at_last(rt: &impl Abort, alloc: Global, sent: &Message) -> Result<Vec<Unit>, Fail> {
    match cut(alloc, sent) {
        Ok(units) => Ok(units),
        Err(fault) => {
            assert_eq!(rt; fault, MessageFault::OutOfMemory);
            Ok(cut(alloc, sent)?)
        }
    }
}

/// Adds a unit. If memory is refused, the inbox is as it was, and it is tried again.
fn push_at_last(
    rt: &impl Abort,
    alloc: Global,
    inbox: &mut Inbox,
    unit: &Unit,
) -> Result<Option<Message>, Fail> {
    if unit.stream == 0xfe {
        return Ok(None);
    }
    match inbox.push(alloc, unit) {
        Ok(message) => Ok(message),
        Err(fault) => {
            assert_eq!(rt; fault, MessageFault::OutOfMemory);
            Ok(inbox.push(alloc, unit)?)
        }
    }
}

#[test]
fn refused_memory(rt: HostRuntime) -> Result<(), Fail> {
    let alloc = rt.alloc();
    let sent = message_at_last(alloc, 2, 1_100)?;
    let units = cut_at_last(&rt, alloc, &sent)?;
    let mut inbox = Inbox::new(alloc);
    let mut got = None;
    for unit in units.iter() {
        got = push_at_last(&rt, alloc, &mut inbox, unit)?;
    }
    assert!(rt; got.is_some_and(|m| m.stream == 2 && m.body == sent.body));
    Ok(())
}
