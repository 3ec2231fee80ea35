//! A host that reads datagrams while every request for memory is refused.

use crate::hosts::{Host, ROOM, joins};
use crate::units::message;
use spx_link::Received;
use spx_messages::Arrived;
use std::alloc::Global;
use std::test::Fail;

/// Requests so many bytes. A test run that refuses all requests from one of 77,777 bytes to one of
/// 77,778 bytes takes these two as its limits.
fn asks_for(alloc: Global, size: usize) -> bool {
    let block: Result<Vec<u8>, _> = Vec::with_capacity(alloc, size);
    block.is_ok()
}

/// A datagram for an open link. Between the two requests no memory is requested: run it with each
/// request between them refused.
#[test]
fn no_memory_datagram(rt: HostRuntime) -> Result<(), Fail> {
    let mut near = Host::near(rt.alloc());
    let mut far = Host::far(rt.alloc());
    joins(&rt, &mut near, &mut far)?;
    near.send(&message(rt.alloc(), 0, 534)?)?;
    let _from_here = asks_for(rt.alloc(), 77_777);
    let mut room = [0; ROOM];
    let count = near.poll(&mut room).unwrap_or(0);
    let bytes = &room[..count];
    assert_eq!(rt; far.receive(bytes)?, Arrived::Link(1, Received::Kept));
    assert_eq!(rt; far.receive(bytes)?, Arrived::Link(1, Received::Repeat));
    assert!(rt; far.speaks());
    let _till_here = asks_for(rt.alloc(), 77_778);
    Ok(())
}
