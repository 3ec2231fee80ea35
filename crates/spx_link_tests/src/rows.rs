//! Worked examples of acknowledge numbers and allocations.

use crate::end::{End, joined, one_unit, system};
use spx_link::{Numbers, Received, Sent};
use std::alloc::Global;
use std::process::Abort;
use std::test::Fail;

/// An end with next 10, 3 outstanding and room 2.
fn with_three_out(rt: &impl Abort, alloc: Global) -> Result<End, Fail> {
    let mut end = joined(rt, alloc, 0x000b)?;
    assert_eq!(rt; end.numbers().map(|numbers| numbers.room), Some(12));
    for byte in 0..10 {
        end.offer(one_unit(alloc, byte)?)?;
        assert_eq!(rt; end.sent(0), Some(Sent::Unit));
    }
    end.receive(&system(7, 0x000b), &[], 0)?;
    assert_eq!(rt; end.numbers(), Some(THREE_OUT));
    Ok(end)
}

const THREE_OUT: Numbers = Numbers {
    next: 10,
    out: 3,
    room: 2,
    expected: 0,
    held: 0,
    buffers: 8,
};

#[test]
fn link_rows(rt: HostRuntime) -> Result<(), Fail> {
    for (ack, limit, out, room) in [
        (8, 0x000b, 2, 2),
        (6, 0x000b, 3, 2),
        (7, 0x000d, 3, 4),
        (7, 0x000a, 3, 2),
        (7, 0x0004, 3, 2),
    ] {
        let mut end = with_three_out(&rt, rt.alloc())?;
        assert_eq!(rt; end.receive(&system(ack, limit), &[], 0)?, Received::System);
        let numbers = end.numbers().map(|numbers| (numbers.out, numbers.room));
        assert_eq!(rt; numbers, Some((out, room)), "at {ack} {limit}");
    }
    Ok(())
}
