//! A link that receives while every allocation is refused.

use crate::end::{End, joined, unit};
use spx_link::Received;
use std::alloc::Global;
use std::process::Abort;
use std::test::Fail;

/// Requests so many bytes. The sizes 77,777 and 77,778 mark the start and the end of the
/// allocations that may be refused.
fn asks_for(alloc: Global, size: usize) -> bool {
    let block: Result<Vec<u8>, _> = Vec::with_capacity(alloc, size);
    block.is_ok()
}

/// Eight full buffers, and one more unit after one was taken. Nothing is allocated between the two
/// requests. Run it with each request between them refused.
#[test]
fn no_memory_receive(rt: HostRuntime) -> Result<(), Fail> {
    let mut end = joined(&rt, rt.alloc(), 7)?;
    let _from_here = asks_for(rt.alloc(), 77_777);
    fills(&rt, &mut end)?;
    assert_eq!(rt;
        end.receive(&unit(0, 8), b"a", 0)?,
        Received::OverAllocation
    );
    assert_eq!(rt; end.take(), Some(1));
    assert_eq!(rt; end.receive(&unit(0, 8), b"a", 0)?, Received::Kept);
    let _till_here = asks_for(rt.alloc(), 77_778);
    Ok(())
}

fn fills(rt: &impl Abort, end: &mut End) -> Result<(), Fail> {
    for seq in 0..8u16 {
        assert_eq!(rt; end.receive(&unit(0, seq), b"a", 0)?, Received::Kept);
    }
    Ok(())
}
