//! Out of memory. Run it with each request refused.

use crate::fixture::farewell;
use std::test::Fail;

/// Whichever request is refused, the packets are the same when they are asked for again.
#[test]
fn refused_memory_for_a_farewell(rt: HostRuntime) -> Result<(), Fail> {
    let alloc = rt.alloc();
    let packets = match farewell(alloc, 2) {
        Ok(packets) => packets,
        Err(_) => farewell(alloc, 2)?,
    };
    assert_eq!(rt; packets.len(), 2);
    Ok(())
}
