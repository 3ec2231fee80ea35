//! Out of memory below the checks.

use crate::packets::ears;
use ipx_carrier::Core;
use std::alloc::Global;
use std::test::Fail;

/// A query for all services on the router's own network, forwarded once.
const FORGED: &[u8] = b"ffff0022010400000022ffffffffffff04520000002200007f00000204520001ffff";
/// The same query, sent by a neighbour.
const ASKED: &[u8] = b"ffff0022000400000022ffffffffffff04520000002200007f00000204520001ffff";

/// The bytes that hex digits give, even if one allocation is refused.
fn bytes_at_last(alloc: Global, digits: &[u8]) -> Result<Vec<u8>, Fail> {
    match hex::decode(alloc, digits) {
        Ok(bytes) => Ok(bytes),
        Err(_) => Ok(hex::decode(alloc, digits)?),
    }
}

/// Whichever allocation is refused, nothing is counted twice. What fails a check needs no memory.
#[test]
fn refused_memory_below_the_checks(rt: HostRuntime) -> Result<(), Fail> {
    let alloc = rt.alloc();
    let mut checked = match ears(alloc, 1) {
        Ok(checked) => checked,
        Err(_) => ears(alloc, 1)?,
    };
    let forged = bytes_at_last(alloc, FORGED)?;
    let asked = bytes_at_last(alloc, ASKED)?;
    assert!(rt; checked.hear(alloc, 0, &forged, 0).is_ok());
    assert!(rt; checked.hear(alloc, 0, &asked, 0).is_err());
    assert_eq!(rt; checked.drops().forwarded_control.count, 1);
    assert!(rt; checked.hear(alloc, 0, &asked, 0).is_ok());
    assert_eq!(rt; checked.core().heard, 1);
    assert_eq!(rt; checked.drops().forwarded_control.count, 1);
    Ok(())
}
