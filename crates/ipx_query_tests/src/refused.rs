//! Memory is refused, and the same call works after that. Run it with each request refused.

use crate::fixture::{FIRST, OWN};
use ipx_carrier::Core;
use ipx_query::{QueryCore, TableQuery};
use std::alloc::Global;
use std::test::Fail;

/// An answer of the first router with one route.
const ANSWER: [u8; 40] = [
    0xff, 0xff, 0, 0x28, 0, 1, 0, 0, 0, 0x11, 0, 0, 0x7f, 0, 0, 9, 0x40, 3, 0, 0, 0, 0x11, 0, 0,
    0x7f, 0, 0, 1, 4, 0x53, 0, 2, 0, 0, 0, 0x22, 0, 2, 0, 8,
];

fn querier_at_last(alloc: Global) -> Result<QueryCore, Fail> {
    match QueryCore::new(alloc, OWN, TableQuery::Networks, &[FIRST]) {
        Ok(core) => Ok(core),
        Err(_) => Ok(QueryCore::new(alloc, OWN, TableQuery::Networks, &[FIRST])?),
    }
}

/// If memory runs out for an answer, it is no answer yet, and is one when it comes again.
#[test]
fn refused_answer(rt: HostRuntime) -> Result<(), Fail> {
    let alloc = rt.alloc();
    let mut core = querier_at_last(alloc)?;
    let mut room = [0; 1536];
    assert!(rt; core.next(alloc, 0, &mut room)?.is_some());
    if core.hear(alloc, 0, &ANSWER, 1).is_err() {
        assert!(rt; !core.routers()[0].answered);
        core.hear(alloc, 0, &ANSWER, 1)?;
    }
    assert!(rt; core.routers()[0].answered);
    let count = match core.networks(alloc, 1) {
        Ok(listed) => listed.len(),
        Err(_) => core.networks(alloc, 1)?.len(),
    };
    assert_eq!(rt; count, 1);
    Ok(())
}
