//! When it is over, and the status.

use crate::fixture::{FIRST, OWN, asked, given, hear, routes_from};
use ipx_carrier::Core;
use ipx_query::{QueryCore, TableQuery};
use std::alloc::Global;
use std::test::Fail;

/// One route of the second router.
const SECOND_TELLS: &str =
    "ffff002800010000001100007f00000940030000001100007f000002045300020000002200020008";

/// A host that asks only the first router, at time 0.
fn one_asked(alloc: Global) -> Result<QueryCore, Fail> {
    let mut core = QueryCore::new(alloc, OWN, TableQuery::Networks, &[FIRST])?;
    given(alloc, &mut core, 0)?;
    Ok(core)
}

/// If each answer ended, it is over 200 ms after the last packet.
#[test]
fn over_once_each_ended(rt: HostRuntime) -> Result<(), Fail> {
    let alloc = rt.alloc();
    let mut core = asked(alloc, TableQuery::Networks)?;
    let full = routes_from(alloc, 0, 50)?;
    core.hear(alloc, 0, &full, 10)?;
    hear(alloc, &mut core, SECOND_TELLS, 20)?;
    assert!(rt; !core.is_done(500));
    let last = routes_from(alloc, 50, 49)?;
    core.hear(alloc, 0, &last, 600)?;
    assert!(rt; !core.is_done(799));
    assert!(rt; core.is_done(800));
    hear(alloc, &mut core, SECOND_TELLS, 790)?;
    assert!(rt; !core.is_done(989));
    assert!(rt; core.is_done(990));
    assert_eq!(rt; core.status(), 0);
    assert_eq!(rt; core.networks(alloc, 990)?.len(), 100);
    Ok(())
}

/// If a router does not answer, it is over four seconds after the first query. Before that query it
/// has not begun.
#[test]
fn over_at_four_seconds(rt: HostRuntime) -> Result<(), Fail> {
    let alloc = rt.alloc();
    let mut core = QueryCore::new(alloc, OWN, TableQuery::Networks, &[FIRST])?;
    assert!(rt; !core.is_done(9000));
    given(alloc, &mut core, 5000)?;
    assert!(rt; !core.is_done(8999));
    assert!(rt; core.is_done(9000));
    assert_eq!(rt; core.status(), 1);
    Ok(())
}

/// Of 1,050 routes of one router 1,024 fit, and the table is said to be full.
#[test]
fn a_table_is_cut(rt: HostRuntime) -> Result<(), Fail> {
    let alloc = rt.alloc();
    let mut core = one_asked(alloc)?;
    for packet in 0..20 {
        core.hear(alloc, 0, &routes_from(alloc, 50 * packet, 50)?, 1)?;
    }
    assert!(rt; !core.is_truncated());
    core.hear(alloc, 0, &routes_from(alloc, 1000, 49)?, 1)?;
    assert!(rt; core.is_truncated());
    assert_eq!(rt; core.status(), 1);
    assert!(rt; core.is_done(201));
    assert_eq!(rt; core.networks(alloc, 1)?.len(), 1024);
    Ok(())
}
