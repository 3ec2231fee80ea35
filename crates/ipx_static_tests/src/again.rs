//! Routers below `WithStatics` that ask their neighbours once more.

use crate::fixture::silent;
use crate::routers::port;
use ipx_carrier::Core;
use ipx_metrics::MeteredRouter;
use ipx_router::Router;
use ipx_static::{RestartDiscovery, WithStatics};
use ipx_wire::OutOfMemory;
use std::alloc::Global;
use std::test::Fail;

/// How many packets a core gives at time 0.
fn given<C: Core>(alloc: Global, core: &mut C) -> Result<u32, OutOfMemory> {
    let mut room = [0; 1536];
    let mut count = 0;
    for _ in 0..64_u32 {
        if core.next(alloc, 0, &mut room)?.is_none() {
            return Ok(count);
        }
        count += 1;
    }
    Ok(count)
}

/// How many packets a core gives as it starts, and how many after it was told to ask again.
fn given_at_first_and_again<C: RestartDiscovery>(
    alloc: Global,
    core: &mut C,
) -> Result<(u32, u32, u32), OutOfMemory> {
    let first = given(alloc, core)?;
    let none = given(alloc, core)?;
    core.restart_discovery();
    let again = given(alloc, core)?;
    Ok((first, none, again))
}

fn router(alloc: Global) -> Result<Router, Fail> {
    Ok(Router::new(alloc, vec![in alloc; port(0x11, 1), port(0x22, 2)]?)?)
}

/// A router asks for routes and services on each of two ports, and advertises a network on each.
/// Told to ask again, it sends the four requests once more. So does a router that counts, and one
/// below `WithStatics` without neighbours.
#[test]
fn restarts_discovery_below_statics(rt: HostRuntime) -> Result<(), Fail> {
    let alloc = rt.alloc();
    let silent = [silent(alloc, 1, 0, 0)?];
    let mut counted = MeteredRouter::new(alloc, router(alloc)?)?;
    assert_eq!(rt; given_at_first_and_again(alloc, &mut counted)?, (6, 0, 4));
    let counted = MeteredRouter::new(alloc, router(alloc)?)?;
    let mut statics = WithStatics::new(alloc, counted, &silent)?;
    assert_eq!(rt; given_at_first_and_again(alloc, &mut statics)?, (6, 0, 4));
    Ok(())
}
