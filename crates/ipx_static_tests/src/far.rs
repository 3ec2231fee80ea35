//! A second router, next to the one with static neighbours: what it learns, and when it forgets
//! that.

use crate::routers::{has_service, port, router, way};
use ipx_carrier::Core;
use ipx_metrics::MeteredRouter;
use ipx_router::Router;
use ipx_static::WithStatics;
use ipx_tables::Source;
use ipx_wire::{Node, OutOfMemory};
use std::alloc::Global;
use std::test::Fail;

/// A router on networks 22 and 33 without static neighbours.
fn far_router(alloc: Global) -> Result<WithStatics<MeteredRouter>, OutOfMemory> {
    let Ok(router) = Router::new(alloc, vec![in alloc; port(0x22, 3), port(0x33, 4)]?) else {
        return Err(OutOfMemory);
    };
    WithStatics::new(alloc, MeteredRouter::new(alloc, router)?, &[])
}

/// What one gives at a given time on a port, the other receives on one of its own.
fn pass(
    alloc: Global,
    from: (&mut WithStatics<MeteredRouter>, usize),
    to: (&mut WithStatics<MeteredRouter>, usize),
    now: u64,
) -> Result<(), Fail> {
    let mut room = [0; 1536];
    for _ in 0..64_u32 {
        let Some((at, _, count)) = from.0.next(alloc, now, &mut room)? else {
            return Ok(());
        };
        if at == from.1 {
            to.0.hear(alloc, to.1, &room[..count], now)?;
        }
    }
    Ok(())
}

/// Both give what they have for network 22, and answer.
fn turn(
    alloc: Global,
    near: &mut WithStatics<MeteredRouter>,
    far: &mut WithStatics<MeteredRouter>,
    now: u64,
) -> Result<(), Fail> {
    pass(alloc, (&mut *near, 1), (&mut *far, 0), now)?;
    pass(alloc, (&mut *far, 0), (&mut *near, 1), now)?;
    pass(alloc, (near, 1), (far, 0), now)
}

/// Through the near router, one hop more.
fn over_near() -> Option<(Source, u16)> {
    Some((
        Source {
            port: 1,
            neighbour: Node([0, 0, 0x7f, 0, 0, 2]),
        },
        2,
    ))
}

/// The far router knows the static entries at once, and for ten minutes. Three minutes after the
/// near router, started again without them, last advertised them, it has forgotten them; so has the
/// near one.
#[test]
fn told_on_and_forgotten(rt: HostRuntime) -> Result<(), Fail> {
    let alloc = rt.alloc();
    let (mut near, mut far) = (router(alloc, 1)?, far_router(alloc)?);
    for place in 0..61_u64 {
        turn(alloc, &mut near, &mut far, place * 10_000)?;
        assert!(rt; way(&far, place * 10_000) == over_near());
        assert!(rt; has_service(&far, place * 10_000));
    }
    let mut near = router(alloc, 0)?;
    for place in 61..78_u64 {
        turn(alloc, &mut near, &mut far, place * 10_000)?;
        assert!(rt; way(&far, place * 10_000) == over_near());
        assert!(rt; way(&near, place * 10_000) == None);
    }
    assert!(rt; way(&far, 779_999) == over_near() && has_service(&far, 779_999));
    assert!(rt; way(&far, 780_000) == None && !has_service(&far, 780_000));
    Ok(())
}
