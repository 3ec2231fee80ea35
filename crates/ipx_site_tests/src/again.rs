//! Routers below `RateLimiter` that repeat their requests to their neighbours.

use ipx_carrier::Core;
use ipx_metrics::MeteredRouter;
use ipx_rate_limits::{PortBuckets, RateLimiter};
use ipx_router::{Port, Router};
use ipx_static::{RestartDiscovery, WithStatics};
use ipx_wire::{Network, Node, OutOfMemory};
use std::alloc::{AllocError, Global};
use std::test::Fail;
use token_bucket::{RateLimit, TokenBucket};

fn ports(alloc: Global) -> Result<Vec<Port>, AllocError> {
    let mut ports = Vec::new(alloc);
    for number in 1..3_u8 {
        ports.push(Port {
            network: Network(u32::from(number) * 0x11),
            node: Node([0, 0, 127, 0, 0, number]),
            cost: 1,
        })?;
    }
    Ok(ports)
}

/// The limits at these ports.
fn limits(alloc: Global) -> Result<Vec<PortBuckets>, AllocError> {
    let bucket = TokenBucket::full(RateLimit {
        burst: 16,
        per_second: 8,
    });
    let limits = PortBuckets {
        queries: bucket,
        narrow: bucket,
        directed: Some(bucket),
        groups: false,
    };
    Ok(vec![in alloc; limits, limits]?)
}

fn router(alloc: Global) -> Result<Router, Fail> {
    Ok(Router::new(alloc, ports(alloc)?)?)
}

fn counted(alloc: Global) -> Result<MeteredRouter, Fail> {
    Ok(MeteredRouter::new(alloc, router(alloc)?)?)
}

/// How many packets a core gives at time 0.
fn given<C: Core>(alloc: Global, core: &mut C) -> Result<u32, OutOfMemory> {
    let mut room = [0; 1536];
    let mut count = 0;
    for _ in 0..64_u32 {
        if core.next(alloc, 0, &mut room)?.is_none() {
            return Ok(count);
        }
        count += 1;
    }
    Ok(count)
}

/// Whether a router with two ports gives its first six packets, and then none. After a restart of
/// its discovery it gives four of them again.
fn asks_again<C: RestartDiscovery + Drop>(alloc: Global, core: C) -> Result<bool, Fail> {
    let mut rate_limiter = RateLimiter::new(alloc, core, ports(alloc)?, limits(alloc)?)?;
    let first = given(alloc, &mut rate_limiter)?;
    let none = given(alloc, &mut rate_limiter)?;
    rate_limiter.restart_discovery();
    Ok((first, none, given(alloc, &mut rate_limiter)?) == (6, 0, 4))
}

#[test]
fn asks_again_below_turns(rt: HostRuntime) -> Result<(), Fail> {
    let alloc = rt.alloc();
    assert!(rt; asks_again(alloc, counted(alloc)?)?);
    let statics = WithStatics::new(alloc, counted(alloc)?, &[])?;
    assert!(rt; asks_again(alloc, statics)?);
    Ok(())
}
