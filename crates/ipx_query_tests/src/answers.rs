//! What answers advertise, and what is listed of it.

use crate::fixture::{FIRST, SECOND, asked, hear};
use ipx_query::{QueryCore, TableQuery};
use ipx_tables::{RouteMetric, ServiceKey, ServiceMetric, Source};
use ipx_wire::{Address, Network, Node, Socket};
use std::alloc::Global;
use std::test::Fail;

/// From the first router: network 22 by 2 hops and 8 ticks, network 1 by 1 hop and 2 ticks.
const FIRST_TELLS: &str = "ffff003000010000001100007f00000940030000001100007f0000010453\
    000200000022000200080000000100010002";

/// From the second router: network 22 by 3 hops and 7 ticks, network 33 by 16 hops; and networks 0,
/// 11 and ffffffff, which are not learned.
const SECOND_TELLS: &str = "ffff004800010000001100007f00000940030000001100007f0000020453\
    00020000002200030007000000330010000200000000000100010000001100010001ffffffff00010001";

/// From the second router, later: network 22 is unreachable.
const SECOND_LOSES: &str = "ffff002800010000001100007f00000940030000001100007f0000020453\
    00020000002200100007";

/// A service of type 0004 at socket 0451 of network 0a01: HQ-FILES by 1 hop, from the first router.
const FIRST_SERVICE: &str = "ffff006000040000001100007f00000940030000001100007f0000010452\
    0002000448512d46494c455300000000000000000000000000000000000000000000\
    00000000000000000000000000000000000000000a0100000000000104510001";

/// The same by 2 hops, from the second router.
const SECOND_SERVICE: &str = "ffff006000040000001100007f00000940030000001100007f0000020452\
    0002000448512d46494c455300000000000000000000000000000000000000000000\
    00000000000000000000000000000000000000000a0100000000000104510002";

fn route(network: u32, neighbour: Node, ticks: u16, hops: u16) -> (Network, Source, RouteMetric) {
    let source = Source { port: 1, neighbour };
    (Network(network), source, RouteMetric { ticks, hops })
}

fn lists(
    alloc: Global,
    core: &QueryCore,
    now: u64,
    wanted: &[(Network, Source, RouteMetric)],
) -> Result<bool, Fail> {
    Ok(core.networks(alloc, now)?.as_slice() == wanted)
}

/// If two routers advertise one network, the one with fewer ticks counts. 16 hops mean unreachable,
/// and what is advertised later counts.
#[test]
fn networks_of_two_routers(rt: HostRuntime) -> Result<(), Fail> {
    let alloc = rt.alloc();
    let mut core = asked(alloc, TableQuery::Networks)?;
    assert!(rt; lists(alloc, &core, 0, &[])?);
    hear(alloc, &mut core, FIRST_TELLS, 3)?;
    let first = [route(1, FIRST, 2, 1), route(0x22, FIRST, 8, 2)];
    assert!(rt; lists(alloc, &core, 3, &first)?);
    hear(alloc, &mut core, SECOND_TELLS, 4)?;
    let both = [route(1, FIRST, 2, 1), route(0x22, SECOND, 7, 3)];
    assert!(rt; lists(alloc, &core, 4, &both)?);
    hear(alloc, &mut core, SECOND_LOSES, 5)?;
    assert!(rt; lists(alloc, &core, 5, &first)?);
    assert!(rt; lists(alloc, &core, 180_003, &[])?);
    assert_eq!(rt; core.status(), 0);
    assert!(rt; !core.is_truncated());
    Ok(())
}

/// A service that two routers advertise is listed once, from the nearer one.
#[test]
fn services_of_two_routers(rt: HostRuntime) -> Result<(), Fail> {
    let alloc = rt.alloc();
    let mut core = asked(alloc, TableQuery::Services(4))?;
    hear(alloc, &mut core, SECOND_SERVICE, 1)?;
    hear(alloc, &mut core, FIRST_SERVICE, 2)?;
    let mut name = [0; 48];
    name[..8].copy_from_slice(b"HQ-FILES");
    let at = Address {
        network: Network(0x0a01),
        node: Node([0, 0, 0, 0, 0, 1]),
        socket: Socket::NCP,
    };
    let source = Source {
        port: 1,
        neighbour: FIRST,
    };
    let listed = core.services(alloc, 2)?;
    let wanted = (
        ServiceKey { kind: 4, name },
        source,
        ServiceMetric { hops: 1, at },
    );
    assert_eq!(rt; listed.as_slice(), [wanted].as_slice());
    assert!(rt; core.networks(alloc, 2)?.is_empty());
    assert_eq!(rt; core.status(), 0);
    Ok(())
}
