//! Which queries are given, when, and their bytes.

use crate::fixture::{FIRST, SECOND, asked, gives, hear, host};
use ipx_carrier::{MemoryDatagrams, SteppedClock, turn};
use ipx_query::{QueriedRouter, QueryCore, TableQuery};
use std::alloc::Global;
use std::test::Fail;

/// RIP requests for network ffffffff, from socket 4003 of the host to socket 0453 of each router.
const FOR_NETWORKS: [&str; 2] = [
    "0 1 ffff002800010000001100007f00000104530000001100007f00000940030001ffffffffffffffff",
    "0 2 ffff002800010000001100007f00000204530000001100007f00000940030001ffffffffffffffff",
];

/// SAP queries for services of type 0004, to socket 0452.
const FOR_FILE_SERVERS: [&str; 2] = [
    "0 1 ffff002200040000001100007f00000104520000001100007f000009400300010004",
    "0 2 ffff002200040000001100007f00000204520000001100007f000009400300010004",
];

/// The same for all types.
const FOR_SERVICES: [&str; 2] = [
    "0 1 ffff002200040000001100007f00000104520000001100007f00000940030001ffff",
    "0 2 ffff002200040000001100007f00000204520000001100007f00000940030001ffff",
];

/// An answer of the first router with one route.
const ONE_ROUTE: &str =
    "ffff002800010000001100007f00000940030000001100007f000001045300020000002200020008";

fn gives_both(
    alloc: Global,
    core: &mut QueryCore,
    now: u64,
    wanted: [&str; 2],
) -> Result<bool, Fail> {
    let first = gives(alloc, core, now, wanted[0])?;
    let second = gives(alloc, core, now, wanted[1])?;
    Ok(first && second && gives(alloc, core, now, "")?)
}

/// Each router is asked at once, and after one and two seconds; after four no router is.
#[test]
fn three_rounds(rt: HostRuntime) -> Result<(), Fail> {
    let alloc = rt.alloc();
    let mut core = host(alloc, TableQuery::Networks)?;
    for (now, sends) in [
        (70_000, true),
        (70_999, false),
        (71_000, true),
        (71_999, false),
        (72_000, true),
        (73_000, false),
        (73_999, false),
        (74_000, false),
    ] {
        let wanted = if sends { FOR_NETWORKS } else { ["", ""] };
        assert!(rt; gives_both(alloc, &mut core, now, wanted)?);
    }
    Ok(())
}

#[test]
fn queries_for_services(rt: HostRuntime) -> Result<(), Fail> {
    let alloc = rt.alloc();
    let mut core = host(alloc, TableQuery::Services(4))?;
    assert!(rt; gives_both(alloc, &mut core, 0, FOR_FILE_SERVERS)?);
    let mut core = host(alloc, TableQuery::Services(0xffff))?;
    assert!(rt; gives_both(alloc, &mut core, 0, FOR_SERVICES)?);
    Ok(())
}

/// A router that answered is not asked again, the other one is.
#[test]
fn one_answers(rt: HostRuntime) -> Result<(), Fail> {
    let alloc = rt.alloc();
    let mut core = asked(alloc, TableQuery::Networks)?;
    hear(alloc, &mut core, ONE_ROUTE, 5)?;
    assert!(rt; gives(alloc, &mut core, 1000, FOR_NETWORKS[1])?);
    assert!(rt; gives(alloc, &mut core, 1000, "")?);
    let first = QueriedRouter {
        node: FIRST,
        rounds: 1,
        answered: true,
        ended: true,
    };
    let second = QueriedRouter {
        node: SECOND,
        rounds: 2,
        answered: false,
        ended: false,
    };
    assert_eq!(rt; core.routers(), [first, second].as_slice());
    Ok(())
}

/// Rounds that were missed are not made up for, and if the clock goes back no router is asked.
#[test]
fn late_and_early(rt: HostRuntime) -> Result<(), Fail> {
    let alloc = rt.alloc();
    let mut core = asked(alloc, TableQuery::Networks)?;
    assert!(rt; gives_both(alloc, &mut core, 2500, FOR_NETWORKS)?);
    assert!(rt; gives(alloc, &mut core, 0, "")?);
    let mut core = asked(alloc, TableQuery::Networks)?;
    assert!(rt; gives(alloc, &mut core, 4000, "")?);
    Ok(())
}

/// Over a device, each query is sent to the IP address of its router.
#[test]
fn over_a_device(rt: HostRuntime) -> Result<(), Fail> {
    let alloc = rt.alloc();
    let mut core = host(alloc, TableQuery::Networks)?;
    let mut device = MemoryDatagrams::new(alloc, 1)?;
    let peers = vec![in alloc; Vec::new(alloc)]?;
    let mut clock = SteppedClock::new(0, 10);
    let report = turn(alloc, &mut core, &mut device, &peers, &mut clock)?;
    assert_eq!(rt; report.sent, 2);
    let sent = device.sent();
    assert_eq!(rt; sent[0].to, [127, 0, 0, 1]);
    assert_eq!(rt; sent[1].to, [127, 0, 0, 2]);
    let text = hex::encode(alloc, &sent[1].bytes)?;
    assert_eq!(rt; text.as_str(), &FOR_NETWORKS[1][4..]);
    Ok(())
}
