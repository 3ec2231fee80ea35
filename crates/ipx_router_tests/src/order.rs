//! A table that becomes full during a response: each entry needs space only when its turn comes.

use crate::fixture::{answer, hears, lengths, three_ports};
use crate::full::fifty_networks;
use ipx_router::{Outcome, Reason, Router};
use ipx_wire::Network;
use std::alloc::Global;
use std::process::Abort;
use std::test::Fail;

/// A router that learned networks 1000 to 2023 on port 2: as many as it may hold.
pub fn full_of_routes(alloc: Global) -> Result<Router, Fail> {
    let mut router = three_ports(alloc)?;
    for i in 0..21u32 {
        let _ = answer(
            alloc,
            &mut router,
            2,
            &fifty_networks(alloc, 1000 + 50 * i)?,
            0,
        )?;
    }
    Ok(router)
}

/// From the same node: network 270f, which is new, and then network 3e8 (1000) with 16 hops.
const NEW_NETWORK_FIRST: &str = "ffff0030000100000022ffffffffffff04530000002200007f00000904530002\
    0000270f00010001000003e800100001";

/// The same two in the other order.
const DEAD_NETWORK_FIRST: &str = "ffff0030000100000022ffffffffffff04530000002200007f00000904530002\
    000003e8001000010000270f00010001";

/// Packets to networks 3e8 and 270f.
const TO_OLD: &str = "ffff001e0000000003e800007f00000540000000001100007f0000034001";

const TO_NEW: &str = "ffff001e00000000270f00007f00000540000000001100007f0000034001";

#[test]
fn new_network_first(rt: HostRuntime) -> Result<(), Fail> {
    let alloc = rt.alloc();
    let mut router = full_of_routes(alloc)?;
    let full = answer(alloc, &mut router, 2, NEW_NETWORK_FIRST, 0)?;
    assert!(rt; matches!(full, Outcome::Dropped(Reason::TableFull)));
    nothing_changed(&rt, alloc, &mut router)
}

fn nothing_changed(rt: &impl Abort, alloc: Global, router: &mut Router) -> Result<(), Fail> {
    let old = answer(alloc, router, 1, TO_OLD, 0)?;
    assert!(rt; matches!(old, Outcome::Forward(_)));
    let new = answer(alloc, router, 1, TO_NEW, 0)?;
    assert!(rt; matches!(new, Outcome::Dropped(Reason::NoRoute(Network(0x270f)))));
    Ok(())
}

#[test]
fn dead_network_first(rt: HostRuntime) -> Result<(), Fail> {
    let alloc = rt.alloc();
    let mut router = full_of_routes(alloc)?;
    assert!(rt; hears(alloc, &mut router, DEAD_NETWORK_FIRST, 2)?);
    one_made_room(&rt, alloc, &mut router)
}

fn one_made_room(rt: &impl Abort, alloc: Global, router: &mut Router) -> Result<(), Fail> {
    let old = answer(alloc, router, 1, TO_OLD, 0)?;
    assert!(rt; matches!(old, Outcome::Dropped(Reason::NoRoute(Network(0x3e8)))));
    let new = answer(alloc, router, 1, TO_NEW, 0)?;
    assert!(rt; matches!(new, Outcome::Forward(_)));
    Ok(())
}

/// The forty bytes of a name after its first eight, all zero.
const REST_OF_NAME: &str =
    "00000000000000000000000000000000000000000000000000000000000000000000000000000000";

/// The address of each service, and 1 hop.
const AT_ONE_HOP: &str = "0000004400000000000104510001";

/// A SAP response on port 2 with seven services of type 4, which are named by numbers from `first`
/// on.
fn seven_services(alloc: Global, first: u64) -> Result<String, Fail> {
    let mut text = String::from_str(
        alloc,
        "ffff01e0000400000022ffffffffffff04520000002200007f00000904520002",
    )?;
    for i in 0..7u64 {
        let name = hex::encode(alloc, first.wrapping_add(i).to_be_bytes())?;
        text.push_str(&format!(in alloc; "0004{name}{REST_OF_NAME}{AT_ONE_HOP}")?)?;
    }
    Ok(text)
}

/// From the same node: one service, of type 5, with 1 hop.
const TYPE_5: &str = "ffff0060000400000022ffffffffffff04520000002200007f00000904520002\
    0005000000000000000000000000000000000000000000000000000000000000000000000000000000000000000000000000\
    0000004400000000000104510001";

/// A router that learned 4,096 services on port 2, one of type 5: as many as it may hold.
pub fn full_of_services(alloc: Global) -> Result<Router, Fail> {
    let mut router = three_ports(alloc)?;
    let _ = answer(alloc, &mut router, 2, TYPE_5, 0)?;
    for i in 0..585u64 {
        let _ = answer(alloc, &mut router, 2, &seven_services(alloc, 7 * i)?, 0)?;
    }
    Ok(router)
}

/// From the same node: a service of type 6, which is new, and then that of type 5 with 16 hops.
const NEW_SERVICE_FIRST: &str = "ffff00a0000400000022ffffffffffff04520000002200007f00000904520002\
    0006000000000000000000000000000000000000000000000000000000000000000000000000000000000000000000000000\
    0000004400000000000104510001\
    0005000000000000000000000000000000000000000000000000000000000000000000000000000000000000000000000000\
    0000004400000000000104510010";

/// The same two in the other order.
const DEAD_SERVICE_FIRST: &str = "ffff00a0000400000022ffffffffffff04520000002200007f00000904520002\
    0005000000000000000000000000000000000000000000000000000000000000000000000000000000000000000000000000\
    0000004400000000000104510010\
    0006000000000000000000000000000000000000000000000000000000000000000000000000000000000000000000000000\
    0000004400000000000104510001";

/// Queries on port 1 for all services of types 5 and 6.
const ASKS_TYPE_5: &str = "ffff0022000400000011ffffffffffff04520000001100007f00000340010001\
    0005";

const ASKS_TYPE_6: &str = "ffff0022000400000011ffffffffffff04520000001100007f00000340010001\
    0006";

#[test]
fn new_service_first(rt: HostRuntime) -> Result<(), Fail> {
    let alloc = rt.alloc();
    let mut router = full_of_services(alloc)?;
    let full = answer(alloc, &mut router, 2, NEW_SERVICE_FIRST, 0)?;
    assert!(rt; matches!(full, Outcome::Dropped(Reason::TableFull)));
    assert_eq!(rt;
        lengths(alloc, &mut router, 1, ASKS_TYPE_5)?.as_slice(),
        [96].as_slice()
    );
    assert!(rt; lengths(alloc, &mut router, 1, ASKS_TYPE_6)?.is_empty());
    Ok(())
}

#[test]
fn dead_service_first(rt: HostRuntime) -> Result<(), Fail> {
    let alloc = rt.alloc();
    let mut router = full_of_services(alloc)?;
    assert!(rt; hears(alloc, &mut router, DEAD_SERVICE_FIRST, 2)?);
    assert!(rt; lengths(alloc, &mut router, 1, ASKS_TYPE_5)?.is_empty());
    assert_eq!(rt;
        lengths(alloc, &mut router, 1, ASKS_TYPE_6)?.as_slice(),
        [96].as_slice()
    );
    Ok(())
}
