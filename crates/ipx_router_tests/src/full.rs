//! A table of routes that is full.

use crate::fixture::{answer, hears, three_ports};
use ipx_router::{Outcome, Reason, Router};
use ipx_wire::Network;
use std::alloc::{AllocError, Global};
use std::process::Abort;
use std::test::Fail;

/// A RIP response on port 2 with 50 networks, from this one on.
pub fn fifty_networks(alloc: Global, first: u32) -> Result<String, AllocError> {
    let mut text = String::from_str(
        alloc,
        "ffff01b0000100000022ffffffffffff04530000002200007f00000904530002",
    )?;
    for i in 0..50u32 {
        text.push_str(&entry(alloc, first.wrapping_add(i))?)?;
    }
    Ok(text)
}

fn entry(alloc: Global, network: u32) -> Result<String, AllocError> {
    let network = hex::encode(alloc, network.to_be_bytes())?;
    let text = format!(in alloc; "{network}00010001")?;
    Ok(text)
}

#[test]
fn full_table(rt: HostRuntime) -> Result<(), Fail> {
    let alloc = rt.alloc();
    let mut router = three_ports(alloc)?;
    for i in 0..20u32 {
        assert!(rt;
            hears(
                alloc,
                &mut router,
                &fifty_networks(alloc, 1000 + 50 * i)?,
                50
            )?
        );
    }
    twenty_four_find_room(&rt, alloc, &mut router)
}

/// Packets to the last network that fitted in the table, and to the first that did not.
const TO_LAST: &str = "ffff001e0000000007e700007f00000540000000001100007f0000034001";

const TO_PAST: &str = "ffff001e0000000007e800007f00000540000000001100007f0000034001";

/// 24 more fit in the table, and the others do not.
fn twenty_four_find_room(rt: &impl Abort, alloc: Global, router: &mut Router) -> Result<(), Fail> {
    let full = answer(alloc, router, 2, &fifty_networks(alloc, 2000)?, 0)?;
    assert!(rt; matches!(full, Outcome::Dropped(Reason::TableFull)));
    let last = answer(alloc, router, 1, TO_LAST, 0)?;
    assert!(rt; matches!(last, Outcome::Forward(_)));
    let past = answer(alloc, router, 1, TO_PAST, 0)?;
    assert!(rt; matches!(past, Outcome::Dropped(Reason::NoRoute(Network(0x7e8)))));
    Ok(())
}
