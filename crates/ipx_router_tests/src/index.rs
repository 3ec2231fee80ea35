//! Worked cases of the two orders in which a table keeps its offers, by key and by the time
//! learned, and of what needs no memory.

use crate::metrics::route;
use ipx_tables::{RouteTable, Source, TableFault, route_table};
use ipx_wire::{Network, Node};
use std::alloc::Global;
use std::process::Abort;
use std::test::Fail;

const A: Network = Network(0x11);

const B: Network = Network(0x22);

/// The neighbour 00007f000001 of port 1.
const SOURCE: Source = Source {
    port: 1,
    neighbour: Node([0, 0, 0x7f, 0, 0, 1]),
};

fn hear(
    alloc: Global,
    table: &mut RouteTable,
    network: Network,
    now: u64,
) -> Result<(), TableFault> {
    table.hear(alloc, network, SOURCE, route(2, 2), now)
}

fn counts(table: &RouteTable, network: Network, now: u64) -> bool {
    table.best(&network, now) == Some((SOURCE, route(2, 2)))
}

#[test]
fn index_rows(rt: HostRuntime) -> Result<(), Fail> {
    an_offer_of_the_last_moment_stays(&rt, rt.alloc())?;
    what_is_heard_again_grows_old_later(&rt, rt.alloc())?;
    many_grow_old_together(&rt, rt.alloc())?;
    few_grow_old_and_then_more(&rt, rt.alloc())?;
    few_offers_are_read(&rt, rt.alloc())
}

fn an_offer_of_the_last_moment_stays(rt: &impl Abort, alloc: Global) -> Result<(), Fail> {
    let mut table = route_table(alloc);
    hear(alloc, &mut table, A, 18_446_744_073_709_551_615)?;
    assert!(rt; counts(&table, A, 18_446_744_073_709_551_615));
    assert!(rt; counts(&table, A, 0));
    table.age(18_446_744_073_709_551_615);
    assert!(rt; counts(&table, A, 0));
    table.age(0);
    assert!(rt; counts(&table, A, 0));
    Ok(())
}

fn what_is_heard_again_grows_old_later(rt: &impl Abort, alloc: Global) -> Result<(), Fail> {
    let mut table = route_table(alloc);
    hear(alloc, &mut table, A, 0)?;
    hear(alloc, &mut table, B, 1)?;
    hear(alloc, &mut table, A, 2)?;
    table.age(180_001);
    assert!(rt; counts(&table, A, 180_001));
    assert!(rt; !counts(&table, B, 1));
    Ok(())
}

/// 1,024 networks are learned at 0. The even ones are learned again, the last first, each at the
/// time of its number. At 180,000 all odd ones expire together, and at 180,101 the even ones up to
/// 100.
fn many_grow_old_together(rt: &impl Abort, alloc: Global) -> Result<(), Fail> {
    let mut table = networks_to(alloc, 1024)?;
    for half in 0..512u32 {
        let network = 1024 - 2 * half;
        hear(alloc, &mut table, Network(network), u64::from(network))?;
    }
    table.age(180_000);
    assert!(rt; (1..=1024u32).all(|n| counts(&table, Network(n), 1) == (n % 2 == 0)));
    table.age(180_101);
    let young = |n: u32| n % 2 == 0 && n > 101;
    assert!(rt; (1..=1024u32).all(|n| counts(&table, Network(n), 1) == young(n)));
    Ok(())
}

/// Of 64 networks, each learned at the time of its number, five expire, and then twenty more.
fn few_grow_old_and_then_more(rt: &impl Abort, alloc: Global) -> Result<(), Fail> {
    let mut table = route_table(alloc);
    for network in 1..=64u32 {
        hear(alloc, &mut table, Network(network), u64::from(network))?;
    }
    table.age(180_005);
    assert!(rt; (1..=64u32).all(|n| counts(&table, Network(n), 64) == (n > 5)));
    table.age(180_025);
    assert!(rt; (1..=64u32).all(|n| counts(&table, Network(n), 64) == (n > 25)));
    Ok(())
}

/// Networks 1 to `last`, each learned once. If memory is refused, it is tried again.
fn networks_to(alloc: Global, last: u32) -> Result<RouteTable, TableFault> {
    let mut table = route_table(alloc);
    for network in 1..=last {
        if hear(alloc, &mut table, Network(network), 0).is_err() {
            hear(alloc, &mut table, Network(network), 0)?;
        }
    }
    Ok(table)
}

/// Whether at most so many offers are read for the best one of each network from 1 to `last`.
fn reads_few(table: &RouteTable, last: u32, most: usize) -> bool {
    (1..=last).all(|network| table.best_steps(&Network(network), 0).1 <= most)
}

/// One offer of the key, one more, and one for each binary digit of the table's length: 11 for
/// 1,024, 3 for 5.
fn few_offers_are_read(rt: &impl Abort, alloc: Global) -> Result<(), Fail> {
    assert!(rt; reads_few(&networks_to(alloc, 1024)?, 1024, 13));
    assert!(rt; reads_few(&networks_to(alloc, 5)?, 5, 5));
    Ok(())
}

/// Whether each of the networks from 1 to `last` is learned again.
fn all_heard_again(alloc: Global, table: &mut RouteTable, last: u32) -> bool {
    let mut all = true;
    for network in 1..=last {
        all &= hear(alloc, table, Network(network), 60_000).is_ok();
    }
    all
}

/// A full table learns 1,024 offers again. A run with each request for memory refused shows that it
/// makes none.
#[test]
fn refused_memory_of_a_full_table(rt: HostRuntime) -> Result<(), Fail> {
    let mut table = networks_to(rt.alloc(), 1024)?;
    assert!(rt; all_heard_again(rt.alloc(), &mut table, 1024));
    Ok(())
}

/// Whether the networks from 1,025 to 2,048 are learned, and the table is full for one more.
fn others_fill(alloc: Global, table: &mut RouteTable, now: u64) -> bool {
    let mut all = true;
    for network in 1_025..=2_048u32 {
        all &= hear(alloc, table, Network(network), now).is_ok();
    }
    all && hear(alloc, table, Network(2_049), now) == Err(TableFault::Full)
}

/// A full table whose offers expired learns as many others. A run with each request for memory
/// refused shows that it makes none: the space of a removed offer is used again.
#[test]
fn refused_memory_of_a_table_that_grew_old(rt: HostRuntime) -> Result<(), Fail> {
    let mut table = networks_to(rt.alloc(), 1024)?;
    table.age(180_000);
    assert!(rt; others_fill(rt.alloc(), &mut table, 180_000));
    Ok(())
}

/// A full table whose offers were all withdrawn learns as many others, in the same way.
#[test]
fn refused_memory_of_a_table_that_was_emptied(rt: HostRuntime) -> Result<(), Fail> {
    let mut table = networks_to(rt.alloc(), 1024)?;
    for network in 1..=1024u32 {
        table.hear(rt.alloc(), Network(network), SOURCE, route(2, 16), 0)?;
    }
    assert!(rt; others_fill(rt.alloc(), &mut table, 0));
    Ok(())
}
