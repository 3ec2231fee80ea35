//! Worked cases of tables of offers, and each call that allocates.

use crate::metrics::{route, service};
use ipx_tables::{
    Offers, RouteMetric, RouteTable, ServiceKey, Source, TableFault, route_table, service_table,
};
use ipx_wire::{Network, Node};
use std::alloc::Global;
use std::process::Abort;
use std::test::Fail;

/// A neighbour 00007f0000xx on a port.
fn source(port: u8, last: u8) -> Source {
    Source {
        port,
        neighbour: Node([0, 0, 0x7f, 0, 0, last]),
    }
}

const KEY: Network = Network(0x22);

/// Whether the best offer for network 22 is from this source and has this metric.
fn is_best(table: &RouteTable, now: u64, from: Source, metric: RouteMetric) -> bool {
    table.best(&KEY, now) == Some((from, metric))
}

#[test]
fn offer_rows(rt: HostRuntime) -> Result<(), Fail> {
    the_last_word_for_three_minutes(&rt, rt.alloc())?;
    the_lower_port_and_then_the_lower_neighbour(&rt, rt.alloc())?;
    full_only_for_a_new_key_and_source(&rt, rt.alloc())?;
    each_offer_by_network_and_neighbour(&rt, rt.alloc())?;
    an_offer_of_a_later_moment_is_young(&rt, rt.alloc())
}

fn the_last_word_for_three_minutes(rt: &impl Abort, alloc: Global) -> Result<(), Fail> {
    let mut table = route_table(alloc);
    table.hear(alloc, KEY, source(1, 1), route(3, 5), 0)?;
    table.hear(alloc, KEY, source(1, 2), route(4, 1), 0)?;
    assert!(rt; is_best(&table, 0, source(1, 1), route(3, 5)));
    table.hear(alloc, KEY, source(1, 1), route(3, 16), 0)?;
    ages_after_three_minutes(rt, &mut table);
    Ok(())
}

fn ages_after_three_minutes(rt: &impl Abort, table: &mut RouteTable) {
    assert!(rt; is_best(table, 0, source(1, 2), route(4, 1)));
    assert!(rt; is_best(table, 179_999, source(1, 2), route(4, 1)));
    assert_eq!(rt; table.best(&KEY, 180_000), None);
    table.age(179_999);
    assert!(rt; is_best(table, 179_999, source(1, 2), route(4, 1)));
    table.age(180_000);
    assert_eq!(rt; table.best(&KEY, 0), None);
}

fn the_lower_port_and_then_the_lower_neighbour(rt: &impl Abort, alloc: Global) -> Result<(), Fail> {
    let mut table = route_table(alloc);
    table.hear(alloc, KEY, source(2, 1), route(2, 2), 0)?;
    table.hear(alloc, KEY, source(1, 9), route(2, 2), 0)?;
    assert!(rt; is_best(&table, 0, source(1, 9), route(2, 2)));
    table.hear(alloc, KEY, source(1, 8), route(2, 2), 0)?;
    assert!(rt; is_best(&table, 0, source(1, 8), route(2, 2)));
    Ok(())
}

fn each_offer_by_network_and_neighbour(rt: &impl Abort, alloc: Global) -> Result<(), Fail> {
    let mut table = route_table(alloc);
    assert!(rt; table.offers().next().is_none());
    table.hear(alloc, Network(0x33), source(1, 1), route(2, 2), 70_000)?;
    table.hear(alloc, KEY, source(2, 1), route(3, 5), 40_000)?;
    table.hear(alloc, KEY, source(1, 9), route(4, 1), 200_000)?;
    let walked = table
        .offers()
        .map(|offer| (offer.key.0, offer.source, offer.metric.ticks, offer.heard))
        .collect::<Vec<(u32, Source, u16, u64)>>(alloc)?;
    let expected = [
        (0x22, source(1, 9), 4, 200_000),
        (0x22, source(2, 1), 3, 40_000),
        (0x33, source(1, 1), 2, 70_000),
    ];
    assert_eq!(rt; walked.as_slice(), expected.as_slice());
    Ok(())
}

/// 1,024 networks, each learned from the first neighbour of port 1.
fn full_table(alloc: Global) -> Result<RouteTable, Fail> {
    let mut table = route_table(alloc);
    for network in 1..1025u32 {
        table.hear(alloc, Network(network), source(1, 1), route(2, 2), 0)?;
    }
    Ok(table)
}

fn full_only_for_a_new_key_and_source(rt: &impl Abort, alloc: Global) -> Result<(), Fail> {
    let mut table = full_table(alloc)?;
    let refused = table.hear(alloc, KEY, source(1, 2), route(1, 1), 0);
    assert_eq!(rt; refused, Err(TableFault::Full));
    assert!(rt; is_best(&table, 0, source(1, 1), route(2, 2)));
    let dead = table.hear(alloc, KEY, source(1, 2), route(1, 16), 0);
    assert_eq!(rt; dead, Ok(()));
    assert!(rt; is_best(&table, 0, source(1, 1), route(2, 2)));
    replaces_where_full(rt, alloc, &mut table)
}

fn replaces_where_full(rt: &impl Abort, alloc: Global, table: &mut RouteTable) -> Result<(), Fail> {
    let replaced = table.hear(alloc, KEY, source(1, 1), route(9, 9), 0);
    assert_eq!(rt; replaced, Ok(()));
    assert!(rt; is_best(table, 0, source(1, 1), route(9, 9)));
    assert_eq!(rt; table.list(alloc, 0)?.len(), 1024);
    Ok(())
}

fn an_offer_of_a_later_moment_is_young(rt: &impl Abort, alloc: Global) -> Result<(), Fail> {
    let mut table = route_table(alloc);
    table.hear(alloc, KEY, source(1, 1), route(2, 2), 10)?;
    table.age(5);
    assert!(rt; is_best(&table, 5, source(1, 1), route(2, 2)));
    Ok(())
}

/// Networks 44, 33 and 11, some from two sources, and some 200 seconds later.
fn three_networks(alloc: Global) -> Result<RouteTable, Fail> {
    let mut table = route_table(alloc);
    for (network, port, metric, now) in [
        (0x44, 2, route(3, 1), 0),
        (0x33, 2, route(4, 2), 0),
        (0x44, 1, route(2, 1), 0),
        (0x11, 1, route(2, 1), 200_000),
        (0x33, 1, route(4, 3), 200_000),
    ] {
        table.hear(alloc, Network(network), source(port, 9), metric, now)?;
    }
    Ok(table)
}

#[test]
fn list_has_the_best_of_each_key_by_key(rt: HostRuntime) -> Result<(), Fail> {
    let table = three_networks(rt.alloc())?;
    let young = table.list(rt.alloc(), 100_000)?;
    let all = [
        (Network(0x11), source(1, 9), route(2, 1)),
        (Network(0x33), source(2, 9), route(4, 2)),
        (Network(0x44), source(1, 9), route(2, 1)),
    ];
    assert_eq!(rt; young.as_slice(), all.as_slice());
    let later = table.list(rt.alloc(), 200_000)?;
    let rest = [
        (Network(0x11), source(1, 9), route(2, 1)),
        (Network(0x33), source(1, 9), route(4, 3)),
    ];
    assert_eq!(rt; later.as_slice(), rest.as_slice());
    Ok(())
}

const SERVICE: ServiceKey = ServiceKey {
    kind: 4,
    name: [0x41; 48],
};

#[test]
fn services_go_by_hops(rt: HostRuntime) -> Result<(), Fail> {
    let mut table = service_table(rt.alloc());
    let far = service(3, 0x11, 1, 0x451);
    let near = service(2, 0x44, 1, 0x451);
    table.hear(rt.alloc(), SERVICE, source(1, 1), far, 0)?;
    table.hear(rt.alloc(), SERVICE, source(2, 2), near, 0)?;
    assert_eq!(rt; table.best(&SERVICE, 0), Some((source(2, 2), near)));
    let listed = table.list(rt.alloc(), 0)?;
    assert_eq!(rt;
        listed.as_slice(),
        [(SERVICE, source(2, 2), near)].as_slice()
    );
    Ok(())
}

/// This also passes if a request for memory in it is refused.
#[test]
fn refused_memory_changes_nothing(rt: HostRuntime) -> Result<(), Fail> {
    let mut table: Offers<Network, RouteMetric> = Offers::new(rt.alloc(), 2);
    let heard = table.hear(rt.alloc(), KEY, source(1, 1), route(2, 2), 0);
    if heard.is_err() {
        assert_eq!(rt; heard, Err(TableFault::OutOfMemory));
        assert_eq!(rt; table.best(&KEY, 0), None);
        table.hear(rt.alloc(), KEY, source(1, 1), route(2, 2), 0)?;
    }
    match table.list(rt.alloc(), 0) {
        Ok(listed) => assert_eq!(rt; listed.len(), 1),
        Err(fault) => assert_eq!(rt; fault, TableFault::OutOfMemory),
    }
    assert!(rt; is_best(&table, 0, source(1, 1), route(2, 2)));
    Ok(())
}
