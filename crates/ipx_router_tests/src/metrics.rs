//! Worked cases of the two metrics: which is better, which is unreachable, and each with one hop
//! more.

use ipx_tables::{Metric, RouteMetric, ServiceMetric};
use ipx_wire::{Address, Network, Node, Socket};
use std::process::Abort;

pub fn route(ticks: u16, hops: u16) -> RouteMetric {
    RouteMetric { ticks, hops }
}

pub fn service(hops: u16, network: u32, node: u8, socket: u16) -> ServiceMetric {
    ServiceMetric {
        hops,
        at: Address {
            network: Network(network),
            node: Node([0, 0, 0, 0, 0, node]),
            socket: Socket(socket),
        },
    }
}

/// Of two different metrics exactly one is before the other.
fn holds_before<M: Metric>(better: &M, worse: &M) -> bool {
    better.before(worse) && !worse.before(better) && !better.before(better)
}

#[test]
fn service_laws(rt: HostRuntime) {
    orders_of_metrics(&rt);
    dead_metrics(&rt);
    one_more_hop(&rt);
}

fn orders_of_metrics(rt: &impl Abort) {
    let rising = [
        service(1, 0x44, 9, 0x451),
        service(2, 0x33, 9, 0x451),
        service(2, 0x44, 1, 0x452),
        service(2, 0x44, 2, 0x451),
        service(2, 0x44, 2, 0x452),
        service(16, 0x11, 1, 0x451),
    ];
    for i in 0..rising.len() {
        for j in i + 1..rising.len() {
            assert!(rt; holds_before(&rising[i], &rising[j]), "{i} and {j}");
        }
    }
    assert!(rt; holds_before(&route(2, 9), &route(3, 1)));
    assert!(rt; holds_before(&route(2, 1), &route(2, 2)));
}

fn dead_metrics(rt: &impl Abort) {
    for (hops, dead) in [(15, false), (16, true), (17, true)] {
        assert_eq!(rt; service(hops, 1, 1, 1).dead(), dead);
        assert_eq!(rt; route(1, hops).dead(), dead);
    }
}

fn one_more_hop(rt: &impl Abort) {
    for (hops, more) in [(0, 1), (14, 15), (15, 16), (16, 16), (0xffff, 16)] {
        assert_eq!(rt; service(hops, 7, 8, 9).one_more(), service(more, 7, 8, 9));
        assert_eq!(rt; route(5, hops).one_more(), route(5, more));
    }
}
