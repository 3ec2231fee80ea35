//! Ports, neighbours, and tables with their advertisements.

use ipx_router::Port;
use ipx_tables::{
    RouteMetric, RouteTable, ServiceKey, ServiceMetric, ServiceTable, Source, TableFault,
};
use ipx_wire::{Address, Network, Node, Socket};
use std::alloc::Global;

pub const PORT: Port = Port {
    network: Network(1),
    node: Node([0, 0, 0x7f, 0, 0, 1]),
    cost: 6,
};

pub const FAR: Source = Source {
    port: 1,
    neighbour: Node([0, 0, 0xc6, 0x33, 0x64, 7]),
};

pub const NEAR: Source = Source {
    port: 2,
    neighbour: Node([0, 0, 0x0a, 1, 0, 2]),
};

pub fn route(ticks: u16, hops: u16) -> RouteMetric {
    RouteMetric { ticks, hops }
}

/// A service with this name, of type 4.
pub fn service(name: &[u8]) -> ServiceKey {
    let mut all = [0; 48];
    all[..name.len()].copy_from_slice(name);
    ServiceKey { kind: 4, name: all }
}

pub fn files(hops: u16) -> ServiceMetric {
    ServiceMetric {
        hops,
        at: Address {
            network: Network(0x0a01),
            node: Node([0, 0, 0, 0, 0, 1]),
            socket: Socket::NCP,
        },
    }
}

/// A network advertised by two neighbours, and a service by one of them.
pub fn hear_both(
    alloc: Global,
    routes: &mut RouteTable,
    services: &mut ServiceTable,
) -> Result<(), TableFault> {
    routes.hear(alloc, Network(0x22), NEAR, route(9, 3), 88_000)?;
    routes.hear(alloc, Network(0x22), FAR, route(6, 1), 69_000)?;
    services.hear(alloc, service(b"HQ-FILES"), NEAR, files(1), 93_000)
}
