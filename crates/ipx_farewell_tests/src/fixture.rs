//! A router with ports on networks 11, 22 and 33. It knows network AA and a service by port 1, and
//! network BB by port 2.

use ipx_farewell::{Speaker, farewell_of};
use ipx_router::{Port, Reply};
use ipx_tables::{RouteMetric, ServiceKey, ServiceMetric, Source};
use ipx_wire::{Address, Network, Node, OutOfMemory, Socket};
use std::alloc::Global;

pub const PORTS: [Port; 3] = [
    Port {
        network: Network(0x11),
        node: Node([0, 0, 0x7f, 0, 0, 1]),
        cost: 1,
    },
    Port {
        network: Network(0x22),
        node: Node([0, 0, 0x7f, 0, 0, 2]),
        cost: 2,
    },
    Port {
        network: Network(0x33),
        node: Node([0, 0, 0x7f, 0, 0, 3]),
        cost: 1,
    },
];

/// The best offer of a network, by a port.
pub fn route(network: u32, port: u8, ticks: u16, hops: u16) -> (Network, Source, RouteMetric) {
    let neighbour = Node([2, 0, 0, 0, 0, 0xa]);
    (
        Network(network),
        Source { port, neighbour },
        RouteMetric { ticks, hops },
    )
}

/// The best offer of a service of type 4 with this letter as its name, by a port.
pub fn service(letter: u8, port: u8, hops: u16) -> (ServiceKey, Source, ServiceMetric) {
    let neighbour = Node([2, 0, 0, 0, 0, 0xa]);
    let mut name = [0; 48];
    name[0] = letter;
    let at = Address {
        network: Network(0xaa),
        node: Node([0, 0, 0, 0, 0, 1]),
        socket: Socket::NCP,
    };
    (
        ServiceKey { kind: 4, name },
        Source { port, neighbour },
        ServiceMetric { hops, at },
    )
}

/// What it takes back at a port.
pub fn farewell(alloc: Global, number: u8) -> Result<Vec<Reply>, OutOfMemory> {
    let at = Speaker {
        number,
        port: PORTS[number as usize - 1],
    };
    let routes = [route(0xaa, 1, 5, 2), route(0xbb, 2, 6, 3)];
    let services = [service(b'A', 1, 2), service(b'B', 2, 15)];
    farewell_of(alloc, &PORTS, &routes, &services, at)
}
