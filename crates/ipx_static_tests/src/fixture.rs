//! Static neighbours of ports 1 and 2, and cores that receive their advertisements.

use crate::ears::Ears;
use ipx_carrier::Core;
use ipx_control::{RipEntry, ServiceEntry};
use ipx_static::{StaticNeighbour, WithStatics};
use ipx_wire::{Address, Network, Node, OutOfMemory, Socket};
use std::alloc::Global;

/// The node of 198.51.100.7.
pub const NEXT: Node = Node([0, 0, 0xc6, 0x33, 0x64, 7]);

/// A route to a network through one router, of six ticks.
pub fn route(network: u32) -> RipEntry {
    RipEntry {
        network: Network(network),
        hops: 1,
        ticks: 6,
    }
}

/// The service BACKUP of type 0640, on network 11.
pub fn backup() -> ServiceEntry {
    let mut name = [0; 48];
    name[..6].copy_from_slice(b"BACKUP");
    ServiceEntry {
        kind: 0x640,
        name,
        at: Address {
            network: Network(0x11),
            node: Node([0, 0, 0x0a, 1, 0, 0x14]),
            socket: Socket(0x4002),
        },
        hops: 1,
    }
}

/// A neighbour of a port, with this many routes, to the network AA and the next ones, and this many
/// times the service.
pub fn silent(
    alloc: Global,
    port: u8,
    routes: u32,
    services: u32,
) -> Result<StaticNeighbour, OutOfMemory> {
    let mut neighbour = StaticNeighbour {
        port,
        node: NEXT,
        routes: Vec::new(alloc),
        services: Vec::new(alloc),
    };
    for place in 0..routes {
        neighbour.routes.push(route(0xaa + place))?;
    }
    for _ in 0..services {
        neighbour.services.push(backup())?;
    }
    Ok(neighbour)
}

/// A recording core with one static neighbour, at port 1, with this many routes and services.
pub fn ears(
    alloc: Global,
    routes: u32,
    services: u32,
    hear_out_of_memory: Option<usize>,
) -> Result<WithStatics<Ears>, OutOfMemory> {
    let neighbour = silent(alloc, 1, routes, services)?;
    WithStatics::new(alloc, Ears::new(alloc, hear_out_of_memory), &[neighbour])
}

/// Asks a core for a packet at a given time.
pub fn ask<C: Core>(
    alloc: Global,
    core: &mut C,
    now: u64,
) -> Result<Option<(usize, Node, usize)>, OutOfMemory> {
    let mut room = [0; 1536];
    core.next(alloc, now, &mut room)
}
