//! Three servers at three sites, each joined to the others, and what is sent between them.

use crate::fixture::PORT;
use ipx_wire::Node;
use ipxnet_server::{IpxnetServer, ServerPort};
use std::alloc::{AllocError, Global};
use std::net::{Ipv4Addr, SocketAddrV4};

/// The routers' addresses.
pub fn north_place() -> SocketAddrV4 {
    SocketAddrV4::new(Ipv4Addr::new(192, 0, 2, 10), 2130)
}

pub fn south_place() -> SocketAddrV4 {
    SocketAddrV4::new(Ipv4Addr::new(198, 51, 100, 7), 2130)
}

pub fn west_place() -> SocketAddrV4 {
    SocketAddrV4::new(Ipv4Addr::new(203, 0, 113, 5), 2131)
}

/// The port of the south, on the network of the others.
pub const SOUTH_PORT: ServerPort = ServerPort {
    own: Node([0xc6, 0x33, 0x64, 7, 8, 0x52]),
    ..PORT
};

/// The addresses of the north and the west.
pub fn sites(alloc: Global) -> Result<Vec<SocketAddrV4>, AllocError> {
    Vec::from_slice(alloc, &[north_place(), west_place()])
}

/// The server of the north, joined to the south and the west.
pub fn north(alloc: Global) -> Result<IpxnetServer, AllocError> {
    let routers = Vec::from_slice(alloc, &[south_place(), west_place()])?;
    IpxnetServer::joined_to(alloc, PORT, 64, routers)
}

/// The server of the south, joined to the north and the west.
pub fn south(alloc: Global) -> Result<IpxnetServer, AllocError> {
    IpxnetServer::joined_to(alloc, SOUTH_PORT, 64, sites(alloc)?)
}
