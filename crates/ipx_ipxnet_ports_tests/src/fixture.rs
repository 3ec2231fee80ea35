//! A port, three players at their addresses, and what they send.

use ipx_carrier::PortDriver;
use ipx_ipxnet_ports::{MemoryDatagram, MemoryPlaces, PlaceSockets, Servers};
use ipx_wire::{Network, Node};
use ipxnet_server::{IpxnetServer, Secret, ServerPort};
use std::alloc::{AllocError, Global};
use std::net::{Ipv4Addr, SocketAddrV4};
use std::test::Fail;

/// The secret of the router: the bytes 00 to 1f.
pub const SECRET: Secret = Secret([
    0, 1, 2, 3, 4, 5, 6, 7, 8, 9, 10, 11, 12, 13, 14, 15, 16, 17, 18, 19, 20, 21, 22, 23, 24, 25,
    26, 27, 28, 29, 30, 31,
]);

/// The port, whose network 0000d05b players are told.
pub const PORT: ServerPort = ServerPort {
    network: Network(0xd05b),
    own: Node([2, 0, 0, 0, 0xd0, 0x5b]),
    secret: SECRET,
};

/// Three players, their nodes, and one that does not register.
pub fn first_place() -> SocketAddrV4 {
    SocketAddrV4::new(Ipv4Addr::new(127, 0, 0, 1), 48199)
}

pub fn second_place() -> SocketAddrV4 {
    SocketAddrV4::new(Ipv4Addr::new(127, 0, 0, 1), 48200)
}

pub fn third_place() -> SocketAddrV4 {
    SocketAddrV4::new(Ipv4Addr::new(10, 0, 0, 9), 213)
}

pub fn unknown_place() -> SocketAddrV4 {
    SocketAddrV4::new(Ipv4Addr::new(10, 0, 0, 9), 214)
}

pub const FIRST_NODE: Node = Node([2, 0x7c, 0x63, 0xc8, 0xd4, 0xdf]);

pub const SECOND_NODE: Node = Node([2, 0x3d, 0x99, 0x6d, 0xb9, 0xd7]);

pub const THIRD_NODE: Node = Node([2, 0x64, 0x6a, 0xa8, 0xbe, 0x2d]);

/// What `ipxnet connect` sends.
pub const REGISTRATION: [u8; 30] = [
    0xff, 0xff, 0, 0x1e, 0, 0, 0, 0, 0, 0, 0, 0, 0, 0, 0, 0, 0, 2, 0, 0, 0, 0, 0, 0, 0, 0, 0, 0, 0,
    2,
];

/// The answer to the first player.
pub const ANSWER: [u8; 30] = [
    0xff, 0xff, 0, 0x1e, 0, 0, 0, 0, 0xd0, 0x5b, 2, 0x7c, 0x63, 0xc8, 0xd4, 0xdf, 0, 2, 0, 0, 0xd0,
    0x5b, 2, 0, 0, 0, 0xd0, 0x5b, 0, 2,
];

/// The answers to the second and the third.
pub const SECOND_ANSWER: [u8; 30] = [
    0xff, 0xff, 0, 0x1e, 0, 0, 0, 0, 0xd0, 0x5b, 2, 0x3d, 0x99, 0x6d, 0xb9, 0xd7, 0, 2, 0, 0, 0xd0,
    0x5b, 2, 0, 0, 0, 0xd0, 0x5b, 0, 2,
];

pub const THIRD_ANSWER: [u8; 30] = [
    0xff, 0xff, 0, 0x1e, 0, 0, 0, 0, 0xd0, 0x5b, 2, 0x64, 0x6a, 0xa8, 0xbe, 0x2d, 0, 2, 0, 0, 0xd0,
    0x5b, 2, 0, 0, 0, 0xd0, 0x5b, 0, 2,
];

/// A packet of 34 bytes from the first player to socket 4001 of the second, as its driver sends it.
/// Both networks are the one that it was told.
pub const CAME: [u8; 34] = [
    0xff, 0xff, 0, 0x22, 0, 4, 0, 0, 0xd0, 0x5b, 2, 0x3d, 0x99, 0x6d, 0xb9, 0xd7, 0x40, 1, 0, 0,
    0xd0, 0x5b, 2, 0x7c, 0x63, 0xc8, 0xd4, 0xdf, 0x40, 1, 1, 2, 3, 4,
];

/// The same packet to another node.
pub fn packet(to: Node) -> [u8; 34] {
    let mut bytes = CAME;
    bytes[10..16].copy_from_slice(&to.0);
    bytes
}

/// The server of the port.
pub fn server(alloc: Global) -> Result<Vec<IpxnetServer>, AllocError> {
    let server = IpxnetServer::new(alloc, PORT, 64)?;
    let mut servers = Vec::new(alloc);
    servers.push(server)?;
    Ok(servers)
}

/// The port over these sockets.
pub fn servers<D: PlaceSockets + Drop>(
    alloc: Global,
    sockets: D,
) -> Result<Servers<D>, AllocError> {
    Ok(Servers::new(sockets, server(alloc)?))
}

/// What the player of a node answers to a ping of the router. By that it is a client.
pub fn shows(node: Node) -> [u8; 30] {
    let mut bytes = REGISTRATION;
    bytes[10..16].copy_from_slice(&PORT.own.0);
    bytes[22..28].copy_from_slice(&node.0);
    bytes
}

/// Puts the registration of a player, and its answer to a ping.
pub fn put_player(sockets: &mut MemoryPlaces, place: SocketAddrV4, node: Node) -> Result<(), Fail> {
    sockets.put(0, place, &REGISTRATION)?;
    sockets.put(0, place, &shows(node))?;
    Ok(())
}

/// Sockets in memory to which the three players sent their registrations, and showed their nodes.
pub fn registrations(alloc: Global) -> Result<MemoryPlaces, Fail> {
    let mut sockets = MemoryPlaces::new(alloc, 1);
    put_player(&mut sockets, first_place(), FIRST_NODE)?;
    put_player(&mut sockets, second_place(), SECOND_NODE)?;
    put_player(&mut sockets, third_place(), THIRD_NODE)?;
    Ok(sockets)
}

/// How many datagrams the three players sent to become clients.
pub const ENTERED: u32 = 6;

/// The port, whose three players registered and were answered; then these bytes come from the first
/// one.
pub fn after_registrations(alloc: Global, bytes: &[u8]) -> Result<Servers<MemoryPlaces>, Fail> {
    let mut sockets = registrations(alloc)?;
    sockets.put(0, first_place(), bytes)?;
    let mut servers = servers(alloc, sockets)?;
    let mut room = [0; 1536];
    for _datagram in 0..ENTERED {
        servers.receive(0, &mut room)?;
    }
    Ok(servers)
}

/// Whether all that was sent after the first `before` datagrams went to these addresses, in this
/// order, and is these bytes.
pub fn went_after(
    sockets: &MemoryPlaces,
    before: usize,
    places: &[SocketAddrV4],
    bytes: &[u8],
) -> bool {
    let sent = sockets.went();
    if sent.len() != before + places.len() {
        return false;
    }
    let last: &[MemoryDatagram] = &sent[before..];
    last.iter().zip(places.iter()).all(|(sent, place)| sent.place == *place
        && sent.bytes.as_slice() == bytes)
}
