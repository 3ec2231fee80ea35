//! Players, what they send, and what they expect.

use ipx_wire::{Network, Node};
use ipxnet_server::{IpxnetServer, Secret, ServerPort, node_of};
use std::net::{Ipv4Addr, SocketAddrV4};

/// The secret of the router: the bytes 00 to 1f.
pub const SECRET: Secret = Secret([
    0, 1, 2, 3, 4, 5, 6, 7, 8, 9, 10, 11, 12, 13, 14, 15, 16, 17, 18, 19, 20, 21, 22, 23, 24, 25,
    26, 27, 28, 29, 30, 31,
]);

/// The port, whose network 0000d05b players are told.
pub const PORT: ServerPort = ServerPort {
    network: Network(0xd05b),
    own: Node([2, 0, 0, 0, 0xd0, 0x5b]),
    secret: SECRET,
};

/// Three players, and the nodes that they are given: 02, and what another program computes as the
/// first five bytes of SHA-256 of the secret, 0000d05b, the IP address and the UDP port.
pub fn first_place() -> SocketAddrV4 {
    SocketAddrV4::new(Ipv4Addr::new(127, 0, 0, 1), 48199)
}

pub fn second_place() -> SocketAddrV4 {
    SocketAddrV4::new(Ipv4Addr::new(127, 0, 0, 1), 48200)
}

pub fn third_place() -> SocketAddrV4 {
    SocketAddrV4::new(Ipv4Addr::new(10, 0, 0, 9), 213)
}

pub const FIRST_NODE: Node = Node([2, 0x7c, 0x63, 0xc8, 0xd4, 0xdf]);

pub const SECOND_NODE: Node = Node([2, 0x3d, 0x99, 0x6d, 0xb9, 0xd7]);

pub const THIRD_NODE: Node = Node([2, 0x64, 0x6a, 0xa8, 0xbe, 0x2d]);

/// What `ipxnet connect` sends.
pub const REGISTRATION: [u8; 30] = [
    0xff, 0xff, 0, 0x1e, 0, 0, 0, 0, 0, 0, 0, 0, 0, 0, 0, 0, 0, 2, 0, 0, 0, 0, 0, 0, 0, 0, 0, 0, 0,
    2,
];

/// The answer to the first player. It takes its network and node from there, and the answer comes
/// from the router's.
pub const ANSWER: [u8; 30] = [
    0xff, 0xff, 0, 0x1e, 0, 0, 0, 0, 0xd0, 0x5b, 2, 0x7c, 0x63, 0xc8, 0xd4, 0xdf, 0, 2, 0, 0, 0xd0,
    0x5b, 2, 0, 0, 0, 0xd0, 0x5b, 0, 2,
];

/// A packet of 34 bytes from the first player to socket 4001 of the second, as its driver sends it.
/// Both networks are the one that it was told.
pub const CAME: [u8; 34] = [
    0xff, 0xff, 0, 0x22, 0, 4, 0, 0, 0xd0, 0x5b, 2, 0x3d, 0x99, 0x6d, 0xb9, 0xd7, 0x40, 1, 0, 0,
    0xd0, 0x5b, 2, 0x7c, 0x63, 0xc8, 0xd4, 0xdf, 0x40, 1, 1, 2, 3, 4,
];

/// The same packet between other nodes, to another socket, with 0 for both networks.
pub fn packet(to: Node, socket: u16, from: Node) -> [u8; 34] {
    let mut bytes = CAME;
    bytes[6..10].copy_from_slice(&[0; 4]);
    bytes[10..16].copy_from_slice(&to.0);
    bytes[16..18].copy_from_slice(&socket.to_be_bytes());
    bytes[18..22].copy_from_slice(&[0; 4]);
    bytes[22..28].copy_from_slice(&from.0);
    bytes
}

/// The same to another network.
pub fn packet_for(network: u32, to: Node, socket: u16, from: Node) -> [u8; 34] {
    let mut bytes = packet(to, socket, from);
    bytes[6..10].copy_from_slice(&network.to_be_bytes());
    bytes
}

/// A packet of `size` bytes from the first player, at most 1,500.
pub fn long_packet(to: Node, size: u16) -> [u8; 1500] {
    let mut bytes = [0; 1500];
    bytes[..34].copy_from_slice(&packet(to, 0x4001, FIRST_NODE));
    bytes[2..4].copy_from_slice(&size.to_be_bytes());
    bytes
}

/// An address registers, and answers a ping of the router by the node that it was given.
pub fn enter(server: &mut IpxnetServer, place: SocketAddrV4, now: u64) {
    server.hear(place, &REGISTRATION, now);
    let port = server.port();
    server.hear(place, &packet(port.own, 2, node_of(port, place)), now);
}

/// The three players become clients.
pub fn register_all(server: &mut IpxnetServer) {
    enter(server, first_place(), 0);
    enter(server, second_place(), 0);
    enter(server, third_place(), 0);
}
