//! Stations at the remotes of a port, and the frames that they send.

use ipx_ethernet::{Encapsulation, EthernetPort};
use ipx_wire::{Network, Node};

/// The port, on network 22 with Ethernet II.
pub const PORT: EthernetPort = EthernetPort {
    own: Node([2, 0, 0, 0, 0, 1]),
    network: Network(0x22),
    encapsulation: Encapsulation::EthernetII,
};

/// Stations at the remotes 0, 1 and 2.
pub const FIRST: Node = Node([2, 0, 0, 0, 0, 0x42]);

pub const SECOND: Node = Node([2, 0, 0, 0, 0, 0x43]);

pub const THIRD: Node = Node([2, 0, 0, 0, 0, 0x44]);

/// A packet of 30 bytes in an Ethernet II frame, from the first station to the port. It is for
/// socket 4002 of node 020000000001 of network 22.
pub const CAME: [u8; 44] = [
    2, 0, 0, 0, 0, 1, 2, 0, 0, 0, 0, 0x42, 0x81, 0x37, 0xff, 0xff, 0, 0x1e, 0, 4, 0, 0, 0, 0x22, 2,
    0, 0, 0, 0, 1, 0x40, 2, 0, 0, 0, 0x11, 2, 0, 0, 0, 0, 0x42, 0x40, 2,
];

/// The same packet from one station to another.
pub fn frame(to: Node, from: Node) -> [u8; 44] {
    let mut bytes = CAME;
    bytes[..6].copy_from_slice(&to.0);
    bytes[6..12].copy_from_slice(&from.0);
    bytes
}

/// An ARP request, which holds no IPX.
pub fn arp(from: Node) -> [u8; 42] {
    let mut bytes = [
        0xff, 0xff, 0xff, 0xff, 0xff, 0xff, 0, 0, 0, 0, 0, 0, 8, 6, 0, 1, 8, 0, 6, 4, 0, 1, 0, 0,
        0, 0, 0, 0, 10, 0, 0, 1, 0, 0, 0, 0, 0, 0, 10, 0, 0, 2,
    ];
    bytes[6..12].copy_from_slice(&from.0);
    bytes[22..28].copy_from_slice(&from.0);
    bytes
}
