//! A port with three remotes, a station at each, and the frames that they send.

use ipx_ethernet::{Encapsulation, EthernetPort, Switch};
use ipx_ethernet_ports::{EndSockets, EthernetPorts, MemoryEnds, MemoryFrame};
use ipx_wire::{Network, Node};
use std::alloc::{AllocError, Global};

/// The port, on network 22 with Ethernet II.
pub const PORT: EthernetPort = EthernetPort {
    own: Node([2, 0, 0, 0, 0, 1]),
    network: Network(0x22),
    encapsulation: Encapsulation::EthernetII,
};

/// Stations at the remotes 0 and 1.
pub const FIRST: Node = Node([2, 0, 0, 0, 0, 0x42]);

pub const SECOND: Node = Node([2, 0, 0, 0, 0, 0x43]);

/// A packet of 30 bytes from the first station, to socket 4002 of node 020000000001 of network 22.
pub const PACKET: [u8; 30] = [
    0xff, 0xff, 0, 0x1e, 0, 4, 0, 0, 0, 0x22, 2, 0, 0, 0, 0, 1, 0x40, 2, 0, 0, 0, 0x11, 2, 0, 0, 0,
    0, 0x42, 0x40, 2,
];

/// That packet in an Ethernet II frame.
pub fn frame(to: Node, from: Node) -> [u8; 44] {
    let mut bytes = [0; 44];
    bytes[..6].copy_from_slice(&to.0);
    bytes[6..12].copy_from_slice(&from.0);
    bytes[12..14].copy_from_slice(&[0x81, 0x37]);
    bytes[14..].copy_from_slice(&PACKET);
    bytes
}

/// Sockets in memory, of one port with three remotes.
pub fn three_ends(alloc: Global) -> Result<MemoryEnds, AllocError> {
    Ok(MemoryEnds::new(alloc, vec![in alloc; 3]?))
}

/// The switch of the port, whose remotes are joined.
pub fn switches(alloc: Global) -> Result<Vec<Switch>, AllocError> {
    let switch = Switch::new(alloc, PORT, true)?;
    Ok(vec![in alloc; switch]?)
}

/// A port over these sockets.
pub fn ethernet<D: EndSockets + Drop>(
    alloc: Global,
    sockets: D,
) -> Result<EthernetPorts<D>, AllocError> {
    Ok(EthernetPorts::new(sockets, switches(alloc)?))
}

/// Whether these remotes, and no others, took these bytes, as the last of all that was sent.
pub fn took(sockets: &MemoryEnds, ends: &[usize], bytes: &[u8]) -> bool {
    let sent = sockets.went();
    if sent.len() < ends.len() {
        return false;
    }
    let last: &[MemoryFrame] = &sent[sent.len() - ends.len()..];
    last.iter().zip(ends.iter()).all(|(sent, end)| sent.end == *end
        && sent.bytes.as_slice() == bytes)
}
