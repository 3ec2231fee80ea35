//! What goes through one process: datagrams that are packets, or frames with a packet in them.

use crate::ipx::{EXCHANGE, HEADER, Place, node, packet, read};

pub const SENDER: &str = "127.0.2.20";
pub const RECEIVER: &str = "127.0.2.30";
/// The stations of a router on the wires of its ports.
pub const STATIONS: [[u8; 6]; 2] = [[2, 0, 0, 0, 0, 0x11], [2, 0, 0, 0, 0, 0x22]];
/// The socket of the receiver's host.
const SOCKET: u16 = 0x4000;
/// The bytes of a frame in 802.2 before its packet, and of the least frame.
const FRAME_HEADER: usize = 17;
const LEAST_FRAME: usize = 60;

/// A datagram to the receiver's host, and where its packet begins.
pub struct Load {
    pub name: String,
    pub bytes: Vec<u8>,
    packet_at: usize,
}

impl Load {
    /// A packet of so many bytes.
    pub fn packet(size: usize) -> Load {
        Load {
            name: format!("one router, {size} bytes"),
            bytes: of_size(size),
            packet_at: 0,
        }
    }

    /// A frame to the router, in 802.2, with a packet of so many bytes.
    pub fn frame(size: usize) -> Load {
        let mut bytes = Vec::new();
        bytes.extend(STATIONS[0]);
        bytes.extend(node(SENDER));
        bytes.extend((size as u16 + 3).to_be_bytes());
        bytes.extend([0xe0, 0xe0, 3]);
        bytes.extend(of_size(size));
        bytes.resize(bytes.len().max(LEAST_FRAME), 0);
        Load {
            name: format!("one router, frames of {} bytes", bytes.len()),
            bytes,
            packet_at: FRAME_HEADER,
        }
    }

    /// Whether this came of it: as long, and to the receiver's socket.
    pub fn is_come_as(&self, datagram: &[u8]) -> bool {
        datagram.len() == self.bytes.len()
            && read(&datagram[self.packet_at..]).is_some_and(|(socket, _)| socket == SOCKET)
    }
}

/// A packet from the sender's host to the receiver's, of so many bytes.
fn of_size(size: usize) -> Vec<u8> {
    let to = Place::new(0x22, RECEIVER, SOCKET);
    let from = Place::new(0x11, SENDER, 0x5000);
    packet(EXCHANGE, to, from, &vec![0; size - HEADER])
}
