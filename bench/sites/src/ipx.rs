//! Packets as bytes.

use std::net::Ipv4Addr;

/// The node of all stations of a network.
pub const EVERYBODY: [u8; 6] = [0xff; 6];
/// The bytes before a packet's body, and where its destination's socket is.
pub const HEADER: usize = 30;
const SOCKET_AT: usize = 16;
/// The packet type of what is not RIP.
pub const EXCHANGE: u8 = 4;

/// A network, a node and a socket.
#[derive(Clone, Copy)]
pub struct Place {
    pub network: u32,
    pub node: [u8; 6],
    pub socket: u16,
}

impl Place {
    pub fn new(network: u32, address: &str, socket: u16) -> Place {
        Place {
            network,
            node: node(address),
            socket,
        }
    }

    /// Another socket of the same node.
    pub fn at(self, socket: u16) -> Place {
        Place { socket, ..self }
    }

    /// A socket of all nodes of the network.
    pub fn everybody(self, socket: u16) -> Place {
        Place {
            node: EVERYBODY,
            socket,
            ..self
        }
    }
}

/// The node of an IP address: two zero bytes and the four of it.
pub fn node(address: &str) -> [u8; 6] {
    let ip = address.parse::<Ipv4Addr>().expect("an IP address").octets();
    [0, 0, ip[0], ip[1], ip[2], ip[3]]
}

/// A packet of a type from one place to another, with its body.
pub fn packet(kind: u8, to: Place, from: Place, body: &[u8]) -> Vec<u8> {
    let length = (HEADER + body.len()) as u16;
    let mut bytes = vec![0xff, 0xff];
    bytes.extend(length.to_be_bytes());
    bytes.extend([0, kind]);
    for place in [to, from] {
        bytes.extend(place.network.to_be_bytes());
        bytes.extend(place.node);
        bytes.extend(place.socket.to_be_bytes());
    }
    bytes.extend(body);
    bytes
}

/// The socket that a packet goes to, and its body.
pub fn read(bytes: &[u8]) -> Option<(u16, &[u8])> {
    let body = bytes.get(HEADER..)?;
    Some((
        u16::from_be_bytes([bytes[SOCKET_AT], bytes[SOCKET_AT + 1]]),
        body,
    ))
}
