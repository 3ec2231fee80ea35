//! Addresses and packets of an IPX internetwork.

#[derive(Clone, Copy, Debug, PartialEq, Eq, PartialOrd, Ord)]
pub struct Network(pub u32);

#[derive(Clone, Copy, Debug, PartialEq, Eq, PartialOrd, Ord)]
pub struct Node(pub [u8; 6]);

#[derive(Clone, Copy, Debug, PartialEq, Eq, PartialOrd, Ord, Hash)]
pub struct Socket(pub u16);

#[derive(Clone, Copy, Debug, PartialEq, Eq, PartialOrd, Ord)]
pub struct Address {
    pub network: Network,
    pub node: Node,
    pub socket: Socket,
}

impl Address {
    /// The address that 12 bytes hold.
    #[inline]
    pub fn from_bytes(bytes: &[u8; 12]) -> Self {
        let [a, b, c, d, e, f, g, h, i, j, k, l] = *bytes;
        Address {
            network: Network(u32::from_be_bytes([a, b, c, d])),
            node: Node([e, f, g, h, i, j]),
            socket: Socket(u16::from_be_bytes([k, l])),
        }
    }

    /// Writes it to 12 bytes.
    #[inline]
    pub fn put(&self, out: &mut [u8]) {
        out[..4].copy_from_slice(&self.network.0.to_be_bytes());
        out[4..10].copy_from_slice(&self.node.0);
        out[10..12].copy_from_slice(&self.socket.0.to_be_bytes());
    }

    pub fn write_to(&self, out: &mut Vec<u8>) {
        out.extend_from_slice(&self.network.0.to_be_bytes());
        out.extend_from_slice(&self.node.0);
        out.extend_from_slice(&self.socket.0.to_be_bytes());
    }
}

#[derive(Clone, Copy, Debug, PartialEq, Eq)]
pub struct Header {
    pub hops: u8,
    pub kind: u8,
    pub to: Address,
    pub from: Address,
}

/// A packet, whose body is lent from the datagram.
#[derive(Clone, Copy, Debug)]
pub struct Packet<'a> {
    pub header: Header,
    pub body: &'a [u8],
}

#[derive(Clone, Copy, Debug, PartialEq, Eq)]
pub enum IpxFault {
    Short(usize),
    Checksummed(u16),
    LengthShort(u16),
    Truncated(u16, usize),
    TooLong(u16),
}

pub const HEADER: usize = 30;

/// The packet that a datagram begins with.
#[inline]
pub fn decode(bytes: &[u8]) -> Result<Packet<'_>, IpxFault> {
    let Some((head, _)) = bytes.split_first_chunk::<HEADER>() else {
        return Err(IpxFault::Short(bytes.len()));
    };
    let checksum = u16::from_be_bytes([head[0], head[1]]);
    if checksum != 0xffff {
        return Err(IpxFault::Checksummed(checksum));
    }
    let length = u16::from_be_bytes([head[2], head[3]]);
    if usize::from(length) < HEADER {
        return Err(IpxFault::LengthShort(length));
    }
    let Some(packet) = bytes.get(..usize::from(length)) else {
        return Err(IpxFault::Truncated(length, bytes.len()));
    };
    if length > 1500 {
        return Err(IpxFault::TooLong(length));
    }
    let (to, from) = (&head[6..18], &head[18..30]);
    let header = Header {
        hops: head[4],
        kind: head[5],
        to: Address::from_bytes(to.try_into().unwrap()),
        from: Address::from_bytes(from.try_into().unwrap()),
    };
    Ok(Packet {
        header,
        body: &packet[HEADER..],
    })
}

/// Writes a header for a body of this length.
pub fn write_header(header: &Header, body: usize, out: &mut Vec<u8>) {
    let length = (HEADER + body) as u16;
    out.extend_from_slice(&[0xff, 0xff]);
    out.extend_from_slice(&length.to_be_bytes());
    out.extend_from_slice(&[header.hops, header.kind]);
    header.to.write_to(out);
    header.from.write_to(out);
}

/// The same to the 30 bytes in front of the body.
#[inline]
pub fn put_header(header: &Header, body: usize, out: &mut [u8]) {
    let length = (HEADER + body) as u16;
    out[..2].copy_from_slice(&[0xff, 0xff]);
    out[2..4].copy_from_slice(&length.to_be_bytes());
    out[4..6].copy_from_slice(&[header.hops, header.kind]);
    header.to.put(&mut out[6..18]);
    header.from.put(&mut out[18..30]);
}
