//! SPX headers, and the data of one packet.

use std::fmt;
use std::mem::MaybeUninit;

pub const HEADER: usize = 12;

/// The most data that a packet carries.
pub const MOST_DATA: usize = 534;

/// The most bytes that a packet takes.
pub const ROOM: usize = HEADER + MOST_DATA;

const SYSTEM: u8 = 0x80;
const WANTS_ACK: u8 = 0x40;
const LAST: u8 = 0x10;

#[derive(Clone, Copy, Debug, PartialEq, Eq)]
pub struct SpxHeader {
    pub system: bool,
    pub wants_ack: bool,
    pub last: bool,
    pub stream: u8,
    pub from_id: u16,
    pub to_id: u16,
    pub seq: u16,
    pub ack: u16,
    pub limit: u16,
}

#[derive(Clone, Copy, Debug, PartialEq, Eq)]
pub enum SpxFault {
    Short(usize),
    OverSize(usize),
}

/// The data of one packet, in place. What lies behind its length is neither written nor read, as in
/// a vector of a fixed room.
#[derive(Clone)]
pub struct Fragment {
    len: usize,
    bytes: [MaybeUninit<u8>; MOST_DATA],
}

impl Fragment {
    /// The fragment of at most 534 bytes.
    #[inline]
    pub fn new(data: &[u8]) -> Self {
        let mut bytes = [MaybeUninit::uninit(); MOST_DATA];
        bytes[..data.len()].write_copy_of_slice(data);
        Fragment {
            len: data.len(),
            bytes,
        }
    }

    #[inline]
    pub fn as_slice(&self) -> &[u8] {
        // SAFETY: `new` wrote the first `len` bytes, and nothing changes a fragment.
        unsafe { self.bytes[..self.len].assume_init_ref() }
    }
}

impl fmt::Debug for Fragment {
    fn fmt(&self, f: &mut fmt::Formatter<'_>) -> fmt::Result {
        fmt::Debug::fmt(self.as_slice(), f)
    }
}

/// The header and the data that bytes hold.
#[inline]
pub fn decode(bytes: &[u8]) -> Result<(SpxHeader, &[u8]), SpxFault> {
    let Some((head, body)) = bytes.split_first_chunk::<HEADER>() else {
        return Err(SpxFault::Short(bytes.len()));
    };
    if body.len() > MOST_DATA {
        return Err(SpxFault::OverSize(bytes.len()));
    }
    let [control, stream, a, b, c, d, e, f, g, h, i, j] = *head;
    let header = SpxHeader {
        system: control & SYSTEM != 0,
        wants_ack: control & WANTS_ACK != 0,
        last: control & LAST != 0,
        stream,
        from_id: u16::from_be_bytes([a, b]),
        to_id: u16::from_be_bytes([c, d]),
        seq: u16::from_be_bytes([e, f]),
        ack: u16::from_be_bytes([g, h]),
        limit: u16::from_be_bytes([i, j]),
    };
    Ok((header, body))
}

fn bit_if(set: bool, bit: u8) -> u8 {
    if set { bit } else { 0 }
}

/// Writes a header and its data to the front of a buffer, and tells how many bytes they take.
#[inline]
pub fn encode_into(header: &SpxHeader, body: &[u8], out: &mut [u8]) -> usize {
    let end = HEADER + body.len();
    let (head, data) = out[..end].split_at_mut(HEADER);
    head[0] = bit_if(header.system, SYSTEM)
        | bit_if(header.wants_ack, WANTS_ACK)
        | bit_if(header.last, LAST);
    head[1] = header.stream;
    head[2..4].copy_from_slice(&header.from_id.to_be_bytes());
    head[4..6].copy_from_slice(&header.to_id.to_be_bytes());
    head[6..8].copy_from_slice(&header.seq.to_be_bytes());
    head[8..10].copy_from_slice(&header.ack.to_be_bytes());
    head[10..12].copy_from_slice(&header.limit.to_be_bytes());
    data.copy_from_slice(body);
    end
}
