//! Rows of frames, and how they are checked.

use ipx_ethernet::{Encapsulation, FRAME_MAX_SIZE, FrameFault, decode_frame, encode_frame_into};
use ipx_wire::Node;
use std::alloc::Global;
use std::process::Abort;
use std::test::Fail;

/// The station that receives the frames, and the one that sends them.
pub const STATION: Node = Node([2, 0, 0, 0, 0, 1]);

pub const SENDER: Node = Node([2, 0, 0, 0, 0, 0x42]);

/// A third station.
pub const OTHER: Node = Node([2, 0, 0, 0, 0, 7]);

/// The sender's address with the group bit, and the group of NLSP.
pub const GROUP: Node = Node([3, 0, 0, 0, 0, 0x42]);

pub const NLSP: Node = Node([9, 0, 0x1b, 0xff, 0xff, 0xff]);

/// A frame in hex, what is read from it, and whether it is what a station sends.
pub struct Heard {
    pub name: &'static str,
    pub frame: &'static str,
    pub encapsulation: Encapsulation,
    pub to: Node,
    pub size: usize,
    pub sends: bool,
}

/// A frame in hex, and why it is refused.
pub struct Refused {
    pub name: &'static str,
    pub frame: &'static str,
    pub fault: FrameFault,
}

/// Where the packet begins in a frame.
pub fn place_in(encapsulation: Encapsulation) -> usize {
    match encapsulation {
        Encapsulation::Raw | Encapsulation::EthernetII => 14,
        Encapsulation::Llc => 17,
        Encapsulation::Snap => 22,
    }
}

/// Checks what a station reads from a frame: its encapsulation, its stations and its packet.
pub fn is_read(
    rt: &impl Abort,
    bytes: &[u8],
    encapsulation: Encapsulation,
    to: Node,
    size: usize,
) -> Result<(), Fail> {
    let place = place_in(encapsulation);
    let (frame, found) = decode_frame(bytes, STATION)?;
    assert_eq!(rt; found, encapsulation);
    assert_eq!(rt; frame.to, to);
    assert_eq!(rt; frame.from, SENDER);
    assert_eq!(rt; frame.packet, &bytes[place..place + size]);
    Ok(())
}

/// Checks that a frame is written as exactly these bytes.
pub fn is_sent(
    rt: &impl Abort,
    bytes: &[u8],
    encapsulation: Encapsulation,
    to: Node,
    size: usize,
) -> Result<(), Fail> {
    let place = place_in(encapsulation);
    let mut out = [0x5a; FRAME_MAX_SIZE + 1];
    let packet = &bytes[place..place + size];
    let count = encode_frame_into(encapsulation, to, SENDER, packet, &mut out)?;
    assert_eq!(rt; &out[..count], bytes);
    assert!(rt; out[count..].iter().all(|byte| *byte == 0x5a));
    Ok(())
}

pub fn are_heard(rt: &impl Abort, alloc: Global, rows: &[Heard]) -> Result<(), Fail> {
    for row in rows {
        let bytes = hex::decode(alloc, row.frame.as_bytes())?;
        let read = decode_frame(&bytes, STATION).is_ok();
        assert_eq!(rt; (row.name, read), (row.name, true));
        is_read(rt, &bytes, row.encapsulation, row.to, row.size)?;
        if row.sends {
            is_sent(rt, &bytes, row.encapsulation, row.to, row.size)?;
        }
    }
    Ok(())
}

/// Why a frame is refused, if it is.
pub fn fault_of(bytes: &[u8]) -> Option<FrameFault> {
    match decode_frame(bytes, STATION) {
        Ok(_) => None,
        Err(fault) => Some(fault),
    }
}

pub fn are_refused(rt: &impl Abort, alloc: Global, rows: &[Refused]) -> Result<(), Fail> {
    for row in rows {
        let bytes = hex::decode(alloc, row.frame.as_bytes())?;
        assert_eq!(rt; (row.name, fault_of(&bytes)), (row.name, Some(row.fault)));
    }
    Ok(())
}
