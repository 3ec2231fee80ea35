//! What is not sent, and what is left out of what is sent.

use crate::fixture::{OTHER, STATION};
use ipx_ethernet::{Encapsulation, FrameFault, encode_frame_into};
use ipx_wire::IpxFault;
use std::process::Abort;
use std::test::Fail;

const ALL: [Encapsulation; 4] = [
    Encapsulation::Raw,
    Encapsulation::Llc,
    Encapsulation::Snap,
    Encapsulation::EthernetII,
];

/// A packet of 31 bytes, and one byte after it.
const PACKET: [u8; 32] = [
    0xff, 0xff, 0, 0x1f, 0, 4, 0, 0, 0, 0x22, 2, 0, 0, 0, 0, 7, 0x40, 2, 0, 0, 0, 0x11, 2, 0, 0, 0,
    0, 0x42, 0x40, 2, 0x6f, 0x99,
];

/// Checks that the packet is refused, and the buffer stays as it was.
fn refuses(
    rt: &impl Abort,
    encapsulation: Encapsulation,
    packet: &[u8],
    room: usize,
    fault: FrameFault,
) {
    let mut out = [0x5a; 1600];
    let answer = encode_frame_into(encapsulation, OTHER, STATION, packet, &mut out[..room]);
    assert_eq!(rt; answer, Err(fault));
    assert!(rt; out.iter().all(|byte| *byte == 0x5a));
}

/// A packet whose length field says `length`.
fn of_length(length: u16) -> [u8; 1600] {
    let mut packet = [0; 1600];
    packet[..32].copy_from_slice(&PACKET);
    packet[2..4].copy_from_slice(&length.to_be_bytes());
    packet
}

#[test]
fn a_checksum_is_not_sent(rt: HostRuntime) {
    let mut packet = PACKET;
    packet[0] = 0x12;
    packet[1] = 0x34;
    for encapsulation in ALL {
        let fault = FrameFault::NoPacket(IpxFault::Checksummed(0x1234));
        refuses(&rt, encapsulation, &packet, 1514, fault);
    }
}

#[test]
fn what_is_no_packet_is_not_sent(rt: HostRuntime) {
    for encapsulation in ALL {
        let fault = FrameFault::NoPacket(IpxFault::Short(29));
        refuses(&rt, encapsulation, &PACKET[..29], 1514, fault);
        let fault = FrameFault::NoPacket(IpxFault::Truncated(31, 30));
        refuses(&rt, encapsulation, &PACKET[..30], 1514, fault);
        let fault = FrameFault::NoPacket(IpxFault::TooLong(1501));
        refuses(&rt, encapsulation, &of_length(1501), 1514, fault);
    }
}

#[test]
fn more_than_the_encapsulation_takes(rt: HostRuntime) {
    let fault = FrameFault::PacketLong(1498, 1497);
    refuses(&rt, Encapsulation::Llc, &of_length(1498), 1600, fault);
    let fault = FrameFault::PacketLong(1493, 1492);
    refuses(&rt, Encapsulation::Snap, &of_length(1493), 1600, fault);
}

#[test]
fn too_little_room(rt: HostRuntime) {
    for encapsulation in ALL {
        refuses(&rt, encapsulation, &PACKET, 59, FrameFault::NoRoom(60, 59));
    }
    let fault = FrameFault::NoRoom(1514, 1513);
    refuses(&rt, Encapsulation::Raw, &of_length(1499), 1513, fault);
    refuses(&rt, Encapsulation::Llc, &of_length(1497), 1513, fault);
}

#[test]
fn an_odd_raw_packet_is_made_even(rt: HostRuntime) -> Result<(), Fail> {
    let mut out = [0x5a; 61];
    let count = encode_frame_into(Encapsulation::Raw, OTHER, STATION, &PACKET, &mut out)?;
    assert_eq!(rt; count, 60);
    assert_eq!(rt; &out[12..18], [0, 32, 0xff, 0xff, 0, 0x1f].as_slice());
    assert_eq!(rt; &out[43..47], [2, 0x6f, 0, 0].as_slice());
    assert_eq!(rt; out[60], 0x5a);
    Ok(())
}
