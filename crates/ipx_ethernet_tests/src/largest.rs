//! The largest frames, and those that are larger.

use crate::fixture::{STATION, fault_of, is_read, is_sent};
use ipx_ethernet::{Encapsulation, FrameFault};
use std::test::Fail;

/// What precedes the packet, from the type or length on, and the packet's length field.
const RAW: [u8; 6] = [5, 0xdc, 0xff, 0xff, 5, 0xdc];

const ETHERNET_II: [u8; 6] = [0x81, 0x37, 0xff, 0xff, 5, 0xdc];

const LLC: [u8; 9] = [5, 0xdc, 0xe0, 0xe0, 3, 0xff, 0xff, 5, 0xd9];

const SNAP: [u8; 14] = [
    5, 0xdc, 0xaa, 0xaa, 3, 0, 0, 0, 0x81, 0x37, 0xff, 0xff, 5, 0xd4,
];

/// The header of a packet of type 4, from its hops on. It is from socket 4002 of 020000000042 on
/// network 11 to socket 4002 of 020000000001 on network 22.
const ON: [u8; 26] = [
    0, 4, 0, 0, 0, 0x22, 2, 0, 0, 0, 0, 1, 0x40, 2, 0, 0, 0, 0x11, 2, 0, 0, 0, 0, 0x42, 0x40, 2,
];

/// A frame of 1,514 bytes, whose packet's body is 3, 10, 17 and so on.
fn largest(front: &[u8]) -> [u8; 1514] {
    let mut frame = [0; 1514];
    frame[..12].copy_from_slice(&[2, 0, 0, 0, 0, 1, 2, 0, 0, 0, 0, 0x42]);
    let end = 12 + front.len();
    frame[12..end].copy_from_slice(front);
    frame[end..end + 26].copy_from_slice(&ON);
    let mut next: u8 = 3;
    for byte in &mut frame[end + 26..] {
        *byte = next;
        next = next.wrapping_add(7);
    }
    frame
}

#[test]
fn largest_of_each_encapsulation(rt: HostRuntime) -> Result<(), Fail> {
    let raw = largest(&RAW);
    is_read(&rt, &raw, Encapsulation::Raw, STATION, 1500)?;
    is_sent(&rt, &raw, Encapsulation::Raw, STATION, 1500)?;
    let ethernet = largest(&ETHERNET_II);
    is_read(&rt, &ethernet, Encapsulation::EthernetII, STATION, 1500)?;
    is_sent(&rt, &ethernet, Encapsulation::EthernetII, STATION, 1500)?;
    let llc = largest(&LLC);
    is_read(&rt, &llc, Encapsulation::Llc, STATION, 1497)?;
    is_sent(&rt, &llc, Encapsulation::Llc, STATION, 1497)?;
    let snap = largest(&SNAP);
    is_read(&rt, &snap, Encapsulation::Snap, STATION, 1492)?;
    is_sent(&rt, &snap, Encapsulation::Snap, STATION, 1492)
}

#[test]
fn longer_than_the_largest(rt: HostRuntime) {
    let mut frame = [0; 1515];
    for whole in [
        largest(&RAW),
        largest(&LLC),
        largest(&SNAP),
        largest(&ETHERNET_II),
    ] {
        frame[..1514].copy_from_slice(&whole);
        assert_eq!(rt; fault_of(&frame), Some(FrameFault::FrameLong(1515)));
    }
}
