//! How a station forwards a received frame to an Ethernet segment of another encapsulation.

use ipx_ethernet::{Encapsulation, FrameFault, decode_frame, encode_frame_into};
use ipx_wire::Node;
use std::test::Fail;

/// Sends the packet of a frame to all stations of a segment that has 802.2.
fn send_on(bytes: &[u8], own: Node, out: &mut [u8]) -> Result<usize, FrameFault> {
    let (frame, _encapsulation) = decode_frame(bytes, own)?;
    encode_frame_into(Encapsulation::Llc, Node::BROADCAST, own, frame.packet, out)
}

/// A packet of 30 bytes in an Ethernet II frame that is not padded, and in 802.2.
pub const CAME: [u8; 44] = [
    2, 0, 0, 0, 0, 1, 2, 0, 0, 0, 0, 0x42, 0x81, 0x37, 0xff, 0xff, 0, 0x1e, 0, 4, 0, 0, 0, 0x22, 2,
    0, 0, 0, 0, 1, 0x40, 2, 0, 0, 0, 0x11, 2, 0, 0, 0, 0, 0x42, 0x40, 2,
];

const WENT: [u8; 60] = [
    0xff, 0xff, 0xff, 0xff, 0xff, 0xff, 2, 0, 0, 0, 0, 1, 0, 0x21, 0xe0, 0xe0, 3, 0xff, 0xff, 0,
    0x1e, 0, 4, 0, 0, 0, 0x22, 2, 0, 0, 0, 0, 1, 0x40, 2, 0, 0, 0, 0x11, 2, 0, 0, 0, 0, 0x42, 0x40,
    2, 0, 0, 0, 0, 0, 0, 0, 0, 0, 0, 0, 0, 0,
];

#[test]
fn sent_on_in_another_encapsulation(rt: HostRuntime) -> Result<(), Fail> {
    let mut out = [0; 1514];
    let count = send_on(&CAME, Node([2, 0, 0, 0, 0, 1]), &mut out)?;
    assert_eq!(rt; &out[..count], WENT.as_slice());
    Ok(())
}
