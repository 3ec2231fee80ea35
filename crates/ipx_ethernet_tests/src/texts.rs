//! The texts of encapsulations and faults.

use ipx_ethernet::{Encapsulation, FrameFault};
use ipx_wire::{IpxFault, Node};
use std::test::Fail;

#[test]
fn names_of_encapsulations(rt: HostRuntime) -> Result<(), Fail> {
    for (encapsulation, text) in [
        (Encapsulation::Raw, "802.3"),
        (Encapsulation::Llc, "802.2"),
        (Encapsulation::Snap, "snap"),
        (Encapsulation::EthernetII, "ethernet-ii"),
    ] {
        assert_eq!(rt; format!(in rt.alloc(); "{encapsulation}")?.as_str(), text);
    }
    Ok(())
}

#[test]
fn texts_of_faults(rt: HostRuntime) -> Result<(), Fail> {
    let station = Node([2, 0, 0, 0, 0, 7]);
    for (fault, number, text) in [
        (
            FrameFault::FrameShort(13),
            40,
            "13 bytes, a frame has at least 14",
        ),
        (
            FrameFault::FrameLong(1515),
            41,
            "1515 bytes, a frame has at most 1514",
        ),
        (
            FrameFault::SourceGroup(Node::BROADCAST),
            42,
            "source ffffffffffff is a group",
        ),
        (FrameFault::SourceZero, 43, "source is zero"),
        (FrameFault::OwnSource, 44, "source is this station"),
        (
            FrameFault::OtherStation(station),
            45,
            "it is for 020000000007",
        ),
        (
            FrameFault::Tagged(0x8100),
            46,
            "type 8100 is a tag, none is accepted",
        ),
        (FrameFault::OtherType(0x0806), 47, "type 0806, IPX has 8137"),
        (
            FrameFault::FrameTruncated(47, 60),
            48,
            "length says 47 bytes, frame has 60 with the 14 before them",
        ),
        (
            FrameFault::OtherLlc,
            49,
            "neither ffff nor e0e003 nor aaaa030000008137 follows the length",
        ),
        (
            FrameFault::NoPacket(IpxFault::LengthShort(29)),
            50,
            "length field says 29 bytes, an IPX header needs 30",
        ),
        (
            FrameFault::PacketLong(1498, 1497),
            51,
            "a packet of 1498 bytes, the encapsulation takes at most 1497",
        ),
        (
            FrameFault::NoRoom(60, 59),
            52,
            "a frame of 60 bytes, there is room for 59",
        ),
    ] {
        assert_eq!(rt; fault.number(), number);
        assert_eq!(rt; format!(in rt.alloc(); "{fault}")?.as_str(), text);
    }
    Ok(())
}
