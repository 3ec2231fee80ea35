//! Frames with each fault, in each encapsulation.

use crate::fixture::{OTHER, Refused, are_refused};
use ipx_ethernet::FrameFault;
use ipx_wire::{IpxFault, Node};
use std::test::Fail;

const ROWS: [Refused; 71] = [
    Refused {
        name: "a packet over the length, 802.3",
        frame: "0200000000010200000000420021ffff00220004000000220200000000014002000000110200\
         0000004240026576656e000000000000000000000000",
        fault: FrameFault::NoPacket(IpxFault::Truncated(34, 33)),
    },
    Refused {
        name: "a length over the frame, 802.3",
        frame: "020000000001020000000042002fffff00220004000000220200000000014002000000110200\
         0000004240026576656e000000000000000000000000",
        fault: FrameFault::FrameTruncated(47, 60),
    },
    Refused {
        name: "29 bytes of a packet, 802.3",
        frame: "020000000001020000000042001dffff001e0004000000220200000000014002000000110200\
         00000042400200000000000000000000000000000000",
        fault: FrameFault::NoPacket(IpxFault::Short(29)),
    },
    Refused {
        name: "a length field of 29, 802.3",
        frame: "0200000000010200000000420022ffff001d0004000000220200000000014002000000110200\
         0000004240026576656e000000000000000000000000",
        fault: FrameFault::NoPacket(IpxFault::LengthShort(29)),
    },
    Refused {
        name: "a checksum, 802.3",
        frame: "0200000000010200000000420022123400220004000000220200000000014002000000110200\
         0000004240026576656e000000000000000000000000",
        fault: FrameFault::OtherLlc,
    },
    Refused {
        name: "its own, 802.3",
        frame: "0200000000010200000000010022ffff00220004000000220200000000014002000000110200\
         0000004240026576656e000000000000000000000000",
        fault: FrameFault::OwnSource,
    },
    Refused {
        name: "for another, 802.3",
        frame: "0200000000070200000000420022ffff00220004000000220200000000014002000000110200\
         0000004240026576656e000000000000000000000000",
        fault: FrameFault::OtherStation(OTHER),
    },
    Refused {
        name: "from zero, 802.3",
        frame: "0200000000010000000000000022ffff00220004000000220200000000014002000000110200\
         0000004240026576656e000000000000000000000000",
        fault: FrameFault::SourceZero,
    },
    Refused {
        name: "from all, 802.3",
        frame: "020000000001ffffffffffff0022ffff00220004000000220200000000014002000000110200\
         0000004240026576656e000000000000000000000000",
        fault: FrameFault::SourceGroup(Node::BROADCAST),
    },
    Refused {
        name: "from zero, for another, 802.3",
        frame: "0200000000070000000000000022ffff00220004000000220200000000014002000000110200\
         0000004240026576656e000000000000000000000000",
        fault: FrameFault::SourceZero,
    },
    Refused {
        name: "its own, for another, 802.3",
        frame: "0200000000070200000000010022ffff00220004000000220200000000014002000000110200\
         0000004240026576656e000000000000000000000000",
        fault: FrameFault::OwnSource,
    },
    Refused {
        name: "a packet over the length, 802.2",
        frame: "0200000000010200000000420024e0e003ffff00220004000000220200000000014002000000\
         1102000000004240026576656e000000000000000000",
        fault: FrameFault::NoPacket(IpxFault::Truncated(34, 33)),
    },
    Refused {
        name: "a length over the frame, 802.2",
        frame: "020000000001020000000042002fe0e003ffff00220004000000220200000000014002000000\
         1102000000004240026576656e000000000000000000",
        fault: FrameFault::FrameTruncated(47, 60),
    },
    Refused {
        name: "29 bytes of a packet, 802.2",
        frame: "0200000000010200000000420020e0e003ffff001e0004000000220200000000014002000000\
         11020000000042400200000000000000000000000000",
        fault: FrameFault::NoPacket(IpxFault::Short(29)),
    },
    Refused {
        name: "a length field of 29, 802.2",
        frame: "0200000000010200000000420025e0e003ffff001d0004000000220200000000014002000000\
         1102000000004240026576656e000000000000000000",
        fault: FrameFault::NoPacket(IpxFault::LengthShort(29)),
    },
    Refused {
        name: "a checksum, 802.2",
        frame: "0200000000010200000000420025e0e003123400220004000000220200000000014002000000\
         1102000000004240026576656e000000000000000000",
        fault: FrameFault::NoPacket(IpxFault::Checksummed(0x1234)),
    },
    Refused {
        name: "its own, 802.2",
        frame: "0200000000010200000000010025e0e003ffff00220004000000220200000000014002000000\
         1102000000004240026576656e000000000000000000",
        fault: FrameFault::OwnSource,
    },
    Refused {
        name: "for another, 802.2",
        frame: "0200000000070200000000420025e0e003ffff00220004000000220200000000014002000000\
         1102000000004240026576656e000000000000000000",
        fault: FrameFault::OtherStation(OTHER),
    },
    Refused {
        name: "from zero, 802.2",
        frame: "0200000000010000000000000025e0e003ffff00220004000000220200000000014002000000\
         1102000000004240026576656e000000000000000000",
        fault: FrameFault::SourceZero,
    },
    Refused {
        name: "from all, 802.2",
        frame: "020000000001ffffffffffff0025e0e003ffff00220004000000220200000000014002000000\
         1102000000004240026576656e000000000000000000",
        fault: FrameFault::SourceGroup(Node::BROADCAST),
    },
    Refused {
        name: "from zero, for another, 802.2",
        frame: "0200000000070000000000000025e0e003ffff00220004000000220200000000014002000000\
         1102000000004240026576656e000000000000000000",
        fault: FrameFault::SourceZero,
    },
    Refused {
        name: "its own, for another, 802.2",
        frame: "0200000000070200000000010025e0e003ffff00220004000000220200000000014002000000\
         1102000000004240026576656e000000000000000000",
        fault: FrameFault::OwnSource,
    },
    Refused {
        name: "a packet over the length, snap",
        frame: "0200000000010200000000420029aaaa030000008137ffff0022000400000022020000000001\
         40020000001102000000004240026576656e00000000",
        fault: FrameFault::NoPacket(IpxFault::Truncated(34, 33)),
    },
    Refused {
        name: "a length over the frame, snap",
        frame: "020000000001020000000042002faaaa030000008137ffff0022000400000022020000000001\
         40020000001102000000004240026576656e00000000",
        fault: FrameFault::FrameTruncated(47, 60),
    },
    Refused {
        name: "29 bytes of a packet, snap",
        frame: "0200000000010200000000420025aaaa030000008137ffff001e000400000022020000000001\
         40020000001102000000004240020000000000000000",
        fault: FrameFault::NoPacket(IpxFault::Short(29)),
    },
    Refused {
        name: "a length field of 29, snap",
        frame: "020000000001020000000042002aaaaa030000008137ffff001d000400000022020000000001\
         40020000001102000000004240026576656e00000000",
        fault: FrameFault::NoPacket(IpxFault::LengthShort(29)),
    },
    Refused {
        name: "a checksum, snap",
        frame: "020000000001020000000042002aaaaa03000000813712340022000400000022020000000001\
         40020000001102000000004240026576656e00000000",
        fault: FrameFault::NoPacket(IpxFault::Checksummed(0x1234)),
    },
    Refused {
        name: "its own, snap",
        frame: "020000000001020000000001002aaaaa030000008137ffff0022000400000022020000000001\
         40020000001102000000004240026576656e00000000",
        fault: FrameFault::OwnSource,
    },
    Refused {
        name: "for another, snap",
        frame: "020000000007020000000042002aaaaa030000008137ffff0022000400000022020000000001\
         40020000001102000000004240026576656e00000000",
        fault: FrameFault::OtherStation(OTHER),
    },
    Refused {
        name: "from zero, snap",
        frame: "020000000001000000000000002aaaaa030000008137ffff0022000400000022020000000001\
         40020000001102000000004240026576656e00000000",
        fault: FrameFault::SourceZero,
    },
    Refused {
        name: "from all, snap",
        frame: "020000000001ffffffffffff002aaaaa030000008137ffff0022000400000022020000000001\
         40020000001102000000004240026576656e00000000",
        fault: FrameFault::SourceGroup(Node::BROADCAST),
    },
    Refused {
        name: "from zero, for another, snap",
        frame: "020000000007000000000000002aaaaa030000008137ffff0022000400000022020000000001\
         40020000001102000000004240026576656e00000000",
        fault: FrameFault::SourceZero,
    },
    Refused {
        name: "its own, for another, snap",
        frame: "020000000007020000000001002aaaaa030000008137ffff0022000400000022020000000001\
         40020000001102000000004240026576656e00000000",
        fault: FrameFault::OwnSource,
    },
    Refused {
        name: "29 bytes of a packet, ethernet-ii",
        frame: "0200000000010200000000428137ffff001e0004000000220200000000014002000000110200\
         0000004240",
        fault: FrameFault::NoPacket(IpxFault::Short(29)),
    },
    Refused {
        name: "a packet over the frame, ethernet-ii",
        frame: "0200000000010200000000428137ffff002f0004000000220200000000014002000000110200\
         0000004240026576656e000000000000000000000000",
        fault: FrameFault::NoPacket(IpxFault::Truncated(47, 46)),
    },
    Refused {
        name: "a length field of 29, ethernet-ii",
        frame: "0200000000010200000000428137ffff001d0004000000220200000000014002000000110200\
         0000004240026576656e000000000000000000000000",
        fault: FrameFault::NoPacket(IpxFault::LengthShort(29)),
    },
    Refused {
        name: "a checksum, ethernet-ii",
        frame: "0200000000010200000000428137123400220004000000220200000000014002000000110200\
         0000004240026576656e000000000000000000000000",
        fault: FrameFault::NoPacket(IpxFault::Checksummed(0x1234)),
    },
    Refused {
        name: "its own, ethernet-ii",
        frame: "0200000000010200000000018137ffff00220004000000220200000000014002000000110200\
         0000004240026576656e000000000000000000000000",
        fault: FrameFault::OwnSource,
    },
    Refused {
        name: "for another, ethernet-ii",
        frame: "0200000000070200000000428137ffff00220004000000220200000000014002000000110200\
         0000004240026576656e000000000000000000000000",
        fault: FrameFault::OtherStation(OTHER),
    },
    Refused {
        name: "from zero, ethernet-ii",
        frame: "0200000000010000000000008137ffff00220004000000220200000000014002000000110200\
         0000004240026576656e000000000000000000000000",
        fault: FrameFault::SourceZero,
    },
    Refused {
        name: "from all, ethernet-ii",
        frame: "020000000001ffffffffffff8137ffff00220004000000220200000000014002000000110200\
         0000004240026576656e000000000000000000000000",
        fault: FrameFault::SourceGroup(Node::BROADCAST),
    },
    Refused {
        name: "from zero, for another, ethernet-ii",
        frame: "0200000000070000000000008137ffff00220004000000220200000000014002000000110200\
         0000004240026576656e000000000000000000000000",
        fault: FrameFault::SourceZero,
    },
    Refused {
        name: "its own, for another, ethernet-ii",
        frame: "0200000000070200000000018137ffff00220004000000220200000000014002000000110200\
         0000004240026576656e000000000000000000000000",
        fault: FrameFault::OwnSource,
    },
    Refused {
        name: "13 bytes",
        frame: "02000000000102000000004200",
        fault: FrameFault::FrameShort(13),
    },
    Refused {
        name: "no more than the header",
        frame: "0200000000010200000000420000",
        fault: FrameFault::OtherLlc,
    },
    Refused {
        name: "type 8100",
        frame: "0200000000010200000000428100ffff00220004000000220200000000014002000000110200\
         0000004240026576656e000000000000000000000000",
        fault: FrameFault::Tagged(0x8100),
    },
    Refused {
        name: "type 88a8",
        frame: "02000000000102000000004288a8ffff00220004000000220200000000014002000000110200\
         0000004240026576656e000000000000000000000000",
        fault: FrameFault::Tagged(0x88a8),
    },
    Refused {
        name: "type 9100",
        frame: "0200000000010200000000429100ffff00220004000000220200000000014002000000110200\
         0000004240026576656e000000000000000000000000",
        fault: FrameFault::Tagged(0x9100),
    },
    Refused {
        name: "type 0800",
        frame: "0200000000010200000000420800ffff00220004000000220200000000014002000000110200\
         0000004240026576656e000000000000000000000000",
        fault: FrameFault::OtherType(0x0800),
    },
    Refused {
        name: "type 86dd",
        frame: "02000000000102000000004286ddffff00220004000000220200000000014002000000110200\
         0000004240026576656e000000000000000000000000",
        fault: FrameFault::OtherType(0x86dd),
    },
    Refused {
        name: "type 8138",
        frame: "0200000000010200000000428138ffff00220004000000220200000000014002000000110200\
         0000004240026576656e000000000000000000000000",
        fault: FrameFault::OtherType(0x8138),
    },
    Refused {
        name: "type 05dd",
        frame: "02000000000102000000004205ddffff00220004000000220200000000014002000000110200\
         0000004240026576656e000000000000000000000000",
        fault: FrameFault::OtherType(0x05dd),
    },
    Refused {
        name: "type 05ff",
        frame: "02000000000102000000004205ffffff00220004000000220200000000014002000000110200\
         0000004240026576656e000000000000000000000000",
        fault: FrameFault::OtherType(0x05ff),
    },
    Refused {
        name: "type 0600",
        frame: "0200000000010200000000420600ffff00220004000000220200000000014002000000110200\
         0000004240026576656e000000000000000000000000",
        fault: FrameFault::OtherType(0x0600),
    },
    Refused {
        name: "a tag before it, 802.3",
        frame: "020000000001020000000042810000050022ffff002200040000002202000000000140020000\
         001102000000004240026576656e000000000000000000000000",
        fault: FrameFault::Tagged(0x8100),
    },
    Refused {
        name: "a tag before it, 802.2",
        frame: "020000000001020000000042810000050025e0e003ffff002200040000002202000000000140\
         020000001102000000004240026576656e000000000000000000",
        fault: FrameFault::Tagged(0x8100),
    },
    Refused {
        name: "a tag before it, snap",
        frame: "02000000000102000000004281000005002aaaaa030000008137ffff00220004000000220200\
         0000000140020000001102000000004240026576656e00000000",
        fault: FrameFault::Tagged(0x8100),
    },
    Refused {
        name: "a tag from the station itself",
        frame: "0200000000010200000000018100ffff00220004000000220200000000014002000000110200\
         0000004240026576656e000000000000000000000000",
        fault: FrameFault::OwnSource,
    },
    Refused {
        name: "NetBEUI",
        frame: "0200000000010200000000420025f0f003ffff00220004000000220200000000014002000000\
         1102000000004240026576656e000000000000000000",
        fault: FrameFault::OtherLlc,
    },
    Refused {
        name: "XID",
        frame: "0200000000010200000000420025e0e0bfffff00220004000000220200000000014002000000\
         1102000000004240026576656e000000000000000000",
        fault: FrameFault::OtherLlc,
    },
    Refused {
        name: "TEST",
        frame: "0200000000010200000000420025e0e0e3ffff00220004000000220200000000014002000000\
         1102000000004240026576656e000000000000000000",
        fault: FrameFault::OtherLlc,
    },
    Refused {
        name: "another SSAP",
        frame: "0200000000010200000000420025e00403ffff00220004000000220200000000014002000000\
         1102000000004240026576656e000000000000000000",
        fault: FrameFault::OtherLlc,
    },
    Refused {
        name: "another DSAP",
        frame: "020000000001020000000042002504e003ffff00220004000000220200000000014002000000\
         1102000000004240026576656e000000000000000000",
        fault: FrameFault::OtherLlc,
    },
    Refused {
        name: "another organization",
        frame: "020000000001020000000042002aaaaa030000f88137ffff0022000400000022020000000001\
         40020000001102000000004240026576656e00000000",
        fault: FrameFault::OtherLlc,
    },
    Refused {
        name: "another protocol of SNAP",
        frame: "020000000001020000000042002aaaaa030000008138ffff0022000400000022020000000001\
         40020000001102000000004240026576656e00000000",
        fault: FrameFault::OtherLlc,
    },
    Refused {
        name: "a length of 0, ffff",
        frame: "0200000000010200000000420000ffffffff0022000400000022020000000001400200000011\
         02000000004240026576656e00000000000000000000",
        fault: FrameFault::OtherLlc,
    },
    Refused {
        name: "a length of 1, ffff",
        frame: "0200000000010200000000420001ffffffff0022000400000022020000000001400200000011\
         02000000004240026576656e00000000000000000000",
        fault: FrameFault::OtherLlc,
    },
    Refused {
        name: "a length of 2, e0e003",
        frame: "0200000000010200000000420002e0e003ffff00220004000000220200000000014002000000\
         1102000000004240026576656e000000000000000000",
        fault: FrameFault::OtherLlc,
    },
    Refused {
        name: "a length of 7, aaaa030000008137",
        frame: "0200000000010200000000420007aaaa030000008137ffff0022000400000022020000000001\
         40020000001102000000004240026576656e00000000",
        fault: FrameFault::OtherLlc,
    },
    Refused {
        name: "a length of 2, ffff",
        frame: "0200000000010200000000420002ffff00220004000000220200000000014002000000110200\
         0000004240026576656e000000000000000000000000",
        fault: FrameFault::NoPacket(IpxFault::Short(2)),
    },
    Refused {
        name: "a length of 3, e0e003",
        frame: "0200000000010200000000420003e0e003ffff00220004000000220200000000014002000000\
         1102000000004240026576656e000000000000000000",
        fault: FrameFault::NoPacket(IpxFault::Short(0)),
    },
];

#[test]
fn each_fault_in_each_encapsulation(rt: HostRuntime) -> Result<(), Fail> {
    are_refused(&rt, rt.alloc(), &ROWS)
}
