//! Frames that were compared with other readers of frames, and are refused.

use crate::fixture::{GROUP, NLSP, Refused, are_refused};
use ipx_ethernet::FrameFault;
use ipx_wire::IpxFault;
use std::test::Fail;

const ROWS: [Refused; 12] = [
    Refused {
        name: "empty",
        frame: "",
        fault: FrameFault::FrameShort(0),
    },
    Refused {
        name: "source-group",
        frame: "0200000000010300000000420022ffff00220004000000220200000000014002000000110200\
         0000004240026576656e000000000000000000000000",
        fault: FrameFault::SourceGroup(GROUP),
    },
    Refused {
        name: "source-zero",
        frame: "0200000000010000000000008137ffff00220004000000220200000000014002000000110200\
         0000004240026576656e000000000000000000000000",
        fault: FrameFault::SourceZero,
    },
    Refused {
        name: "multicast",
        frame: "09001bffffff0200000000420022ffff00220004000000220200000000014002000000110200\
         0000004240026576656e000000000000000000000000",
        fault: FrameFault::OtherStation(NLSP),
    },
    Refused {
        name: "arp",
        frame: "ffffffffffff0200000000420806000108000604000102000000004200000000000000000000\
         00000000000000000000000000000000000000000000",
        fault: FrameFault::OtherType(0x0806),
    },
    Refused {
        name: "vlan",
        frame: "020000000001020000000042810000058137ffff002200040000002202000000000140020000\
         001102000000004240026576656e000000000000000000000000",
        fault: FrameFault::Tagged(0x8100),
    },
    Refused {
        name: "length-over-frame",
        frame: "020000000001020000000042003dffff00220004000000220200000000014002000000110200\
         0000004240026576656e000000000000000000000000",
        fault: FrameFault::FrameTruncated(61, 60),
    },
    Refused {
        name: "stp",
        frame: "ffffffffffff0200000000420026424203000000000000000000000000000000000000000000\
         00000000000000000000000000000000000000000000",
        fault: FrameFault::OtherLlc,
    },
    Refused {
        name: "ssap-other",
        frame: "0200000000010200000000420025e00403ffff00220004000000220200000000014002000000\
         1102000000004240026576656e000000000000000000",
        fault: FrameFault::OtherLlc,
    },
    Refused {
        name: "raw-length-29",
        frame: "020000000001020000000042001dffff00220004000000220200000000014002000000110200\
         00000042400000000000000000000000000000000000",
        fault: FrameFault::NoPacket(IpxFault::Short(29)),
    },
    Refused {
        name: "checksum-802.2",
        frame: "0200000000010200000000420025e0e003123400220004000000220200000000014002000000\
         1102000000004240026576656e000000000000000000",
        fault: FrameFault::NoPacket(IpxFault::Checksummed(0x1234)),
    },
    Refused {
        name: "ipx-length-29",
        frame: "0200000000010200000000428137ffff001d0004000000220200000000014002000000110200\
         0000004240026576656e000000000000000000000000",
        fault: FrameFault::NoPacket(IpxFault::LengthShort(29)),
    },
];

#[test]
fn frames_that_are_not_heard(rt: HostRuntime) -> Result<(), Fail> {
    are_refused(&rt, rt.alloc(), &ROWS)
}
