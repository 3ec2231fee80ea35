//! Frames that were compared with other readers of frames, and are received.

use crate::fixture::{Heard, STATION, are_heard};
use ipx_ethernet::Encapsulation;
use ipx_wire::Node;
use std::test::Fail;

const ROWS: [Heard; 7] = [
    Heard {
        name: "rip-request-802.3",
        frame: "ffffffffffff0200000000420028ffff0028000100000000ffffffffffff0453000000000200\
         0000004204530001ffffffffffffffff000000000000",
        encapsulation: Encapsulation::Raw,
        to: Node::BROADCAST,
        size: 40,
        sends: true,
    },
    Heard {
        name: "rip-request-snap",
        frame: "ffffffffffff0200000000420030aaaa030000008137ffff0028000100000000ffffffffffff\
         04530000000002000000004204530001ffffffffffffffff",
        encapsulation: Encapsulation::Snap,
        to: Node::BROADCAST,
        size: 40,
        sends: true,
    },
    Heard {
        name: "spx-request-802.2",
        frame: "020000000001020000000042002de0e003ffff002a0005000000330200000000015000000000\
         110200000000424002c0000001ffff00000000000700",
        encapsulation: Encapsulation::Llc,
        to: STATION,
        size: 42,
        sends: true,
    },
    Heard {
        name: "spx-request-ethernet_ii",
        frame: "0200000000010200000000428137ffff002a0005000000330200000000015000000000110200\
         000000424002c0000001ffff00000000000700000000",
        encapsulation: Encapsulation::EthernetII,
        to: STATION,
        size: 42,
        sends: true,
    },
    Heard {
        name: "odd-802.2",
        frame: "0200000000010200000000420024e0e003ffff00210004000000220200000000014002000000\
         1102000000004240026f646400000000000000000000",
        encapsulation: Encapsulation::Llc,
        to: STATION,
        size: 33,
        sends: true,
    },
    Heard {
        name: "not-padded-ethernet_ii",
        frame: "0200000000010200000000428137ffff001e0004000000220200000000014002000000110200\
         000000424002",
        encapsulation: Encapsulation::EthernetII,
        to: STATION,
        size: 30,
        sends: false,
    },
    Heard {
        name: "fcs-behind",
        frame: "0200000000010200000000420025e0e003ffff00220004000000220200000000014002000000\
         1102000000004240026576656e000000000000000000deadbeef",
        encapsulation: Encapsulation::Llc,
        to: STATION,
        size: 34,
        sends: false,
    },
];

#[test]
fn frames_that_other_readers_read(rt: HostRuntime) -> Result<(), Fail> {
    are_heard(&rt, rt.alloc(), &ROWS)
}
