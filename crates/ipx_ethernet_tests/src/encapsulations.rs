//! Frames of each encapsulation that are received, with each kind of padding.

use crate::fixture::{Heard, STATION, are_heard};
use ipx_ethernet::Encapsulation;
use ipx_wire::Node;
use std::test::Fail;

const ROWS: [Heard; 25] = [
    Heard {
        name: "even to the station, 802.3",
        frame: "0200000000010200000000420022ffff00220004000000220200000000014002000000110200\
         0000004240026576656e000000000000000000000000",
        encapsulation: Encapsulation::Raw,
        to: STATION,
        size: 34,
        sends: true,
    },
    Heard {
        name: "odd to all, 802.3",
        frame: "ffffffffffff0200000000420022ffff00210004000000220200000000014002000000110200\
         0000004240026f646400000000000000000000000000",
        encapsulation: Encapsulation::Raw,
        to: Node::BROADCAST,
        size: 33,
        sends: true,
    },
    Heard {
        name: "header alone, 802.3",
        frame: "020000000001020000000042001effff001e0004000000220200000000014002000000110200\
         00000042400200000000000000000000000000000000",
        encapsulation: Encapsulation::Raw,
        to: STATION,
        size: 30,
        sends: true,
    },
    Heard {
        name: "header alone, not padded, 802.3",
        frame: "020000000001020000000042001effff001e0004000000220200000000014002000000110200\
         000000424002",
        encapsulation: Encapsulation::Raw,
        to: STATION,
        size: 30,
        sends: false,
    },
    Heard {
        name: "padding of other bytes, 802.3",
        frame: "0200000000010200000000420022ffff00220004000000220200000000014002000000110200\
         0000004240026576656eaa55aa",
        encapsulation: Encapsulation::Raw,
        to: STATION,
        size: 34,
        sends: false,
    },
    Heard {
        name: "the length counts the padding, 802.3",
        frame: "020000000001020000000042002effff00220004000000220200000000014002000000110200\
         0000004240026576656e000000000000000000000000",
        encapsulation: Encapsulation::Raw,
        to: STATION,
        size: 34,
        sends: false,
    },
    Heard {
        name: "odd, and its length too, 802.3",
        frame: "0200000000010200000000420021ffff00210004000000220200000000014002000000110200\
         0000004240026f646400000000000000000000000000",
        encapsulation: Encapsulation::Raw,
        to: STATION,
        size: 33,
        sends: false,
    },
    Heard {
        name: "a check sequence behind it, 802.3",
        frame: "0200000000010200000000420022ffff00220004000000220200000000014002000000110200\
         0000004240026576656e000000000000000000000000deadbeef",
        encapsulation: Encapsulation::Raw,
        to: STATION,
        size: 34,
        sends: false,
    },
    Heard {
        name: "even to the station, 802.2",
        frame: "0200000000010200000000420025e0e003ffff00220004000000220200000000014002000000\
         1102000000004240026576656e000000000000000000",
        encapsulation: Encapsulation::Llc,
        to: STATION,
        size: 34,
        sends: true,
    },
    Heard {
        name: "odd to all, 802.2",
        frame: "ffffffffffff0200000000420024e0e003ffff00210004000000220200000000014002000000\
         1102000000004240026f646400000000000000000000",
        encapsulation: Encapsulation::Llc,
        to: Node::BROADCAST,
        size: 33,
        sends: true,
    },
    Heard {
        name: "header alone, 802.2",
        frame: "0200000000010200000000420021e0e003ffff001e0004000000220200000000014002000000\
         11020000000042400200000000000000000000000000",
        encapsulation: Encapsulation::Llc,
        to: STATION,
        size: 30,
        sends: true,
    },
    Heard {
        name: "header alone, not padded, 802.2",
        frame: "0200000000010200000000420021e0e003ffff001e0004000000220200000000014002000000\
         110200000000424002",
        encapsulation: Encapsulation::Llc,
        to: STATION,
        size: 30,
        sends: false,
    },
    Heard {
        name: "padding of other bytes, 802.2",
        frame: "0200000000010200000000420025e0e003ffff00220004000000220200000000014002000000\
         1102000000004240026576656eaa55aa",
        encapsulation: Encapsulation::Llc,
        to: STATION,
        size: 34,
        sends: false,
    },
    Heard {
        name: "the length counts the padding, 802.2",
        frame: "020000000001020000000042002ee0e003ffff00220004000000220200000000014002000000\
         1102000000004240026576656e000000000000000000",
        encapsulation: Encapsulation::Llc,
        to: STATION,
        size: 34,
        sends: false,
    },
    Heard {
        name: "even to the station, snap",
        frame: "020000000001020000000042002aaaaa030000008137ffff0022000400000022020000000001\
         40020000001102000000004240026576656e00000000",
        encapsulation: Encapsulation::Snap,
        to: STATION,
        size: 34,
        sends: true,
    },
    Heard {
        name: "odd to all, snap",
        frame: "ffffffffffff0200000000420029aaaa030000008137ffff0021000400000022020000000001\
         40020000001102000000004240026f64640000000000",
        encapsulation: Encapsulation::Snap,
        to: Node::BROADCAST,
        size: 33,
        sends: true,
    },
    Heard {
        name: "header alone, snap",
        frame: "0200000000010200000000420026aaaa030000008137ffff001e000400000022020000000001\
         40020000001102000000004240020000000000000000",
        encapsulation: Encapsulation::Snap,
        to: STATION,
        size: 30,
        sends: true,
    },
    Heard {
        name: "header alone, not padded, snap",
        frame: "0200000000010200000000420026aaaa030000008137ffff001e000400000022020000000001\
         4002000000110200000000424002",
        encapsulation: Encapsulation::Snap,
        to: STATION,
        size: 30,
        sends: false,
    },
    Heard {
        name: "padding of other bytes, snap",
        frame: "020000000001020000000042002aaaaa030000008137ffff0022000400000022020000000001\
         40020000001102000000004240026576656eaa55aa",
        encapsulation: Encapsulation::Snap,
        to: STATION,
        size: 34,
        sends: false,
    },
    Heard {
        name: "the length counts the padding, snap",
        frame: "020000000001020000000042002eaaaa030000008137ffff0022000400000022020000000001\
         40020000001102000000004240026576656e00000000",
        encapsulation: Encapsulation::Snap,
        to: STATION,
        size: 34,
        sends: false,
    },
    Heard {
        name: "even to the station, ethernet-ii",
        frame: "0200000000010200000000428137ffff00220004000000220200000000014002000000110200\
         0000004240026576656e000000000000000000000000",
        encapsulation: Encapsulation::EthernetII,
        to: STATION,
        size: 34,
        sends: true,
    },
    Heard {
        name: "odd to all, ethernet-ii",
        frame: "ffffffffffff0200000000428137ffff00210004000000220200000000014002000000110200\
         0000004240026f646400000000000000000000000000",
        encapsulation: Encapsulation::EthernetII,
        to: Node::BROADCAST,
        size: 33,
        sends: true,
    },
    Heard {
        name: "header alone, ethernet-ii",
        frame: "0200000000010200000000428137ffff001e0004000000220200000000014002000000110200\
         00000042400200000000000000000000000000000000",
        encapsulation: Encapsulation::EthernetII,
        to: STATION,
        size: 30,
        sends: true,
    },
    Heard {
        name: "header alone, not padded, ethernet-ii",
        frame: "0200000000010200000000428137ffff001e0004000000220200000000014002000000110200\
         000000424002",
        encapsulation: Encapsulation::EthernetII,
        to: STATION,
        size: 30,
        sends: false,
    },
    Heard {
        name: "padding of other bytes, ethernet-ii",
        frame: "0200000000010200000000428137ffff00220004000000220200000000014002000000110200\
         0000004240026576656eaa55aa",
        encapsulation: Encapsulation::EthernetII,
        to: STATION,
        size: 34,
        sends: false,
    },
];

#[test]
fn each_encapsulation_is_heard(rt: HostRuntime) -> Result<(), Fail> {
    are_heard(&rt, rt.alloc(), &ROWS)
}
