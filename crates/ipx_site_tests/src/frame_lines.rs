//! What a router logs of frames that show a mistake on the segment of an Ethernet port.

use ipx_ethernet::Encapsulation;
use ipx_site::{EncapsulationLine, FrameLine};
use ipx_wire::{Network, Node};
use std::net::{Ipv4Addr, SocketAddrV4};
use std::test::Fail;

/// Two remotes.
fn near() -> SocketAddrV4 {
    SocketAddrV4::new(Ipv4Addr::new(127, 0, 0, 1), 24001)
}

fn far() -> SocketAddrV4 {
    SocketAddrV4::new(Ipv4Addr::new(10, 8, 0, 7), 4789)
}

const ROUTER: Node = Node([0, 0, 0x1b, 0x2c, 0x3d, 0x4e]);

#[test]
fn lines_of_frames(rt: HostRuntime) -> Result<(), Fail> {
    let rows = [
        (
            FrameLine::OtherNetwork {
                router: ROUTER,
                place: near(),
                claimed: Network(0x23),
                own: Network(0xd05b),
            },
            "router 00001b2c3d4e at 127.0.0.1:24001 says that this network is 00000023, this port \
             has 0000d05b",
            "change one of them",
        ),
        (
            FrameLine::TwoPlaces {
                station: Node([0x52, 0x54, 0, 0, 0, 1]),
                before: near(),
                after: far(),
            },
            "station 525400000001 is at 127.0.0.1:24001 and at 10.8.0.7:4789 within a second",
            "two machines have one address, or two links lead to one network",
        ),
        (
            FrameLine::OwnAddress {
                place: near(),
                own: Node([2, 0, 0, 0, 0, 0x22]),
            },
            "127.0.0.1:24001 sends frames from this router's own address 020000000022",
            "another machine has it, or a link leads back",
        ),
    ];
    for (line, text, advice) in rows {
        assert_eq!(rt; format!(in rt.alloc(); "{line}")?.as_str(), text);
        assert_eq!(rt; line.advice(), advice);
    }
    Ok(())
}

#[test]
fn lines_of_encapsulations(rt: HostRuntime) -> Result<(), Fail> {
    let line = EncapsulationLine {
        came: Encapsulation::Raw,
        own: Encapsulation::Llc,
        count: 3,
        last: Some((ROUTER, near())),
    };
    let text = "frames of another encapsulation: 802.3, this port has 802.2 (3 since the start), \
                last from 00001b2c3d4e at 127.0.0.1:24001";
    assert_eq!(rt; format!(in rt.alloc(); "{line}")?.as_str(), text);
    let line = EncapsulationLine { last: None, ..line };
    let text = "frames of another encapsulation: 802.3, this port has 802.2 (3 since the start)";
    assert_eq!(rt; format!(in rt.alloc(); "{line}")?.as_str(), text);
    Ok(())
}
