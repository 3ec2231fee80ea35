//! Which frames of an Ethernet segment are handed to the core of a port there, with literal values.

use crate::caller::CAME;
use ipx_ethernet::{
    Encapsulation, EthernetPort, FrameCounters, FrameDrop, FrameFault, stations_of,
};
use ipx_wire::{IpxFault, Network, Node};
use std::process::Abort;
use std::test::Fail;

/// A port on a segment of Ethernet II, with this network.
fn port_of(network: u32) -> EthernetPort {
    EthernetPort {
        own: Node([2, 0, 0, 0, 0, 1]),
        network: Network(network),
        encapsulation: Encapsulation::EthernetII,
    }
}

/// The frame of the caller, to all stations.
fn to_all() -> [u8; 44] {
    let mut bytes = CAME;
    bytes[..6].copy_from_slice(&[0xff; 6]);
    bytes
}

/// Checks that the packet after the header of the frame is handed to the core.
fn goes_on(rt: &impl Abort, port: EthernetPort, bytes: &[u8]) {
    assert!(rt; matches!(port.hear(bytes), Ok(packet) if packet == &bytes[14..44]));
}

#[test]
fn packets_that_go_to_the_core(rt: HostRuntime) -> Result<(), Fail> {
    // To the port itself, for any network.
    goes_on(&rt, port_of(0x22), &CAME);
    goes_on(&rt, port_of(0x33), &CAME);
    // To all, for this network.
    goes_on(&rt, port_of(0x22), &to_all());
    // To all, for the local network.
    let mut bytes = to_all();
    bytes[23] = 0;
    goes_on(&rt, port_of(0x33), &bytes);
    Ok(())
}

#[test]
fn frames_that_are_kept_from_the_core(rt: HostRuntime) -> Result<(), Fail> {
    let all = to_all();
    let other = port_of(0x33).hear(&all);
    assert!(rt; matches!(other, Err(FrameDrop::OtherNetwork(Network(0x22)))));
    let llc = EthernetPort {
        encapsulation: Encapsulation::Llc,
        ..port_of(0x22)
    };
    let kind = FrameDrop::OtherEncapsulation(Encapsulation::EthernetII, Encapsulation::Llc);
    assert!(rt; matches!(llc.hear(&CAME), Err(kept) if kept == kind));
    let sender = EthernetPort {
        own: Node([2, 0, 0, 0, 0, 0x42]),
        ..port_of(0x22)
    };
    let own = sender.hear(&CAME);
    assert!(rt; matches!(own, Err(FrameDrop::Unheard(FrameFault::OwnSource))));
    Ok(())
}

/// A frame that is kept from the core for a fault raises only the count of that fault.
#[test]
fn each_fault_has_its_count(rt: HostRuntime) -> Result<(), Fail> {
    let none = FrameCounters::new();
    let node = Node([2, 0, 0, 0, 0, 7]);
    let no_packet = FrameFault::NoPacket(IpxFault::Short(29));
    for (fault, wanted) in [
        (
            FrameFault::FrameShort(13),
            FrameCounters { broken: 1, ..none },
        ),
        (
            FrameFault::FrameLong(1515),
            FrameCounters { broken: 1, ..none },
        ),
        (
            FrameFault::SourceGroup(node),
            FrameCounters { broken: 1, ..none },
        ),
        (FrameFault::SourceZero, FrameCounters { broken: 1, ..none }),
        (
            FrameFault::FrameTruncated(46, 59),
            FrameCounters { broken: 1, ..none },
        ),
        (FrameFault::OwnSource, FrameCounters { own: 1, ..none }),
        (
            FrameFault::OtherStation(node),
            FrameCounters {
                not_ours: 1,
                ..none
            },
        ),
        (
            FrameFault::Tagged(0x8100),
            FrameCounters { tagged: 1, ..none },
        ),
        (
            FrameFault::OtherType(0x0800),
            FrameCounters {
                other_type: 1,
                ..none
            },
        ),
        (
            FrameFault::OtherLlc,
            FrameCounters {
                other_llc: 1,
                ..none
            },
        ),
        (
            no_packet,
            FrameCounters {
                no_packet: 1,
                ..none
            },
        ),
    ] {
        let mut counts = none;
        counts.count_drop(FrameDrop::Unheard(fault));
        assert_eq!(rt; counts, wanted);
    }
    Ok(())
}

/// So does one in another encapsulation, and one for another network.
#[test]
fn each_cause_has_its_count(rt: HostRuntime) -> Result<(), Fail> {
    let none = FrameCounters::new();
    for (came, own, wanted) in [
        (
            Encapsulation::Raw,
            Encapsulation::Llc,
            FrameCounters { in_raw: 1, ..none },
        ),
        (
            Encapsulation::Llc,
            Encapsulation::Raw,
            FrameCounters { in_llc: 1, ..none },
        ),
        (
            Encapsulation::Snap,
            Encapsulation::Raw,
            FrameCounters { in_snap: 1, ..none },
        ),
        (
            Encapsulation::EthernetII,
            Encapsulation::Raw,
            FrameCounters {
                in_ethernet_ii: 1,
                ..none
            },
        ),
    ] {
        let mut counts = none;
        counts.count_drop(FrameDrop::OtherEncapsulation(came, own));
        assert_eq!(rt; counts, wanted);
    }
    let mut counts = none;
    counts.count_drop(FrameDrop::OtherNetwork(Network(0x22)));
    counts.count_drop(FrameDrop::OtherNetwork(Network(0x33)));
    counts.count_handed_on();
    let wanted = FrameCounters {
        other_network: 2,
        handed_on: 1,
        ..none
    };
    assert_eq!(rt; counts, wanted);
    Ok(())
}

/// The text for a frame that is kept from the core.
#[test]
fn texts_of_kept_frames(rt: HostRuntime) -> Result<(), Fail> {
    for (kept, text) in [
        (
            FrameDrop::OtherNetwork(Network(0x22)),
            "a frame to all stations, with a packet for network 00000022",
        ),
        (
            FrameDrop::Unheard(FrameFault::FrameLong(1518)),
            "1518 bytes, a frame has at most 1514",
        ),
        (
            FrameDrop::Unheard(FrameFault::OwnSource),
            "source is this station",
        ),
    ] {
        assert_eq!(rt; format!(in rt.alloc(); "{kept}")?.as_str(), text);
    }
    Ok(())
}

/// A frame that a port sends to a node is from the port's own address, padded, and no longer than
/// allowed.
#[test]
fn a_frame_of_the_port(rt: HostRuntime) -> Result<(), Fail> {
    let port = port_of(0x22);
    let mut out = [0x5a; 61];
    let count = port.frame_into(Node([2, 0, 0, 0, 0, 7]), &CAME[14..], &mut out)?;
    assert_eq!(rt; count, 60);
    let head = [2, 0, 0, 0, 0, 7, 2, 0, 0, 0, 0, 1, 0x81, 0x37];
    assert_eq!(rt; &out[..14], head.as_slice());
    assert_eq!(rt; &out[14..44], &CAME[14..]);
    assert!(rt; out[44..60].iter().all(|byte| *byte == 0));
    assert_eq!(rt; out[60], 0x5a);
    let little = port.frame_into(Node::BROADCAST, &CAME[14..], &mut out[..59]);
    assert_eq!(rt; little, Err(FrameFault::NoRoom(60, 59)));
    let none = port.frame_into(Node::BROADCAST, &CAME[14..43], &mut out);
    assert!(rt; matches!(none, Err(FrameFault::NoPacket(_))));
    Ok(())
}

/// The stations of a frame, whatever it holds; and of bytes that are no frame.
#[test]
fn stations_of_frames(rt: HostRuntime) -> Result<(), Fail> {
    let both = (Node([2, 0, 0, 0, 0, 1]), Node([2, 0, 0, 0, 0, 0x42]));
    assert!(rt; matches!(stations_of(&CAME), Ok(stations) if stations == both));
    assert!(rt; matches!(stations_of(&CAME[..14]), Ok(stations) if stations == both));
    assert!(rt; matches!(stations_of(&CAME[..13]), Err(FrameFault::FrameShort(13))));
    assert!(rt; matches!(stations_of(&[2; 1515]), Err(FrameFault::FrameLong(1515))));
    Ok(())
}
