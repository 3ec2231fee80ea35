//! Which frames are forwarded from one remote to which others, and what is counted.

use crate::switch_caller::give;
use crate::switch_fixture::{CAME, FIRST, PORT, SECOND, THIRD, arp, frame};
use ipx_ethernet::{
    Egress, Encapsulation, EthernetPort, FrameCounters, FrameDrop, FrameFault, Switch,
};
use ipx_wire::{Network, Node};
use std::test::Fail;

/// What is not IPX is forwarded too, and the core gets none of it.
#[test]
fn other_protocols_go_on(rt: HostRuntime) -> Result<(), Fail> {
    let mut switch = Switch::new(rt.alloc(), PORT, true)?;
    assert_eq!(rt;
        give(&mut switch, 2, &arp(THIRD), 0),
        ([true, true, false], None)
    );
    // Its sender is learned from it.
    assert_eq!(rt; switch.egress_for(THIRD, 1), Egress::ToOne(2));
    let wanted = FrameCounters {
        other_type: 1,
        ..FrameCounters::new()
    };
    assert_eq!(rt; switch.counts(), wanted);
    assert_eq!(rt; switch.passed(), 1);
    Ok(())
}

/// A broadcast frame goes to the others and to the core. If its packet is for another network, it
/// goes only to the others.
#[test]
fn to_all_stations(rt: HostRuntime) -> Result<(), Fail> {
    let all = frame(Node::BROADCAST, FIRST);
    let mut switch = Switch::new(rt.alloc(), PORT, true)?;
    assert_eq!(rt;
        give(&mut switch, 0, &all, 0),
        ([false, true, true], Some(30))
    );
    let port = EthernetPort {
        network: Network(0x33),
        ..PORT
    };
    let mut other = Switch::new(rt.alloc(), port, true)?;
    let (onward, packet) = other.hear(0, &all, 0);
    assert_eq!(rt; onward, Egress::ToOthers(0));
    assert!(rt; matches!(packet, Err(FrameDrop::OtherNetwork(Network(0x22)))));
    assert_eq!(rt; other.counts().other_network, 1);
    assert_eq!(rt; other.counts().handed_on, 0);
    Ok(())
}

/// A frame of the port's own that a remote sends back is not forwarded, and changes only its count.
#[test]
fn own_frames_come_back(rt: HostRuntime) -> Result<(), Fail> {
    let mut switch = Switch::new(rt.alloc(), PORT, true)?;
    let own = frame(Node::BROADCAST, PORT.own);
    let (onward, packet) = switch.hear(1, &own, 0);
    assert_eq!(rt; onward, Egress::Nowhere);
    assert!(rt; matches!(packet, Err(FrameDrop::Unheard(FrameFault::OwnSource))));
    assert!(rt; switch.stations().is_empty());
    let wanted = FrameCounters {
        own: 1,
        ..FrameCounters::new()
    };
    assert_eq!(rt; switch.counts(), wanted);
    assert_eq!(rt; switch.passed(), 0);
    Ok(())
}

/// Frames between two stations at one remote stay there.
#[test]
fn both_behind_one_end(rt: HostRuntime) -> Result<(), Fail> {
    let mut switch = Switch::new(rt.alloc(), PORT, true)?;
    give(&mut switch, 1, &frame(SECOND, FIRST), 0);
    assert_eq!(rt;
        give(&mut switch, 1, &frame(FIRST, SECOND), 0),
        ([false; 3], None)
    );
    Ok(())
}

/// IPX in another encapsulation is forwarded as it came, and is counted by its encapsulation.
#[test]
fn another_encapsulation(rt: HostRuntime) -> Result<(), Fail> {
    let port = EthernetPort {
        encapsulation: Encapsulation::Llc,
        ..PORT
    };
    let mut switch = Switch::new(rt.alloc(), port, true)?;
    let all = frame(Node::BROADCAST, FIRST);
    let (onward, packet) = switch.hear(2, &all, 0);
    assert_eq!(rt; onward, Egress::ToOthers(2));
    let kept = FrameDrop::OtherEncapsulation(Encapsulation::EthernetII, Encapsulation::Llc);
    assert!(rt; matches!(packet, Err(why) if why == kept));
    let text = format!(in rt.alloc(); "{kept}")?;
    let wanted = "frames of another encapsulation: ethernet-ii, this port has 802.2";
    assert_eq!(rt; text.as_str(), wanted);
    assert_eq!(rt; switch.counts().in_ethernet_ii, 1);
    Ok(())
}

/// A frame with a tag of 802.1Q, and zeros after it.
fn long_frame() -> [u8; 1523] {
    let mut bytes = [0; 1523];
    bytes[..44].copy_from_slice(&frame(SECOND, FIRST));
    bytes[12..18].copy_from_slice(&[0x81, 0, 0, 7, 0x81, 0x37]);
    bytes
}

/// A full frame with a tag is forwarded, and its sender is learned. The core gets no frame of that
/// size.
#[test]
fn a_tagged_frame_goes_on(rt: HostRuntime) -> Result<(), Fail> {
    let bytes = long_frame();
    let mut switch = Switch::new(rt.alloc(), PORT, true)?;
    let (onward, packet) = switch.hear(0, &bytes[..1518], 5);
    assert_eq!(rt; onward, Egress::ToOthers(0));
    assert!(rt; matches!(packet, Err(FrameDrop::Unheard(FrameFault::FrameLong(1518)))));
    assert_eq!(rt; switch.egress_for(FIRST, 5), Egress::ToOne(0));
    let wanted = FrameCounters {
        broken: 1,
        ..FrameCounters::new()
    };
    assert_eq!(rt; switch.counts(), wanted);
    assert_eq!(rt; switch.passed(), 1);
    Ok(())
}

/// The fewest and the most bytes that are forwarded, and the most that the core accepts.
#[test]
fn sizes_that_go_on(rt: HostRuntime) -> Result<(), Fail> {
    let bytes = long_frame();
    let mut switch = Switch::new(rt.alloc(), PORT, true)?;
    assert_eq!(rt; give(&mut switch, 1, &bytes[..13], 0), ([false; 3], None));
    assert!(rt; switch.stations().is_empty());
    for size in [14, 1514, 1522] {
        assert_eq!(rt;
            give(&mut switch, 0, &bytes[..size], 0),
            ([false, true, true], None)
        );
    }
    assert_eq!(rt; switch.passed(), 3);
    assert_eq!(rt; give(&mut switch, 2, &bytes, 0), ([false; 3], None));
    assert_eq!(rt; switch.egress_for(FIRST, 0), Egress::ToOne(0));
    assert_eq!(rt; switch.passed(), 3);
    // In a frame for the port itself the core accepts at most 1,514 bytes.
    let mut own = [0; 1515];
    own[..44].copy_from_slice(&CAME);
    assert_eq!(rt;
        give(&mut switch, 0, &own[..1514], 0),
        ([false; 3], Some(30))
    );
    let (_, packet) = switch.hear(0, &own, 0);
    assert!(rt; matches!(packet, Err(FrameDrop::Unheard(FrameFault::FrameLong(1515)))));
    Ok(())
}

/// What is not a frame is not forwarded, and no station is learned from it: too short, too long, or
/// from a group.
#[test]
fn what_is_no_frame(rt: HostRuntime) -> Result<(), Fail> {
    let mut switch = Switch::new(rt.alloc(), PORT, true)?;
    assert_eq!(rt; give(&mut switch, 0, &CAME[..13], 0), ([false; 3], None));
    let long = long_frame();
    assert_eq!(rt; give(&mut switch, 0, &long, 0), ([false; 3], None));
    assert!(rt; switch.stations().is_empty());
    // A frame from a group is forwarded, and no station is learned from it.
    let group = frame(Node::BROADCAST, Node([3, 0, 0, 0, 0, 0x42]));
    assert_eq!(rt;
        give(&mut switch, 0, &group, 0),
        ([false, true, true], None)
    );
    let zero = frame(Node::BROADCAST, Node([0; 6]));
    assert_eq!(rt; give(&mut switch, 0, &zero, 0), ([false, true, true], None));
    assert!(rt; switch.stations().is_empty());
    assert_eq!(rt; switch.counts().broken, 4);
    Ok(())
}
