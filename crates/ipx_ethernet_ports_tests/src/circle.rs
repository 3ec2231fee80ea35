//! What becomes of a frame from one of three remotes: it is forwarded to the others, and the core
//! gets what is for it.

use crate::fixture::{FIRST, PACKET, PORT, SECOND, ethernet, frame, three_ends, took};
use ipx_carrier::{PortDriver, PortDriverFilters};
use ipx_ethernet_ports::EndSockets;
use ipx_wire::Node;
use std::test::Fail;

/// A frame to a station that is not known goes to both others. Its answer goes only to the remote
/// of the first station. Nothing is sent back to the remote that it came from.
#[test]
fn frames_between_stations(rt: HostRuntime) -> Result<(), Fail> {
    let alloc = rt.alloc();
    let mut ends = three_ends(alloc)?;
    ends.put(0, 0, &frame(SECOND, FIRST))?;
    ends.put(0, 1, &frame(FIRST, SECOND))?;
    let mut ethernet = ethernet(alloc, ends)?;
    ethernet.set_time(1000);
    let mut room = [0xaa; 1536];
    assert!(rt; matches!(ethernet.receive(0, &mut room), Ok(None)));
    assert_eq!(rt; ethernet.sockets().went().len(), 2);
    assert!(rt; took(ethernet.sockets(), &[1, 2], &frame(SECOND, FIRST)));
    assert!(rt; matches!(ethernet.receive(0, &mut room), Ok(None)));
    assert_eq!(rt; ethernet.sockets().went().len(), 3);
    assert!(rt; took(ethernet.sockets(), &[0], &frame(FIRST, SECOND)));
    // Both were kept from the core, whose buffer is as it was, and now nothing waits.
    assert_eq!(rt; ethernet.filtered(), 2);
    assert_eq!(rt; room, [0xaa; 1536]);
    assert!(rt; matches!(ethernet.receive(0, &mut room), Ok(None)));
    assert_eq!(rt; ethernet.filtered(), 2);
    Ok(())
}

/// The core gets the packet of a frame that is for the port, and no remote does.
#[test]
fn a_packet_for_the_core(rt: HostRuntime) -> Result<(), Fail> {
    let alloc = rt.alloc();
    let mut ends = three_ends(alloc)?;
    ends.put(0, 0, &frame(PORT.own, FIRST))?;
    ends.put(0, 0, &frame(PORT.own, FIRST))?;
    let mut ethernet = ethernet(alloc, ends)?;
    let mut room = [0xaa; 1536];
    assert!(rt; matches!(ethernet.receive(0, &mut room), Ok(Some(30))));
    assert_eq!(rt; &room[..30], PACKET.as_slice());
    assert_eq!(rt; room[30], 0xaa);
    // What doesn't fit the buffer is lost.
    let mut small = [0xaa; 12];
    assert!(rt; matches!(ethernet.receive(0, &mut small), Ok(Some(12))));
    assert_eq!(rt; small.as_slice(), &PACKET[..12]);
    assert_eq!(rt; ethernet.sockets().went().len(), 0);
    assert_eq!(rt; ethernet.filtered(), 0);
    Ok(())
}

/// The port uses Ethernet II. A packet in 802.2 is kept from the core, and otherwise only the known
/// stations change.
#[test]
fn another_encapsulation(rt: HostRuntime) -> Result<(), Fail> {
    let alloc = rt.alloc();
    let mut bytes = [0; 47];
    bytes[..14].copy_from_slice(&[2, 0, 0, 0, 0, 1, 2, 0, 0, 0, 0, 0x42, 0, 33]);
    bytes[14..17].copy_from_slice(&[0xe0, 0xe0, 3]);
    bytes[17..].copy_from_slice(&PACKET);
    let mut ends = three_ends(alloc)?;
    ends.put(0, 2, &bytes)?;
    let mut ethernet = ethernet(alloc, ends)?;
    let mut room = [0xaa; 1536];
    assert!(rt; matches!(ethernet.receive(0, &mut room), Ok(None)));
    assert_eq!(rt; ethernet.filtered(), 1);
    assert_eq!(rt; ethernet.switches()[0].counts().in_llc, 1);
    assert_eq!(rt; ethernet.switches()[0].counts().handed_on, 0);
    assert_eq!(rt; ethernet.switches()[0].stations().len(), 1);
    assert_eq!(rt; ethernet.sockets().went().len(), 0);
    assert_eq!(rt; room, [0xaa; 1536]);
    Ok(())
}

/// One remote can't be reached: the third one and the core still get the broadcast.
#[test]
fn an_end_that_fails(rt: HostRuntime) -> Result<(), Fail> {
    let alloc = rt.alloc();
    let mut ends = three_ends(alloc)?;
    ends.break_end(0, 1);
    ends.put(0, 0, &frame(Node::BROADCAST, FIRST))?;
    let mut ethernet = ethernet(alloc, ends)?;
    let mut room = [0; 1536];
    assert!(rt; matches!(ethernet.receive(0, &mut room), Ok(Some(30))));
    assert_eq!(rt; ethernet.sockets().went().len(), 1);
    assert!(rt; took(ethernet.sockets(), &[2], &frame(Node::BROADCAST, FIRST)));
    assert_eq!(rt; ethernet.sockets().failures(), 1);
    assert_eq!(rt; ethernet.failures(), 0);
    Ok(())
}

/// What comes from a remote that does not exist is from an unknown sender: nobody gets it.
#[test]
fn a_frame_of_no_end(rt: HostRuntime) -> Result<(), Fail> {
    let alloc = rt.alloc();
    let mut ends = three_ends(alloc)?;
    ends.put(0, 3, &frame(Node::BROADCAST, FIRST))?;
    let mut ethernet = ethernet(alloc, ends)?;
    let mut room = [0xaa; 1536];
    assert!(rt; matches!(ethernet.receive(0, &mut room), Ok(None)));
    assert_eq!(rt; room, [0xaa; 1536]);
    assert_eq!(rt; ethernet.filtered(), 1);
    assert_eq!(rt; ethernet.sockets().filtered(), 1);
    assert_eq!(rt; ethernet.sockets().went().len(), 0);
    assert_eq!(rt; ethernet.switches()[0].stations().len(), 0);
    Ok(())
}
