//! Packets of the core, and the remotes that their frames are sent to.

use crate::fixture::{FIRST, PACKET, PORT, SECOND, ethernet, frame, three_ends, took};
use ipx_carrier::{PacketSent, PortDriver};
use ipx_wire::Node;
use std::test::Fail;

/// The frame of a packet, padded to 60.
fn padded(to: Node) -> [u8; 60] {
    let mut bytes = [0; 60];
    bytes[..44].copy_from_slice(&frame(to, PORT.own));
    bytes
}

/// A frame for a station that is not known goes to each remote. One for a known station goes only
/// to its remote, for five minutes. A broadcast goes to each.
#[test]
fn packets_to_stations(rt: HostRuntime) -> Result<(), Fail> {
    let alloc = rt.alloc();
    let mut ends = three_ends(alloc)?;
    ends.put(0, 1, &frame(PORT.own, SECOND))?;
    let mut ethernet = ethernet(alloc, ends)?;
    ethernet.set_time(1000);
    let mut room = [0; 1536];
    assert!(rt; matches!(ethernet.receive(0, &mut room), Ok(Some(30))));
    assert!(rt;
        matches!(
            ethernet.send(0, FIRST, &PACKET),
            Ok(PacketSent::Transmitted(1))
        )
    );
    assert_eq!(rt; ethernet.sockets().went().len(), 3);
    assert!(rt; took(ethernet.sockets(), &[0, 1, 2], &padded(FIRST)));
    assert!(rt;
        matches!(
            ethernet.send(0, SECOND, &PACKET),
            Ok(PacketSent::Transmitted(1))
        )
    );
    assert_eq!(rt; ethernet.sockets().went().len(), 4);
    assert!(rt; took(ethernet.sockets(), &[1], &padded(SECOND)));
    ethernet.set_time(301_000);
    assert!(rt;
        matches!(
            ethernet.send(0, SECOND, &PACKET),
            Ok(PacketSent::Transmitted(1))
        )
    );
    assert!(rt; took(ethernet.sockets(), &[0, 1, 2], &padded(SECOND)));
    assert!(rt;
        matches!(
            ethernet.send(0, Node::BROADCAST, &PACKET),
            Ok(PacketSent::Transmitted(1))
        )
    );
    assert_eq!(rt; ethernet.sockets().went().len(), 10);
    assert!(rt; took(ethernet.sockets(), &[0, 1, 2], &padded(Node::BROADCAST)));
    Ok(())
}

/// A packet that does not fit a frame is not sent, and the switch counts it.
#[test]
fn bytes_that_are_no_packet(rt: HostRuntime) -> Result<(), Fail> {
    let alloc = rt.alloc();
    let mut ethernet = ethernet(alloc, three_ends(alloc)?)?;
    assert!(rt;
        matches!(
            ethernet.send(0, FIRST, &PACKET[..29]),
            Ok(PacketSent::Unmapped)
        )
    );
    assert_eq!(rt; ethernet.switches()[0].refused(), 1);
    assert_eq!(rt; ethernet.sockets().went().len(), 0);
    assert_eq!(rt; ethernet.failures(), 0);
    Ok(())
}
