//! The port's own frames, and the remotes that they are sent to.

use crate::switch_caller::give;
use crate::switch_fixture::{CAME, FIRST, PORT, SECOND, frame};
use ipx_ethernet::{Egress, FrameFault, Switch};
use ipx_wire::Node;
use std::test::Fail;

/// A packet of 30 bytes from the port to the first station.
const PACKET: [u8; 30] = [
    0xff, 0xff, 0, 0x1e, 0, 4, 0, 0, 0, 0x22, 2, 0, 0, 0, 0, 0x42, 0x40, 2, 0, 0, 0, 0x11, 2, 0, 0,
    0, 0, 1, 0x40, 2,
];

/// A frame goes to the remote of a known station, and to each remote if the station is not known. A
/// broadcast always goes to each.
#[test]
fn ends_of_the_ports_frames(rt: HostRuntime) -> Result<(), Fail> {
    let mut switch = Switch::new(rt.alloc(), PORT, true)?;
    give(&mut switch, 1, &frame(SECOND, FIRST), 1000);
    let mut out = [0xaa; 64];
    assert_eq!(rt;
        switch.frame_into(FIRST, &PACKET, 1010, &mut out),
        Ok((Egress::ToOne(1), 60))
    );
    // To the station, from the port, Ethernet II, the packet, zeros up to 60, and no more.
    assert_eq!(rt;
        &out[..14],
        [2, 0, 0, 0, 0, 0x42, 2, 0, 0, 0, 0, 1, 0x81, 0x37].as_slice()
    );
    assert_eq!(rt; &out[14..44], PACKET.as_slice());
    assert_eq!(rt; &out[44..60], [0; 16].as_slice());
    assert_eq!(rt; &out[60..], [0xaa; 4].as_slice());
    assert_eq!(rt;
        switch.frame_into(SECOND, &PACKET, 1010, &mut out),
        Ok((Egress::ToAll, 60))
    );
    // The broadcast address is never learned as a station's.
    give(&mut switch, 2, &frame(FIRST, Node::BROADCAST), 1020);
    assert_eq!(rt;
        switch.frame_into(Node::BROADCAST, &PACKET, 1030, &mut out),
        Ok((Egress::ToAll, 60))
    );
    assert_eq!(rt; switch.egress_for(Node::BROADCAST, 1030), Egress::ToAll);
    assert_eq!(rt; switch.refused(), 0);
    Ok(())
}

/// A packet that does not fit a frame is counted, and nothing else changes.
#[test]
fn packets_that_no_frame_carries(rt: HostRuntime) -> Result<(), Fail> {
    let mut switch = Switch::new(rt.alloc(), PORT, true)?;
    give(&mut switch, 0, &CAME, 1000);
    let mut out = [0xaa; 59];
    assert_eq!(rt;
        switch.frame_into(FIRST, &PACKET, 1010, &mut out),
        Err(FrameFault::NoRoom(60, 59))
    );
    assert_eq!(rt; out, [0xaa; 59]);
    assert_eq!(rt; switch.refused(), 1);
    assert_eq!(rt; switch.stations().len(), 1);
    assert_eq!(rt; switch.counts().handed_on, 1);
    assert_eq!(rt; switch.egress_for(FIRST, 1010), Egress::ToOne(0));
    Ok(())
}
