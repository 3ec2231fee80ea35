//! Memory is refused as a frame is put, and as one is received.

use crate::fixture::{FIRST, PACKET, PORT, frame, switches, three_ends};
use ipx_carrier::PortDriver;
use ipx_ethernet_ports::{EndSockets, EthernetPorts};
use std::test::Fail;

/// If a frame can't be put, those that wait are as they were. If one that comes can't be recorded,
/// the sockets fail, and that is counted.
#[test]
fn refused_frames(rt: HostRuntime) -> Result<(), Fail> {
    let alloc = rt.alloc();
    let mut ends = match three_ends(alloc) {
        Ok(ends) => ends,
        Err(_) => three_ends(alloc)?,
    };
    if ends.put(0, 0, &frame(PORT.own, FIRST)).is_err() {
        ends.put(0, 0, &frame(PORT.own, FIRST))?;
    }
    let all = match switches(alloc) {
        Ok(all) => all,
        Err(_) => switches(alloc)?,
    };
    let mut ethernet = EthernetPorts::new(ends, all);
    let mut room = [0xaa; 1536];
    let came = ethernet.receive(0, &mut room);
    assert!(rt; came.is_ok());
    if let Ok(Some(count)) = came {
        assert_eq!(rt; count, 30);
        assert_eq!(rt; &room[..30], PACKET.as_slice());
        assert_eq!(rt; ethernet.sockets().failures(), 0);
    } else {
        assert_eq!(rt; room, [0xaa; 1536]);
        assert_eq!(rt; ethernet.sockets().failures(), 1);
    }
    assert_eq!(rt; ethernet.failures(), 0);
    assert!(rt; matches!(ethernet.receive(0, &mut room), Ok(None)));
    Ok(())
}
