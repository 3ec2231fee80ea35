//! Sockets of this machine: a port, its two remotes, and an unknown sender.

use crate::fixture::{FIRST, PACKET, PORT, SECOND, ethernet, frame};
use ipx_carrier::{DeviceFault, PacketSent, PortDriver, PortDriverFilters};
use ipx_ethernet_ports::{EndSockets, EthernetPorts, EthernetSockets, FrameCame, Remotes};
use ipx_tunnels::Tunnel;
use ipx_wire::Node;
use std::alloc::Global;
use std::io;
use std::net::{Ipv4Addr, Net, SocketAddrV4};
use std::process::Abort;
use std::test::Fail;

/// An address that nothing else uses.
fn place(udp_port: u16) -> SocketAddrV4 {
    SocketAddrV4::new(Ipv4Addr::new(127, 0, 0, 43), udp_port)
}

/// Sockets of one port.
fn bound<R: Net>(
    rt: &R,
    alloc: Global,
    at: SocketAddrV4,
    ends: &[SocketAddrV4],
) -> io::Result<EthernetSockets> {
    let mut sockets = EthernetSockets::new(alloc);
    let ends = ends.to_vec(alloc)?;
    sockets.bind(rt, at, Remotes::Fixed(ends), Tunnel::Plain)?;
    Ok(sockets)
}

/// Asks sockets until a frame comes, or the tries are used up.
fn next_frame(
    sockets: &mut EthernetSockets,
    room: &mut [u8],
) -> Result<Option<FrameCame>, DeviceFault> {
    for _ in 0..100_000_u32 {
        sockets.set_ready(0);
        let came = sockets.receive(0, room)?;
        if came.is_some() {
            return Ok(came);
        }
    }
    Ok(None)
}

/// Asks ports until something comes for their core, or is kept from it.
fn next_packet(
    ethernet: &mut EthernetPorts<EthernetSockets>,
    room: &mut [u8],
) -> Result<Option<usize>, DeviceFault> {
    let filtered = ethernet.filtered();
    for _ in 0..100_000_u32 {
        ethernet.set_ready(0);
        let came = ethernet.receive(0, room)?;
        if came.is_some() || ethernet.filtered() != filtered {
            return Ok(came);
        }
    }
    Ok(None)
}

#[test]
fn frames_over_sockets(rt: HostRuntime) -> Result<(), Fail> {
    let alloc = rt.alloc();
    // The port, its remotes 0 and 1, and an unknown sender.
    let at = place(20_920);
    let mut first = bound(&rt, alloc, place(20_921), &[at])?;
    let mut second = bound(&rt, alloc, place(20_922), &[at])?;
    let mut unknown = bound(&rt, alloc, place(20_923), &[at])?;
    let ends = bound(&rt, alloc, at, &[place(20_921), place(20_922)])?;
    let mut ethernet = ethernet(alloc, ends)?;
    let mut room = [0; 1536];
    // What the first station sends to all is forwarded to the second remote, and the core gets it.
    assert!(rt; first.send(0, 0, &frame(Node::BROADCAST, FIRST)).is_ok());
    assert!(rt; next_packet(&mut ethernet, &mut room)? == Some(30));
    assert_eq!(rt; &room[..30], PACKET.as_slice());
    assert!(rt; next_frame(&mut second, &mut room)? == Some(FrameCame { end: 0, size: 44 }));
    assert_eq!(rt; &room[..44], frame(Node::BROADCAST, FIRST).as_slice());
    // What the unknown sender sends is dropped.
    assert!(rt; unknown.send(0, 0, &frame(PORT.own, SECOND)).is_ok());
    assert!(rt; next_packet(&mut ethernet, &mut room)? == None);
    assert_eq!(rt; ethernet.sockets().unknown_senders(), 1);
    assert!(rt; ethernet.sockets().last_unknown() == Some(place(20_923)));
    assert_eq!(rt; ethernet.filtered(), 1);
    // A packet of the core is sent to the remote of its station, padded.
    assert!(rt;
        matches!(
            ethernet.send(0, FIRST, &PACKET),
            Ok(PacketSent::Transmitted(1))
        )
    );
    assert!(rt; next_frame(&mut first, &mut room)? == Some(FrameCame { end: 0, size: 60 }));
    assert_eq!(rt; &room[..44], frame(FIRST, PORT.own).as_slice());
    // Nothing else arrived anywhere.
    assert!(rt; first.receive(0, &mut room)? == None);
    assert!(rt; second.receive(0, &mut room)? == None);
    assert!(rt; unknown.receive(0, &mut room)? == None);
    assert_eq!(rt; ethernet.sockets().sent(), 2);
    assert_eq!(rt; ethernet.sockets().failures(), 0);
    assert_eq!(rt; ethernet.sockets().faults(), 0);
    Ok(())
}

/// A port is asked only if it is marked, and one where nothing waits loses its mark.
#[test]
fn a_port_without_a_mark_is_not_asked(rt: HostRuntime) -> Result<(), Fail> {
    let alloc = rt.alloc();
    let (here, there) = (place(20_929), place(20_930));
    let mut end = bound(&rt, alloc, there, &[here])?;
    let mut sockets = bound(&rt, alloc, here, &[there])?;
    let mut room = [0; 1536];
    assert!(rt; sockets.marks().is_marked(0));
    assert!(rt; sockets.receive(0, &mut room)? == None);
    assert!(rt; !sockets.marks().is_any_marked());
    assert!(rt; end.send(0, 0, b"abc").is_ok());
    assert!(rt; sockets.receive(0, &mut room)? == None);
    assert!(rt; next_frame(&mut sockets, &mut room)? == Some(FrameCame { end: 0, size: 3 }));
    assert!(rt; sockets.marks().is_marked(0));
    Ok(())
}

/// The system refuses what no UDP datagram can hold, which is counted.
#[test]
fn a_frame_that_the_system_refuses(rt: HostRuntime) -> Result<(), Fail> {
    let alloc = rt.alloc();
    let mut sockets = bound(&rt, alloc, place(20_924), &[place(20_925)])?;
    let bytes = vec![in alloc; 0; 70_000]?;
    assert!(rt; matches!(sockets.send(0, 0, &bytes), Err(DeviceFault)));
    assert_eq!(rt; sockets.failures(), 1);
    assert_eq!(rt; sockets.sent(), 0);
    Ok(())
}

#[test]
fn a_place_in_use_is_refused(rt: HostRuntime) -> Result<(), Fail> {
    let alloc = rt.alloc();
    let mut sockets = bound(&rt, alloc, place(20_926), &[])?;
    let ends = Vec::new(alloc);
    assert!(rt;
        sockets
            .bind(&rt, place(20_926), Remotes::Fixed(ends), Tunnel::Plain)
            .is_err()
    );
    assert_eq!(rt; sockets.ports(), 1);
    assert!(rt; sockets.descriptor(0).is_some());
    assert!(rt; sockets.descriptor(1).is_none());
    Ok(())
}

/// Memory is refused as a port is bound: no socket stays open.
#[test]
fn refused_port(rt: HostRuntime) -> Result<(), Fail> {
    let alloc = rt.alloc();
    let ends = [place(20_928)];
    let mut sockets = match bound(&rt, alloc, place(20_927), &ends) {
        Ok(sockets) => sockets,
        Err(_) => bound(&rt, alloc, place(20_927), &ends)?,
    };
    assert_eq!(rt; sockets.ends(0), 1);
    assert!(rt; sockets.send(0, 0, b"abc").is_ok());
    Ok(())
}
