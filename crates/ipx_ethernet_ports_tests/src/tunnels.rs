//! Ports whose frames go by VXLAN and L2TPv3, over sockets of this machine. The other sides are plain ports, which
//! send and receive datagrams as they are.

use ipx_carrier::DeviceFault;
use ipx_ethernet_ports::{EndSockets, EthernetSockets, FrameCame, Remotes, TunnelDrops};
use ipx_tunnels::{Cookie, Session, Tunnel, TunnelFault, Vni};
use std::alloc::Global;
use std::io;
use std::net::{Ipv4Addr, Net, SocketAddr, SocketAddrV4};
use std::process::Abort;
use std::test::Fail;

const VXLAN: Tunnel = Tunnel::Vxlan(Vni([0, 0, 42]));

const SESSION: Tunnel = Tunnel::L2tpv3(Session {
    id: 1,
    peer_id: 2,
    cookie: Cookie::Short([0xa1, 0xa2, 0xa3, 0xa4]),
    peer_cookie: Cookie::Long([0xb1, 0xb2, 0xb3, 0xb4, 0xb5, 0xb6, 0xb7, 0xb8]),
    sublayer: false,
});

/// An address that nothing else uses.
fn place(last: u8, udp_port: u16) -> SocketAddrV4 {
    SocketAddrV4::new(Ipv4Addr::new(127, 0, 0, last), udp_port)
}

/// Sockets of one port.
fn bound<R: Net>(
    rt: &R,
    alloc: Global,
    at: SocketAddrV4,
    ends: &[SocketAddrV4],
    tunnel: Tunnel,
) -> io::Result<EthernetSockets> {
    let mut sockets = EthernetSockets::new(alloc);
    let ends = ends.to_vec(alloc)?;
    sockets.bind(rt, at, Remotes::Fixed(ends), tunnel)?;
    Ok(sockets)
}

/// Asks sockets until a datagram comes, or the tries are used up.
fn next_frame(
    sockets: &mut EthernetSockets,
    room: &mut [u8],
) -> Result<Option<FrameCame>, DeviceFault> {
    let before = sockets.filtered();
    for _ in 0..100_000_u32 {
        sockets.set_ready(0);
        let came = sockets.receive(0, room)?;
        if came.is_some() || sockets.filtered() != before {
            return Ok(came);
        }
    }
    Ok(None)
}

/// Checks that what a tunnel sends arrives so at the other side.
fn sends(
    rt: &impl Abort,
    port: &mut EthernetSockets,
    peer: &mut EthernetSockets,
    frame: &[u8],
    datagram: &[u8],
) -> Result<(), Fail> {
    let mut room = [0; 2048];
    assert!(rt; port.send(0, 0, frame).is_ok());
    let came = next_frame(peer, &mut room)?;
    assert!(rt;
        came == Some(FrameCame {
            end: 0,
            size: datagram.len()
        })
    );
    assert_eq!(rt; &room[..datagram.len()], datagram);
    Ok(())
}

/// Checks that a datagram of the other side is this frame, or none.
fn takes(
    rt: &impl Abort,
    port: &mut EthernetSockets,
    peer: &mut EthernetSockets,
    datagram: &[u8],
    frame: Option<&[u8]>,
) -> Result<(), Fail> {
    let mut room = [0x5a; 64];
    assert!(rt; peer.send(0, 0, datagram).is_ok());
    let came = next_frame(port, &mut room)?;
    match frame {
        Some(frame) => {
            assert!(rt;
                came == Some(FrameCame {
                    end: 0,
                    size: frame.len()
                })
            );
            assert_eq!(rt; &room[..frame.len()], frame);
        }
        None => {
            assert!(rt; came == None);
            assert!(rt; room.iter().all(|byte| *byte == 0x5a));
        }
    }
    Ok(())
}

/// Checks the counts of a port, and the last datagram without a frame.
fn has_dropped(
    rt: &impl Abort,
    port: &EthernetSockets,
    mut counts: TunnelDrops,
    from: SocketAddrV4,
    fault: TunnelFault,
) {
    let Some(drops) = port.tunnel_drops(0) else {
        panic!(rt; "no tunnel");
    };
    let Some(last) = drops.last else {
        panic!(rt; "nothing was dropped");
    };
    assert!(rt; last.from == SocketAddr::V4(from));
    assert!(rt; last.fault == fault);
    counts.last = drops.last;
    assert!(rt; drops == counts);
}

#[test]
fn frames_by_vxlan(rt: HostRuntime) -> Result<(), Fail> {
    let alloc = rt.alloc();
    let (here, there) = (place(44, 20_950), place(45, 20_951));
    let mut port = bound(&rt, alloc, here, &[there], VXLAN)?;
    let mut peer = bound(&rt, alloc, there, &[here], Tunnel::Plain)?;
    // Linux sends from ever other ports of UDP.
    let mut other_port = bound(&rt, alloc, place(45, 20_952), &[here], Tunnel::Plain)?;
    let mut stranger = bound(&rt, alloc, place(46, 20_951), &[here], Tunnel::Plain)?;
    let datagram = b"\x08\0\0\0\0\0\x2a\0abc";
    sends(&rt, &mut port, &mut peer, b"abc", datagram)?;
    takes(&rt, &mut port, &mut peer, datagram, Some(b"abc"))?;
    takes(&rt, &mut port, &mut other_port, datagram, Some(b"abc"))?;
    takes(&rt, &mut port, &mut stranger, datagram, None)?;
    assert_eq!(rt; port.unknown_senders(), 1);
    assert!(rt; port.last_unknown() == Some(place(46, 20_951)));
    // What fits of a longer frame.
    let mut room = [0; 2];
    assert!(rt; peer.send(0, 0, datagram).is_ok());
    assert!(rt; next_frame(&mut port, &mut room)? == Some(FrameCame { end: 0, size: 2 }));
    assert_eq!(rt; &room, b"ab");
    let mut counts = TunnelDrops::new();
    takes(&rt, &mut port, &mut peer, b"abc", None)?;
    counts.short = 1;
    has_dropped(&rt, &port, counts, there, TunnelFault::Short(3));
    takes(&rt, &mut port, &mut peer, b"\x0c\0\0\0\0\0\x2a\0abc", None)?;
    counts.not_vxlan = 1;
    has_dropped(&rt, &port, counts, there, TunnelFault::NotVxlan(0x0c));
    takes(
        &rt,
        &mut port,
        &mut other_port,
        b"\x08\0\0\0\0\0\x2b\0abc",
        None,
    )?;
    counts.other_vni = 1;
    let other = TunnelFault::OtherVni(Vni([0, 0, 43]));
    has_dropped(&rt, &port, counts, place(45, 20_952), other);
    assert_eq!(rt; port.unknown_senders(), 1);
    Ok(())
}

#[test]
fn frames_by_l2tpv3(rt: HostRuntime) -> Result<(), Fail> {
    let alloc = rt.alloc();
    let (here, there) = (place(44, 20_953), place(45, 20_954));
    let mut port = bound(&rt, alloc, here, &[there], SESSION)?;
    let mut peer = bound(&rt, alloc, there, &[here], Tunnel::Plain)?;
    let mut other_port = bound(&rt, alloc, place(45, 20_955), &[here], Tunnel::Plain)?;
    let sent = b"\0\x03\0\0\0\0\0\x02\xb1\xb2\xb3\xb4\xb5\xb6\xb7\xb8abc";
    let taken = b"\0\x03\0\0\0\0\0\x01\xa1\xa2\xa3\xa4abc";
    sends(&rt, &mut port, &mut peer, b"abc", sent)?;
    takes(&rt, &mut port, &mut peer, taken, Some(b"abc"))?;
    takes(&rt, &mut port, &mut other_port, taken, None)?;
    assert_eq!(rt; port.unknown_senders(), 1);
    let mut counts = TunnelDrops::new();
    takes(
        &rt,
        &mut port,
        &mut peer,
        b"\x80\x03\0\0\0\0\0\x01\xa1\xa2\xa3\xa4abc",
        None,
    )?;
    counts.control = 1;
    has_dropped(&rt, &port, counts, there, TunnelFault::Control);
    takes(
        &rt,
        &mut port,
        &mut peer,
        b"\0\x02\0\0\0\0\0\x01\xa1\xa2\xa3\xa4abc",
        None,
    )?;
    counts.other_version = 1;
    has_dropped(&rt, &port, counts, there, TunnelFault::OtherVersion(2));
    takes(
        &rt,
        &mut port,
        &mut peer,
        b"\0\x03\0\0\0\0\0\x02\xa1\xa2\xa3\xa4abc",
        None,
    )?;
    counts.other_session = 1;
    has_dropped(&rt, &port, counts, there, TunnelFault::OtherSession(2));
    takes(
        &rt,
        &mut port,
        &mut peer,
        b"\0\x03\0\0\0\0\0\x01\xa1\xa2\xa3\xa5abc",
        None,
    )?;
    counts.other_cookie = 1;
    has_dropped(&rt, &port, counts, there, TunnelFault::OtherCookie);
    assert_eq!(rt; port.unknown_senders(), 1);
    Ok(())
}

/// A frame that no datagram of a tunnel holds is a failure, and nothing is sent.
#[test]
fn a_frame_that_is_too_long(rt: HostRuntime) -> Result<(), Fail> {
    let alloc = rt.alloc();
    let (here, there) = (place(44, 20_956), place(45, 20_957));
    let mut port = bound(&rt, alloc, here, &[there], VXLAN)?;
    let mut peer = bound(&rt, alloc, there, &[here], Tunnel::Plain)?;
    let mut room = [0; 2048];
    assert!(rt; port.send(0, 0, &[7; 2041]).is_err());
    assert_eq!(rt; port.failures(), 1);
    assert!(rt; port.send(0, 0, &[7; 2040]).is_ok());
    assert!(rt; next_frame(&mut peer, &mut room)? == Some(FrameCame { end: 0, size: 2048 }));
    assert_eq!(rt; port.sent(), 1);
    Ok(())
}

/// A port without a tunnel counts no datagram as one without a frame, and says so.
#[test]
fn plain_ports_have_no_tunnel(rt: HostRuntime) -> Result<(), Fail> {
    let alloc = rt.alloc();
    let (here, there) = (place(44, 20_958), place(45, 20_959));
    let mut port = bound(&rt, alloc, here, &[there], Tunnel::Plain)?;
    let mut peer = bound(&rt, alloc, there, &[here], Tunnel::Plain)?;
    takes(&rt, &mut port, &mut peer, b"abc", Some(b"abc"))?;
    assert!(rt; port.tunnel(0) == Some(Tunnel::Plain));
    assert!(rt; port.tunnel_drops(0) == None);
    assert!(rt; port.tunnel(1) == None);
    assert!(rt; port.tunnel_drops(1) == None);
    Ok(())
}

/// A random number generator (Marsaglia's xorshift).
fn draw(state: &mut u64) -> u64 {
    *state ^= *state << 13;
    *state ^= *state >> 7;
    *state ^= *state << 17;
    *state
}

/// How many random datagrams there are.
const DATAGRAMS: u64 = 100_000;

/// Random datagrams of a remote change nothing but counts: no frame comes of them.
fn takes_nothing_random(
    rt: &impl Abort,
    port: &mut EthernetSockets,
    peer: &mut EthernetSockets,
    mut state: u64,
) -> Result<(), Fail> {
    let mut room = [0x5a; 64];
    for _ in 0..DATAGRAMS {
        let mut datagram = [0; 48];
        for part in datagram.chunks_mut(8) {
            part.copy_from_slice(&draw(&mut state).to_le_bytes());
        }
        let size = (draw(&mut state) % 49) as usize;
        assert!(rt; peer.send(0, 0, &datagram[..size]).is_ok());
        assert!(rt; next_frame(port, &mut room)? == None);
    }
    assert!(rt; room == [0x5a; 64]);
    let Some(drops) = port.tunnel_drops(0) else {
        panic!(rt; "no tunnel");
    };
    assert_eq!(rt; drops.total(), DATAGRAMS);
    assert_eq!(rt; port.filtered(), DATAGRAMS);
    assert_eq!(rt; port.unknown_senders(), 0);
    assert_eq!(rt; port.sent(), 0);
    assert_eq!(rt; port.failures(), 0);
    assert_eq!(rt; port.faults(), 0);
    Ok(())
}

#[test]
fn random_datagrams_by_vxlan(rt: HostRuntime) -> Result<(), Fail> {
    let alloc = rt.alloc();
    let (here, there) = (place(44, 20_960), place(45, 20_961));
    let mut port = bound(&rt, alloc, here, &[there], VXLAN)?;
    let mut peer = bound(&rt, alloc, there, &[here], Tunnel::Plain)?;
    takes_nothing_random(&rt, &mut port, &mut peer, 0x9e37_79b9_7f4a_7c15)?;
    takes(
        &rt,
        &mut port,
        &mut peer,
        b"\x08\0\0\0\0\0\x2a\0abc",
        Some(b"abc"),
    )
}

#[test]
fn random_datagrams_by_l2tpv3(rt: HostRuntime) -> Result<(), Fail> {
    let alloc = rt.alloc();
    let (here, there) = (place(44, 20_962), place(45, 20_963));
    let mut port = bound(&rt, alloc, here, &[there], SESSION)?;
    let mut peer = bound(&rt, alloc, there, &[here], Tunnel::Plain)?;
    takes_nothing_random(&rt, &mut port, &mut peer, 0x2545_f491_4f6c_dd1d)?;
    let taken = b"\0\x03\0\0\0\0\0\x01\xa1\xa2\xa3\xa4abc";
    takes(&rt, &mut port, &mut peer, taken, Some(b"abc"))
}
