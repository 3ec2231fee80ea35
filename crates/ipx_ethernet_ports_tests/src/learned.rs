//! A port by L2TPv3 that learns where its remote is. Each place of the remote is a plain port, which sends and
//! receives datagrams as they are.

use ipx_carrier::DeviceFault;
use ipx_ethernet_ports::{EndSockets, EthernetSockets, FrameCame, Remotes};
use ipx_tunnels::{Cookie, Session, Tunnel, TunnelFault};
use std::alloc::Global;
use std::io;
use std::net::{Ipv4Addr, Net, SocketAddr, SocketAddrV4};
use std::process::Abort;
use std::test::Fail;

const SESSION: Tunnel = Tunnel::L2tpv3(Session {
    id: 1,
    peer_id: 2,
    cookie: Cookie::Long([0xa1, 0xa2, 0xa3, 0xa4, 0xa5, 0xa6, 0xa7, 0xa8]),
    peer_cookie: Cookie::Absent,
    sublayer: false,
});

/// A frame of the remote, in the session with its cookie.
const TAKEN: &[u8] = b"\0\x03\0\0\0\0\0\x01\xa1\xa2\xa3\xa4\xa5\xa6\xa7\xa8abc";

/// The datagram of a frame of the port.
const SENT: &[u8] = b"\0\x03\0\0\0\0\0\x02xyz";

/// An address that nothing else uses.
fn place(udp_port: u16) -> SocketAddrV4 {
    SocketAddrV4::new(Ipv4Addr::new(127, 0, 0, 47), udp_port)
}

/// Sockets of one port.
fn bound<R: Net>(
    rt: &R,
    alloc: Global,
    at: SocketAddrV4,
    remotes: Remotes,
    tunnel: Tunnel,
) -> io::Result<EthernetSockets> {
    let mut sockets = EthernetSockets::new(alloc);
    sockets.bind(rt, at, remotes, tunnel)?;
    Ok(sockets)
}

/// A place of the remote, which sends to the port.
fn peer<R: Net>(
    rt: &R,
    alloc: Global,
    at: SocketAddrV4,
    port: SocketAddrV4,
) -> io::Result<EthernetSockets> {
    let ends = [port].to_vec(alloc)?;
    bound(rt, alloc, at, Remotes::Fixed(ends), Tunnel::Plain)
}

/// Asks sockets until a datagram comes, or the tries are used up.
fn next_frame(
    sockets: &mut EthernetSockets,
    room: &mut [u8],
) -> Result<Option<FrameCame>, DeviceFault> {
    let before = sockets.filtered();
    for _ in 0..100_000_u32 {
        sockets.set_ready(0);
        let came = sockets.receive(0, room)?;
        if came.is_some() || sockets.filtered() != before {
            return Ok(came);
        }
    }
    Ok(None)
}

/// Checks that the port takes the frame of the remote from here.
fn takes(
    rt: &impl Abort,
    port: &mut EthernetSockets,
    peer: &mut EthernetSockets,
) -> Result<(), Fail> {
    let mut room = [0; 64];
    assert!(rt; peer.send(0, 0, TAKEN).is_ok());
    assert!(rt; next_frame(port, &mut room)? == Some(FrameCame { end: 0, size: 3 }));
    assert_eq!(rt; &room[..3], b"abc".as_slice());
    Ok(())
}

/// Checks that the port takes no frame of this datagram.
fn refuses(
    rt: &impl Abort,
    port: &mut EthernetSockets,
    peer: &mut EthernetSockets,
    datagram: &[u8],
) -> Result<(), Fail> {
    let mut room = [0; 64];
    assert!(rt; peer.send(0, 0, datagram).is_ok());
    assert!(rt; next_frame(port, &mut room)? == None);
    Ok(())
}

/// Checks that what the port sends arrives here.
fn arrives(
    rt: &impl Abort,
    port: &mut EthernetSockets,
    peer: &mut EthernetSockets,
) -> Result<(), Fail> {
    let mut room = [0; 64];
    let sent = port.sent();
    assert!(rt; port.send(0, 0, b"xyz").is_ok());
    assert_eq!(rt; port.sent(), sent + 1);
    let came = next_frame(peer, &mut room)?;
    assert!(rt;
        came == Some(FrameCame {
            end: 0,
            size: SENT.len()
        })
    );
    assert_eq!(rt; &room[..SENT.len()], SENT);
    Ok(())
}

/// Checks that nothing waits at a place.
fn has_nothing(rt: &impl Abort, peer: &mut EthernetSockets) -> Result<(), Fail> {
    let mut room = [0; 64];
    peer.set_ready(0);
    assert!(rt; peer.receive(0, &mut room)? == None);
    assert_eq!(rt; peer.filtered(), 0);
    Ok(())
}

#[test]
fn a_remote_is_found_again_at_another_udp_port(rt: HostRuntime) -> Result<(), Fail> {
    let alloc = rt.alloc();
    let here = place(20_970);
    let mut port = bound(&rt, alloc, here, Remotes::Learned(None), SESSION)?;
    let mut first = peer(&rt, alloc, place(20_971), here)?;
    let mut second = peer(&rt, alloc, place(20_972), here)?;
    assert_eq!(rt; port.ends(0), 1);
    // Before the first frame nothing is sent, which is no failure.
    assert!(rt; port.send(0, 0, b"xyz").is_ok());
    assert_eq!(rt; port.sent(), 0);
    assert_eq!(rt; port.failures(), 0);
    has_nothing(&rt, &mut first)?;
    takes(&rt, &mut port, &mut first)?;
    arrives(&rt, &mut port, &mut first)?;
    arrives(&rt, &mut port, &mut first)?;
    takes(&rt, &mut port, &mut second)?;
    arrives(&rt, &mut port, &mut second)?;
    has_nothing(&rt, &mut first)?;
    takes(&rt, &mut port, &mut first)?;
    arrives(&rt, &mut port, &mut first)?;
    has_nothing(&rt, &mut second)?;
    assert_eq!(rt; port.sent(), 4);
    assert_eq!(rt; port.filtered(), 0);
    Ok(())
}

/// Datagrams without a frame of the session, and why they have none.
const OTHERS: [(&[u8], TunnelFault); 4] = [
    (
        b"\0\x03\0\0\0\0\0\x01\xa1\xa2\xa3\xa4\xa5\xa6\xa7\xa9abc",
        TunnelFault::OtherCookie,
    ),
    (
        b"\0\x03\0\0\0\0\0\x02\xa1\xa2\xa3\xa4\xa5\xa6\xa7\xa8abc",
        TunnelFault::OtherSession(2),
    ),
    (
        b"\x80\x03\0\0\0\0\0\x01\xa1\xa2\xa3\xa4\xa5\xa6\xa7\xa8abc",
        TunnelFault::Control,
    ),
    (
        b"\0\x03\0\0\0\0\0\x01\xa1\xa2\xa3\xa4",
        TunnelFault::Short(12),
    ),
];

/// A datagram without a frame of the session changes no place, whether one is known or not. It is
/// counted by its reason.
#[test]
fn a_wrong_cookie_moves_no_remote(rt: HostRuntime) -> Result<(), Fail> {
    let alloc = rt.alloc();
    let here = place(20_973);
    let mut port = bound(&rt, alloc, here, Remotes::Learned(None), SESSION)?;
    let mut remote = peer(&rt, alloc, place(20_974), here)?;
    let mut other = peer(&rt, alloc, place(20_975), here)?;
    for (datagram, fault) in OTHERS {
        refuses(&rt, &mut port, &mut other, datagram)?;
        let last = port.tunnel_drops(0).and_then(|drops| drops.last);
        assert!(rt; last.is_some_and(|last| last.from == SocketAddr::V4(place(20_975))));
        assert!(rt; last.is_some_and(|last| last.fault == fault));
    }
    assert!(rt; port.send(0, 0, b"xyz").is_ok());
    assert_eq!(rt; port.sent(), 0);
    takes(&rt, &mut port, &mut remote)?;
    for (datagram, _) in OTHERS {
        refuses(&rt, &mut port, &mut other, datagram)?;
    }
    arrives(&rt, &mut port, &mut remote)?;
    has_nothing(&rt, &mut other)?;
    let Some(drops) = port.tunnel_drops(0) else {
        panic!(&rt; "no tunnel");
    };
    assert_eq!(rt; drops.other_cookie, 2);
    assert_eq!(rt; drops.other_session, 2);
    assert_eq!(rt; drops.control, 2);
    assert_eq!(rt; drops.short, 2);
    assert_eq!(rt; drops.total(), 8);
    assert_eq!(rt; port.filtered(), 8);
    assert_eq!(rt; port.unknown_senders(), 0);
    Ok(())
}
