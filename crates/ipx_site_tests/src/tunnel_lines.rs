//! What a router logs of datagrams that have no frame in the tunnel of their port.

use ipx_ethernet_ports::TunnelDrop;
use ipx_site::TunnelLine;
use ipx_tunnels::{Cookie, Session, Tunnel, TunnelFault, Vni};
use std::net::{Ipv4Addr, SocketAddr, SocketAddrV4};
use std::test::Fail;

const VXLAN: Tunnel = Tunnel::Vxlan(Vni([0, 0, 42]));

const SESSION: Tunnel = Tunnel::L2tpv3(Session {
    id: 1,
    peer_id: 2,
    cookie: Cookie::Short([0xa1, 0xa2, 0xa3, 0xa4]),
    peer_cookie: Cookie::Absent,
    sublayer: false,
});

#[test]
fn lines_of_tunnels(rt: HostRuntime) -> Result<(), Fail> {
    let from = SocketAddrV4::new(Ipv4Addr::new(198, 51, 100, 7), 1701);
    let rows = [
        (
            VXLAN,
            TunnelFault::OtherVni(Vni([0, 0, 43])),
            "198.51.100.7:1701 sends vxlan of vni 43, this port has vxlan of vni 42",
        ),
        (
            VXLAN,
            TunnelFault::Short(7),
            "198.51.100.7:1701 sends 7 bytes, fewer than the header has, this port has vxlan of vni 42",
        ),
        (
            SESSION,
            TunnelFault::OtherSession(2),
            "198.51.100.7:1701 sends l2tpv3 of session 2, this port has l2tpv3 of session 1",
        ),
        (
            SESSION,
            TunnelFault::OtherCookie,
            "198.51.100.7:1701 sends l2tpv3 with another cookie, this port has l2tpv3 of session 1",
        ),
    ];
    for (tunnel, fault, text) in rows {
        let from = SocketAddr::V4(from);
        let last = TunnelDrop { from, fault };
        let line = TunnelLine { last, tunnel };
        assert_eq!(rt; format!(in rt.alloc(); "{line}")?.as_str(), text);
    }
    Ok(())
}
