//! Files with Ethernet ports that carry frames by VXLAN or L2TPv3: what is parsed from them, the line
//! of each such port at the start, and each fault with its line.

use crate::fixture::{site, site_line};
use ipx_config::{EthernetPortConfig, PortConfig, RemotesConfig, RouterConfig, ports_to_texts};
use ipx_tunnels::{Cookie, Session, Tunnel, Vni};
use std::alloc::AllocError;
use std::net::{Ipv4Addr, SocketAddrV4};

/// A port by VXLAN, two by L2TPv3, and one by VXLAN that gives its UDP port.
const SITE: &str = "\
[[port]]
kind = \"ethernet\"
network = \"00000022\"
encapsulation = \"802.3\"
address = \"10.8.0.1\"
tunnel = \"vxlan\"
vni = 42
remotes = [\"10.8.0.7\", \"10.8.0.9:8472\"]
node = \"02:00:00:00:00:22\"

[[port]]
kind = \"ethernet\"
network = \"00000033\"
encapsulation = \"802.2\"
address = \"10.8.0.1\"
tunnel = \"l2tpv3\"
session = 0x11223344
peer_session = 4294967295
cookie = \"0123456789abcDEF\"
peer_cookie = \"89abcdef\"
sublayer = true
remotes = [\"10.8.0.7:24001\", \"10.8.0.7:24003\", \"10.8.0.9\"]
node = \"02:00:00:00:00:33\"

[[port]]
kind = \"ethernet\"
network = \"00000044\"
encapsulation = \"snap\"
address = \"10.8.0.2\"
tunnel = \"l2tpv3\"
session = 1
remotes = [\"10.8.0.7:24001\"]
node = \"02:00:00:00:00:44\"

[[port]]
kind = \"ethernet\"
network = \"00000055\"
encapsulation = \"ethernet-ii\"
address = \"10.8.0.1\"
tunnel = \"vxlan\"
vni = 16777215
udp_port = 8472
remotes = [\"10.8.0.7:8472\"]
node = \"02:00:00:00:00:55\"
";

/// The Ethernet port with this index.
fn ethernet(site: &RouterConfig, index: usize) -> Option<&EthernetPortConfig> {
    match site.ports.get(index)? {
        PortConfig::Ethernet(port) => Some(port),
        PortConfig::Rfc1234(_) | PortConfig::Ipxnet(_) => None,
    }
}

/// Whether these remotes are listed, whose IP addresses begin with 10.8.0.
fn has_remotes(remotes: &RemotesConfig, ends: &[(u8, u16)]) -> bool {
    match remotes {
        RemotesConfig::Listed(listed) => {
            listed.len() == ends.len()
                && listed.iter().zip(ends).all(|(place, (last, udp_port))| {
                    *place == SocketAddrV4::new(Ipv4Addr::new(10, 8, 0, *last), *udp_port)
                })
        }
        RemotesConfig::Learned => false,
    }
}

/// Whether a port has this tunnel, UDP port and remotes, whose IP addresses begin with 10.8.0.
fn is_port(port: &EthernetPortConfig, tunnel: Tunnel, udp_port: u16, ends: &[(u8, u16)]) -> bool {
    port.tunnel == tunnel && port.udp_port == udp_port && has_remotes(&port.remotes, ends)
}

#[test]
fn reads_tunnels(rt: HostRuntime) {
    let Some(site) = site(rt.alloc(), SITE) else {
        panic!(rt; "the file has a fault");
    };
    let full = Tunnel::L2tpv3(Session {
        id: 0x1122_3344,
        peer_id: 0xffff_ffff,
        cookie: Cookie::Long([0x01, 0x23, 0x45, 0x67, 0x89, 0xab, 0xcd, 0xef]),
        peer_cookie: Cookie::Short([0x89, 0xab, 0xcd, 0xef]),
        sublayer: true,
    });
    let short = Tunnel::L2tpv3(Session {
        id: 1,
        peer_id: 1,
        cookie: Cookie::Absent,
        peer_cookie: Cookie::Absent,
        sublayer: false,
    });
    assert_eq!(rt; site.ports.len(), 4);
    assert!(rt;
        ethernet(&site, 0).is_some_and(|port| {
            is_port(
                port,
                Tunnel::Vxlan(Vni([0, 0, 42])),
                4789,
                &[(7, 4789), (9, 8472)]
            )
        })
    );
    assert!(rt;
        ethernet(&site, 1).is_some_and(|port| {
            is_port(port, full, 1701, &[(7, 24001), (7, 24003), (9, 1701)])
        })
    );
    assert!(rt; ethernet(&site, 2).is_some_and(|port| is_port(port, short, 1701, &[(7, 24001)])));
    assert!(rt;
        ethernet(&site, 3).is_some_and(|port| {
            is_port(
                port,
                Tunnel::Vxlan(Vni([0xff, 0xff, 0xff])),
                8472,
                &[(7, 8472)]
            )
        })
    );
}

/// What is printed of these ports at the start.
const TEXTS: [&str; 4] = [
    "port 1 network 00000022 node 020000000022 ethernet 802.3 vxlan vni 42 udp 10.8.0.1:4789 cost 1 remotes 10.8.0.7:4789 10.8.0.9:8472",
    "port 2 network 00000033 node 020000000033 ethernet 802.2 l2tpv3 session 287454020 peer_session 4294967295 cookie of 8 bytes peer_cookie of 4 bytes sublayer true udp 10.8.0.1:1701 cost 1 remotes 10.8.0.7:24001 10.8.0.7:24003 10.8.0.9:1701",
    "port 3 network 00000044 node 020000000044 ethernet snap l2tpv3 session 1 peer_session 1 udp 10.8.0.2:1701 cost 1 remotes 10.8.0.7:24001",
    "port 4 network 00000055 node 020000000055 ethernet ethernet-ii vxlan vni 16777215 udp 10.8.0.1:8472 cost 1 remotes 10.8.0.7:8472",
];

#[test]
fn texts_of_tunnels(rt: HostRuntime) -> Result<(), AllocError> {
    let Some(site) = site(rt.alloc(), SITE) else {
        panic!(rt; "the file has a fault");
    };
    let texts = ports_to_texts(rt.alloc(), &site.ports)?;
    assert_eq!(rt; texts.len(), TEXTS.len());
    for (text, wanted) in texts.iter().zip(TEXTS) {
        assert_eq!(rt; text.as_str(), wanted);
    }
    Ok(())
}

/// Cookies as a file writes them, with what a session has of them.
const COOKIES: [(&str, Cookie, Cookie); 4] = [
    (
        "cookie = \"01234567\"\n",
        Cookie::Short([0x01, 0x23, 0x45, 0x67]),
        Cookie::Short([0x01, 0x23, 0x45, 0x67]),
    ),
    (
        "cookie = \"01234567\"\npeer_cookie = \"\"\n",
        Cookie::Short([0x01, 0x23, 0x45, 0x67]),
        Cookie::Absent,
    ),
    (
        "peer_cookie = \"00000000000000ff\"\n",
        Cookie::Absent,
        Cookie::Long([0, 0, 0, 0, 0, 0, 0, 0xff]),
    ),
    ("cookie = \"\"\n", Cookie::Absent, Cookie::Absent),
];

/// The cookies of a port by L2TPv3.
fn cookies(port: &EthernetPortConfig) -> Option<(Cookie, Cookie)> {
    match port.tunnel {
        Tunnel::L2tpv3(session) => Some((session.cookie, session.peer_cookie)),
        Tunnel::Plain | Tunnel::Vxlan(_) => None,
    }
}

#[test]
fn reads_cookies(rt: HostRuntime) -> Result<(), AllocError> {
    for (keys, cookie, peer_cookie) in COOKIES {
        let text = format!(in rt.alloc();
            "{START}{keys}tunnel = \"l2tpv3\"\nsession = 1\nremotes = [\"10.8.0.7\"]\n"
        )?;
        let Some(site) = site(rt.alloc(), text.as_str()) else {
            panic!(rt; "the file has a fault");
        };
        let read = ethernet(&site, 0).and_then(|port| cookies(port));
        assert!(rt; read == Some((cookie, peer_cookie)));
    }
    Ok(())
}

/// An Ethernet port up to its tunnel, and what follows, with what is printed of it.
const START: &str = "\
[[port]]
kind = \"ethernet\"
network = \"00000022\"
encapsulation = \"802.2\"
address = \"10.8.0.1\"
";

const REMOTES: &str =
    "port 1: remotes: expected a list of 1 to 256 address:port, each listed once, such as [\"127.0.0.1:24001\"]";

const VNI: &str = "port 1: vni: expected a number from 1 to 16777215, such as 42";

const SESSION: &str = "port 1: session: expected a number from 1 to 4294967295, such as 1";

const PEER_SESSION: &str =
    "port 1: peer_session: expected a number from 1 to 4294967295, such as 1";

const COOKIE: &str =
    "port 1: cookie: expected 8 or 16 hex digits, such as \"0123456789abcdef\", or \"\" for no cookie";

const PEER_COOKIE: &str =
    "port 1: peer_cookie: expected 8 or 16 hex digits, such as \"0123456789abcdef\", or \"\" for no cookie";

const LINES: [(&str, &str); 40] = [
    (
        "tunnel = \"gre\"",
        "port 1: tunnel: expected \"vxlan\" or \"l2tpv3\"",
    ),
    (
        "tunnel = 1\nvni = 1",
        "port 1: tunnel: expected \"vxlan\" or \"l2tpv3\"",
    ),
    (
        "tunnel = \"vxlan\"",
        "port 1: vni is missing: expected a number from 1 to 16777215, such as 42",
    ),
    ("tunnel = \"vxlan\"\nvni = 0", VNI),
    ("tunnel = \"vxlan\"\nvni = 16777216", VNI),
    ("tunnel = \"vxlan\"\nvni = -1", VNI),
    ("tunnel = \"vxlan\"\nvni = \"42\"", VNI),
    ("vni = 42", "port 1: vni needs tunnel = \"vxlan\""),
    (
        "session = 1\nvni = 42\nudp_port = 0",
        "port 1: vni needs tunnel = \"vxlan\"",
    ),
    (
        "tunnel = \"l2tpv3\"\nvni = 0",
        "port 1: vni needs tunnel = \"vxlan\"",
    ),
    (
        "peer_session = 1",
        "port 1: peer_session needs tunnel = \"l2tpv3\"",
    ),
    (
        "tunnel = \"vxlan\"\nsublayer = false\ncookie = \"\"",
        "port 1: cookie needs tunnel = \"l2tpv3\"",
    ),
    (
        "tunnel = \"vxlan\"\nvni = 42\nsession = 42",
        "port 1: session needs tunnel = \"l2tpv3\"",
    ),
    (
        "tunnel = \"l2tpv3\"",
        "port 1: session is missing: expected a number from 1 to 4294967295, such as 1",
    ),
    ("tunnel = \"l2tpv3\"\nsession = 0", SESSION),
    ("tunnel = \"l2tpv3\"\nsession = 4294967296", SESSION),
    (
        "tunnel = \"l2tpv3\"\nsession = 1\npeer_session = 0\ncookie = 1",
        PEER_SESSION,
    ),
    (
        "tunnel = \"l2tpv3\"\nsession = 1\ncookie = 1\npeer_cookie = 1",
        COOKIE,
    ),
    (
        "tunnel = \"l2tpv3\"\nsession = 1\ncookie = \"012345\"",
        COOKIE,
    ),
    (
        "tunnel = \"l2tpv3\"\nsession = 1\ncookie = \"0123456789ab\"",
        COOKIE,
    ),
    (
        "tunnel = \"l2tpv3\"\nsession = 1\ncookie = \"0x234567\"",
        COOKIE,
    ),
    (
        "tunnel = \"l2tpv3\"\nsession = 1\npeer_cookie = \"0123456789abcdef01\"\nsublayer = 1",
        PEER_COOKIE,
    ),
    (
        "tunnel = \"l2tpv3\"\nsession = 1\nsublayer = \"none\"",
        "port 1: sublayer: expected true or false",
    ),
    (
        "remotes = [\"10.8.0.7:1\"]",
        "port 1: udp_port is missing: expected a number from 1 to 65535, such as 24002",
    ),
    (
        "tunnel = \"vxlan\"\nvni = 42\nudp_port = 0",
        "port 1: udp_port: expected a number from 1 to 65535, such as 213",
    ),
    (
        "tunnel = \"vxlan\"\nvni = 42",
        "port 1: remotes is missing: expected a list of 1 to 256 address:port, each listed once, such as [\"127.0.0.1:24001\"]",
    ),
    ("udp_port = 4789\nremotes = [\"10.8.0.7\"]", REMOTES),
    (
        "tunnel = \"vxlan\"\nvni = 42\nremotes = [\"10.8.0.7\"]",
        "none",
    ),
    (
        "tunnel = \"vxlan\"\nvni = 42\nremotes = [\"0.0.0.0\"]",
        REMOTES,
    ),
    (
        "tunnel = \"vxlan\"\nvni = 42\nremotes = [\"10.8.0.7:0\"]",
        REMOTES,
    ),
    (
        "tunnel = \"vxlan\"\nvni = 42\nremotes = [\"10.8.0.1\"]",
        REMOTES,
    ),
    (
        "tunnel = \"vxlan\"\nvni = 42\nremotes = [\"10.8.0.1:4790\"]",
        "none",
    ),
    (
        "tunnel = \"vxlan\"\nvni = 42\nudp_port = 8472\nremotes = [\"10.8.0.1\"]",
        "none",
    ),
    (
        "tunnel = \"vxlan\"\nvni = 42\nremotes = [\"10.8.0.7\", \"10.8.0.9\", \"10.8.0.7:8472\"]",
        REMOTES,
    ),
    (
        "tunnel = \"vxlan\"\nvni = 42\nremotes = [\"10.8.0.7\", \"10.8.0.9\", \"10.8.0.8\"]",
        "none",
    ),
    (
        "tunnel = \"l2tpv3\"\nsession = 1\nremotes = [\"10.8.0.7\", \"10.8.0.7:1701\"]",
        REMOTES,
    ),
    (
        "tunnel = \"l2tpv3\"\nsession = 1\nremotes = [\"10.8.0.7\", \"10.8.0.7:1702\"]",
        "none",
    ),
    (
        "tunnel = \"l2tpv3\"\nsession = 1\nremotes = [\"10.8.0.1:1701\"]",
        REMOTES,
    ),
    (
        "tunnel = \"l2tpv3\"\nsession = 1\nremotes = [\"friend.example\"]",
        REMOTES,
    ),
    ("tunnel = \"vxlan\"\nvni = 42\nremotes = []", REMOTES),
];

#[test]
fn lines_of_tunnels(rt: HostRuntime) -> Result<(), AllocError> {
    for (rest, line) in LINES {
        let text = format!(in rt.alloc(); "{START}{rest}\n")?;
        assert_eq!(rt; site_line(rt.alloc(), text.as_str())?.as_str(), line);
    }
    Ok(())
}

/// An Ethernet port whose remotes are "any" and what else it has, with what is printed of it.
const ANY: [(&str, &str); 9] = [
    (
        "tunnel = \"l2tpv3\"\nsession = 1\ncookie = \"0123456789abcdef\"\nremotes = [\"any\"]",
        "none",
    ),
    (
        "tunnel = \"l2tpv3\"\nsession = 1\ncookie = \"0123456789abcdef\"\npeer_cookie = \"\"\nremotes = [\"any\"]",
        "none",
    ),
    ("udp_port = 24002\nremotes = [\"any\"]", REMOTES),
    ("tunnel = \"vxlan\"\nvni = 42\nremotes = [\"any\"]", REMOTES),
    (
        "tunnel = \"l2tpv3\"\nsession = 1\nremotes = [\"any\"]",
        REMOTES,
    ),
    (
        "tunnel = \"l2tpv3\"\nsession = 1\ncookie = \"01234567\"\npeer_cookie = \"0123456789abcdef\"\nremotes = [\"any\"]",
        REMOTES,
    ),
    (
        "tunnel = \"l2tpv3\"\nsession = 1\ncookie = \"0123456789abcdef\"\nremotes = [\"any\", \"10.8.0.7\"]",
        REMOTES,
    ),
    (
        "tunnel = \"l2tpv3\"\nsession = 1\ncookie = \"0123456789abcdef\"\nremotes = [\"10.8.0.7\", \"any\"]",
        REMOTES,
    ),
    (
        "tunnel = \"l2tpv3\"\nsession = 1\ncookie = \"0123456789abcdef\"\nremotes = \"any\"",
        REMOTES,
    ),
];

#[test]
fn lines_of_learned_remotes(rt: HostRuntime) -> Result<(), AllocError> {
    for (rest, line) in ANY {
        let text = format!(in rt.alloc(); "{START}{rest}\n")?;
        assert_eq!(rt; site_line(rt.alloc(), text.as_str())?.as_str(), line);
    }
    Ok(())
}

/// What is printed at the start of a port that learns where its remote is.
#[test]
fn text_of_a_learned_remote(rt: HostRuntime) -> Result<(), AllocError> {
    let text = format!(in rt.alloc();
        "{START}tunnel = \"l2tpv3\"\nsession = 1\ncookie = \"0123456789abcdef\"\nremotes = [\"any\"]\n"
    )?;
    let Some(site) = site(rt.alloc(), text.as_str()) else {
        panic!(rt; "the file has a fault");
    };
    assert!(rt;
        ethernet(&site, 0).is_some_and(|port| { matches!(port.remotes, RemotesConfig::Learned) })
    );
    let texts = ports_to_texts(rt.alloc(), &site.ports)?;
    assert_eq!(rt;
        texts[0].as_str(),
        "port 1 network 00000022 node 0a08000106a5 ethernet 802.2 l2tpv3 session 1 peer_session 1 cookie of 8 bytes peer_cookie of 8 bytes udp 10.8.0.1:1701 cost 1 remotes any (learned by session and cookie)"
    );
    Ok(())
}

/// Ports of other kinds, which have no tunnel, with how the line begins.
const KINDS: [(&str, &str); 2] = [
    (
        "tunnel = \"vxlan\"",
        "port 1: tunnel is not a key of kind \"rfc1234\": ",
    ),
    (
        "kind = \"ipxnet\"\npeer_cookie = \"\"",
        "port 1: peer_cookie is not a key of kind \"ipxnet\": ",
    ),
];

#[test]
fn lines_of_tunnels_of_other_kinds(rt: HostRuntime) -> Result<(), AllocError> {
    for (rest, begin) in KINDS {
        let text = format!(in rt.alloc(); "[[port]]\n{rest}\n")?;
        let line = site_line(rt.alloc(), text.as_str())?;
        let line = line.as_str();
        assert!(rt; line.starts_with(begin), "{line}");
    }
    Ok(())
}
