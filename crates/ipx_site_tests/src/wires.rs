//! Files with Ethernet ports: what is parsed from them, and each fault with its line.

use crate::fixture::{site, site_line};
use ipx_config::{EthernetPortConfig, Kind, PortConfig, RemotesConfig, RouterConfig};
use ipx_ethernet::Encapsulation;
use ipx_wire::{Network, Node};
use std::alloc::AllocError;
use std::net::{Ipv4Addr, SocketAddrV4};

/// A router with an RFC 1234 port and two Ethernet ports.
const SITE: &str = "\
[[port]]
network = \"00000011\"
address = \"10.1.0.1\"
peers = []

[[port]]
kind = \"ethernet\"
network = \"00000022\"
encapsulation = \"802.2\"
address = \"127.0.0.1\"
udp_port = 24002
remotes = [\"127.0.0.1:24001\", \"127.0.0.1:24003\"]

[[port]]
kind = \"ethernet\"
network = \"00000033\"
encapsulation = \"ethernet-ii\"
address = \"192.0.2.10\"
udp_port = 258
cost = 6
remotes = [\"198.51.100.7:65535\"]
node = \"02:00:00:00:0A:fe\"
switch = false
";

/// The Ethernet port with this index.
fn wire(site: &RouterConfig, index: usize) -> Option<&EthernetPortConfig> {
    match site.ports.get(index)? {
        PortConfig::Ethernet(port) => Some(port),
        PortConfig::Rfc1234(_) | PortConfig::Ipxnet(_) => None,
    }
}

/// Whether a port lists these remotes.
fn has_remotes(port: &EthernetPortConfig, ends: &[SocketAddrV4]) -> bool {
    match &port.remotes {
        RemotesConfig::Listed(listed) => listed.as_slice() == ends,
        RemotesConfig::Learned => false,
    }
}

fn is_first(port: &EthernetPortConfig) -> bool {
    let near = [
        SocketAddrV4::new(Ipv4Addr::LOCALHOST, 24001),
        SocketAddrV4::new(Ipv4Addr::LOCALHOST, 24003),
    ];
    port.network == Network(0x22)
        && port.encapsulation == Encapsulation::Llc
        && port.address == [127, 0, 0, 1]
        && port.udp_port == 24002
        && port.cost == 1
        && has_remotes(port, &near)
        && port.switched
}

fn is_second(port: &EthernetPortConfig) -> bool {
    let far = [SocketAddrV4::new(Ipv4Addr::new(198, 51, 100, 7), 65535)];
    port.network == Network(0x33)
        && port.encapsulation == Encapsulation::EthernetII
        && port.address == [192, 0, 2, 10]
        && port.udp_port == 258
        && port.cost == 6
        && has_remotes(port, &far)
        && !port.switched
}

#[test]
fn reads_ethernet(rt: HostRuntime) {
    let Some(site) = site(rt.alloc(), SITE) else {
        panic!(rt; "the file has a fault");
    };
    assert_eq!(rt; site.ports.len(), 3);
    assert!(rt; site.ports[0].kind() == Kind::Rfc1234 && site.ports[1].kind() == Kind::Ethernet);
    assert!(rt; wire(&site, 1).is_some_and(|port| is_first(port)));
    assert!(rt; wire(&site, 2).is_some_and(|port| is_second(port)));
}

/// 127 is 0111_1111, whose two low bits become 10; 24002 is 0x5dc2.
#[test]
fn reads_addresses_on_ethernet(rt: HostRuntime) {
    let Some(site) = site(rt.alloc(), SITE) else {
        panic!(rt; "the file has a fault");
    };
    assert_eq!(rt; site.ports.len(), 3);
    let nodes = [
        Node([0, 0, 10, 1, 0, 1]),
        Node([126, 0, 0, 1, 0x5d, 0xc2]),
        Node([2, 0, 0, 0, 0x0a, 0xfe]),
    ];
    for (port, node) in site.ports.iter().zip(nodes) {
        assert!(rt; port.router_port().node == node);
        assert!(rt; port.router_port().network == port.network());
    }
    let place = site.ports[2].place();
    assert!(rt; place == SocketAddrV4::new(Ipv4Addr::new(192, 0, 2, 10), 258));
}

/// An Ethernet port up to its remotes, and what follows, with what is printed of it.
const START: &str = "\
[[port]]
kind = \"ethernet\"
network = \"00000022\"
encapsulation = \"snap\"
address = \"127.0.0.1\"
udp_port = 24002
";

const ETHERNET: [(&str, &str); 20] = [
    ("remotes = [\"127.0.0.1:24001\"]", "none"),
    (
        "",
        "port 1: remotes is missing: expected a list of 1 to 256 address:port, each listed once, such as [\"127.0.0.1:24001\"]",
    ),
    (
        "remotes = []",
        "port 1: remotes: expected a list of 1 to 256 address:port, each listed once, such as [\"127.0.0.1:24001\"]",
    ),
    (
        "remotes = \"127.0.0.1:24001\"",
        "port 1: remotes: expected a list of 1 to 256 address:port, each listed once, such as [\"127.0.0.1:24001\"]",
    ),
    (
        "remotes = [\"127.0.0.1\"]",
        "port 1: remotes: expected a list of 1 to 256 address:port, each listed once, such as [\"127.0.0.1:24001\"]",
    ),
    (
        "remotes = [\"127.0.0.1:24001\", \"0.0.0.0:24001\"]",
        "port 1: remotes: expected a list of 1 to 256 address:port, each listed once, such as [\"127.0.0.1:24001\"]",
    ),
    (
        "remotes = [\"127.0.0.1:0\"]",
        "port 1: remotes: expected a list of 1 to 256 address:port, each listed once, such as [\"127.0.0.1:24001\"]",
    ),
    (
        "remotes = [\"127.0.0.1:65536\"]",
        "port 1: remotes: expected a list of 1 to 256 address:port, each listed once, such as [\"127.0.0.1:24001\"]",
    ),
    (
        "remotes = [\"127.0.0.1:24001\", \"127.0.0.1:24003\", \"127.0.0.1:24001\"]",
        "port 1: remotes: expected a list of 1 to 256 address:port, each listed once, such as [\"127.0.0.1:24001\"]",
    ),
    (
        "remotes = [\"127.0.0.1:24001\", \"127.0.0.1:24002\"]",
        "port 1: remotes: expected a list of 1 to 256 address:port, each listed once, such as [\"127.0.0.1:24001\"]",
    ),
    (
        "remotes = [\"127.0.0.2:24002\", \"127.0.0.1:24001\", \"127.0.0.2:24001\"]",
        "none",
    ),
    (
        "remotes = [\"127.0.0.1:24001\"]\nnode = \"020000000022\"",
        "port 1: node: expected the MAC address of one station, such as \"02:00:00:00:00:22\"",
    ),
    (
        "remotes = [\"127.0.0.1:24001\"]\nnode = \"02-00-00-00-00-22\"",
        "port 1: node: expected the MAC address of one station, such as \"02:00:00:00:00:22\"",
    ),
    (
        "remotes = [\"127.0.0.1:24001\"]\nnode = \"01:00:00:00:00:22\"",
        "port 1: node: expected the MAC address of one station, such as \"02:00:00:00:00:22\"",
    ),
    (
        "remotes = [\"127.0.0.1:24001\"]\nnode = \"00:00:00:00:00:00\"",
        "port 1: node: expected the MAC address of one station, such as \"02:00:00:00:00:22\"",
    ),
    (
        "remotes = [\"127.0.0.1:24001\"]\nswitch = 1",
        "port 1: switch: expected true or false",
    ),
    (
        "switch = 1\nnode = 1\nremotes = [\"127.0.0.1:24001\"]",
        "port 1: node: expected the MAC address of one station, such as \"02:00:00:00:00:22\"",
    ),
    (
        "remotes = 1\nwire = 1\npeers = []",
        "port 1: peers is not a key of kind \"ethernet\": its keys are kind, network, encapsulation, address, tunnel, vni, session, peer_session, cookie, peer_cookie, sublayer, udp_port, cost, remotes, node, switch, directed",
    ),
    (
        "remotes = 1\npeers = []\nend = []",
        "port 1: unknown key end: the keys are kind, network, address, udp_port, cost, directed, for kind = \"rfc1234\" also peers, routers and accept, for kind = \"ethernet\" encapsulation, tunnel, vni, session, peer_session, cookie, peer_cookie, sublayer, remotes, node and switch, for kind = \"ipxnet\" node, clients, accept, peers and join",
    ),
    (
        "remotes = [\"127.0.0.1:24001\"]\nswitch = true\nnode = \"02:00:00:00:00:22\"",
        "none",
    ),
];

#[test]
fn lines_of_ethernet(rt: HostRuntime) -> Result<(), AllocError> {
    for (rest, line) in ETHERNET {
        let text = format!(in rt.alloc(); "{START}{rest}")?;
        assert_eq!(rt; site_line(rt.alloc(), text.as_str())?.as_str(), line);
    }
    Ok(())
}

/// Ports, whose kind is checked before all else, with what is printed of them.
const KINDS: [(&str, &str); 7] = [
    (
        "peer = 1\nkind = \"frames\"",
        "port 1: kind: expected \"rfc1234\", \"ethernet\" or \"ipxnet\"",
    ),
    (
        "kind = 1",
        "port 1: kind: expected \"rfc1234\", \"ethernet\" or \"ipxnet\"",
    ),
    (
        "kind = \"rfc1234\"\nnode = 1",
        "port 1: node is not a key of kind \"rfc1234\": its keys are kind, network, address, udp_port, cost, peers, routers, accept, directed",
    ),
    (
        "encapsulation = \"802.3\"",
        "port 1: encapsulation is not a key of kind \"rfc1234\": its keys are kind, network, address, udp_port, cost, peers, routers, accept, directed",
    ),
    (
        "kind = \"ethernet\"\nnetwork = \"00000022\"",
        "port 1: encapsulation is missing: expected \"802.3\", \"802.2\", \"snap\" or \"ethernet-ii\"",
    ),
    (
        "kind = \"ethernet\"\nnetwork = \"00000022\"\nencapsulation = \"raw\"",
        "port 1: encapsulation: expected \"802.3\", \"802.2\", \"snap\" or \"ethernet-ii\"",
    ),
    (
        "kind = \"ethernet\"\nnetwork = \"00000022\"\nencapsulation = \"802.3\"\naddress = \"127.0.0.1\"",
        "port 1: udp_port is missing: expected a number from 1 to 65535, such as 24002",
    ),
];

#[test]
fn lines_of_kinds(rt: HostRuntime) -> Result<(), AllocError> {
    for (rest, line) in KINDS {
        let text = format!(in rt.alloc(); "[[port]]\n{rest}")?;
        assert_eq!(rt; site_line(rt.alloc(), text.as_str())?.as_str(), line);
    }
    Ok(())
}

/// A list of this many remotes.
fn ends(rt: &HostRuntime, count: usize) -> Result<String, AllocError> {
    let mut text = format!(in rt.alloc(); "{START}remotes = [")?;
    for port in 1..=count {
        let end = format!(in rt.alloc(); "\"127.0.0.1:{port}\", ")?;
        text.push_str(end.as_str())?;
    }
    text.push_str("]\n")?;
    Ok(text)
}

#[test]
fn lines_of_many_ends(rt: HostRuntime) -> Result<(), AllocError> {
    let most = ends(&rt, 256)?;
    assert_eq!(rt; site_line(rt.alloc(), most.as_str())?.as_str(), "none");
    let more = ends(&rt, 257)?;
    assert_eq!(rt;
        site_line(rt.alloc(), more.as_str())?.as_str(),
        ETHERNET[2].1
    );
    Ok(())
}

/// An Ethernet port cannot have the network of an RFC 1234 port.
#[test]
fn lines_of_twins_of_two_kinds(rt: HostRuntime) -> Result<(), AllocError> {
    let first = "[[port]]\nnetwork = \"00000022\"\naddress = \"10.1.0.1\"\npeers = []\n";
    let text = format!(in rt.alloc(); "{first}{START}remotes = [\"127.0.0.1:24001\"]\n")?;
    assert_eq!(rt;
        site_line(rt.alloc(), text.as_str())?.as_str(),
        "port 2: network 00000022 is already used by port 1"
    );
    Ok(())
}
