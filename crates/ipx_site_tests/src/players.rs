//! Files with ipxnet ports: what is parsed from them, and each fault with its line.

use crate::fixture::{site, site_line};
use ipx_config::{Accept, Directed, IpxnetPortConfig, Kind, Peer, PortConfig, RouterConfig};
use ipx_wire::{Network, Node};
use std::alloc::AllocError;
use std::net::{Ipv4Addr, SocketAddrV4};

/// A router with an RFC 1234 port and two ipxnet ports.
const SITE: &str = "\
[[port]]
network = \"00000011\"
address = \"10.1.0.1\"
peers = []

[[port]]
kind = \"ipxnet\"
network = \"0000d05b\"
address = \"192.0.2.10\"
udp_port = 2130
peers = [\"198.51.100.7\", \"203.0.113.9\"]

[[port]]
kind = \"ipxnet\"
network = \"0000d05c\"
address = \"127.0.0.1\"
udp_port = 24002
cost = 6
node = \"02:00:00:00:0A:fe\"
clients = 150
accept = \"any\"
directed = \"none\"
";

/// The ipxnet port with this index.
fn players(site: &RouterConfig, index: usize) -> Option<&IpxnetPortConfig> {
    match site.ports.get(index)? {
        PortConfig::Ipxnet(port) => Some(port),
        PortConfig::Rfc1234(_) | PortConfig::Ethernet(_) => None,
    }
}

/// Whether these peers are these addresses, each one alone.
fn are_addresses(peers: &[Peer], ips: &[[u8; 4]]) -> bool {
    peers.len() == ips.len()
        && peers.iter().zip(ips).all(|(peer, ip)| match peer {
            Peer::Prefix(prefix) => prefix.address == *ip && prefix.bits == 32,
            Peer::Host(_) => false,
        })
}

fn is_first(port: &IpxnetPortConfig) -> bool {
    port.network == Network(0xd05b)
        && port.address == [192, 0, 2, 10]
        && port.udp_port == 2130
        && port.cost == 1
        && port.clients == 64
        && port.accept == Accept::Peers
        && port.directed == Directed::Few
        && are_addresses(&port.peers, &[[198, 51, 100, 7], [203, 0, 113, 9]])
}

fn is_second(port: &IpxnetPortConfig) -> bool {
    port.network == Network(0xd05c)
        && port.address == [127, 0, 0, 1]
        && port.udp_port == 24002
        && port.cost == 6
        && port.clients == 150
        && port.accept == Accept::Any
        && port.directed == Directed::Never
        && port.peers.is_empty()
}

#[test]
fn reads_ports_for_clients(rt: HostRuntime) {
    let Some(site) = site(rt.alloc(), SITE) else {
        panic!(rt; "the file has a fault");
    };
    assert_eq!(rt; site.ports.len(), 3);
    assert!(rt; site.ports[1].kind() == Kind::Ipxnet && site.ports[2].kind() == Kind::Ipxnet);
    assert!(rt; players(&site, 1).is_some_and(|port| is_first(port)));
    assert!(rt; players(&site, 2).is_some_and(|port| is_second(port)));
    let place = site.ports[1].place();
    assert!(rt; place == SocketAddrV4::new(Ipv4Addr::new(192, 0, 2, 10), 2130));
}

/// 192 is 1100_0000, whose two low bits become 10; 2130 is 0x0852.
#[test]
fn reads_nodes_for_clients(rt: HostRuntime) {
    let Some(site) = site(rt.alloc(), SITE) else {
        panic!(rt; "the file has a fault");
    };
    let nodes = [
        Node([0, 0, 10, 1, 0, 1]),
        Node([194, 0, 2, 10, 0x08, 0x52]),
        Node([2, 0, 0, 0, 0x0a, 0xfe]),
    ];
    for (port, node) in site.ports.iter().zip(nodes) {
        assert!(rt; port.router_port().node == node);
        assert!(rt; port.router_port().network == port.network());
    }
}

/// An ipxnet port up to its accepted clients, and what follows, with what is printed of it.
const START: &str = "\
[[port]]
kind = \"ipxnet\"
network = \"0000d05b\"
address = \"192.0.2.10\"
udp_port = 2130
";

const PLAYERS: [(&str, &str); 21] = [
    ("accept = \"any\"", "none"),
    ("peers = []", "none"),
    (
        "accept = \"any\"\npeers = [\"198.51.100.7\"]\nclients = 1",
        "none",
    ),
    (
        "",
        "port 1: peers is missing: expected a list of IP addresses, such as [\"198.51.100.7\", \"203.0.113.9\"], and for kind \"ipxnet\" also prefixes of 8 to 32 bits and names of hosts, such as [\"203.0.113.0/24\", \"friend.example\"]; a port of kind \"ipxnet\" may have accept = \"any\" instead",
    ),
    (
        "accept = \"peers\"",
        "port 1: peers is missing: expected a list of IP addresses, such as [\"198.51.100.7\", \"203.0.113.9\"], and for kind \"ipxnet\" also prefixes of 8 to 32 bits and names of hosts, such as [\"203.0.113.0/24\", \"friend.example\"]; a port of kind \"ipxnet\" may have accept = \"any\" instead",
    ),
    (
        "accept = \"any\"\npeers = 1",
        "port 1: peers: expected a list of IP addresses, such as [\"198.51.100.7\", \"203.0.113.9\"], and for kind \"ipxnet\" also prefixes of 8 to 32 bits and names of hosts, such as [\"203.0.113.0/24\", \"friend.example\"]",
    ),
    (
        "peers = [\"198.51.100.7:2130\"]",
        "port 1: peers: expected a list of IP addresses, such as [\"198.51.100.7\", \"203.0.113.9\"], and for kind \"ipxnet\" also prefixes of 8 to 32 bits and names of hosts, such as [\"203.0.113.0/24\", \"friend.example\"]",
    ),
    (
        "accept = \"all\"",
        "port 1: accept: expected \"peers\" or \"any\"",
    ),
    (
        "accept = \"any\"\nclients = 0",
        "port 1: clients: expected a number from 1 to 150, such as 64",
    ),
    (
        "accept = \"all\"\nclients = 151",
        "port 1: clients: expected a number from 1 to 150, such as 64",
    ),
    (
        "clients = 0\nnode = \"ff:ff:ff:ff:ff:ff\"",
        "port 1: node: expected the MAC address of one station, such as \"02:00:00:00:00:22\"",
    ),
    (
        "node = 1\ncost = 0",
        "port 1: cost: expected a number of ticks from 1 to 65535, such as 6",
    ),
    (
        "accept = \"any\"\nrouters = []",
        "port 1: routers is not a key of kind \"ipxnet\": its keys are kind, network, address, udp_port, cost, node, clients, accept, peers, join, directed",
    ),
    ("accept = \"any\"\njoin = [\"198.51.100.7:2130\"]", "none"),
    (
        "peers = [\"203.0.113.9\"]\njoin = [\"198.51.100.7:2130\", \"203.0.113.5:2131\"]",
        "none",
    ),
    (
        "accept = \"any\"\njoin = []",
        "port 1: join: expected a list of 1 to 256 address:port, each listed once, such as [\"198.51.100.7:2130\"]",
    ),
    (
        "accept = \"any\"\njoin = [\"198.51.100.7\"]",
        "port 1: join: expected a list of 1 to 256 address:port, each listed once, such as [\"198.51.100.7:2130\"]",
    ),
    (
        "accept = \"any\"\njoin = [\"198.51.100.7:2130\", \"203.0.113.5:2130\", \"198.51.100.7:2130\"]",
        "port 1: join: expected a list of 1 to 256 address:port, each listed once, such as [\"198.51.100.7:2130\"]",
    ),
    (
        "accept = \"any\"\njoin = [\"198.51.100.7:2130\", \"198.51.100.7:2131\", \"198.51.100.8:2130\"]",
        "none",
    ),
    (
        "peers = 1\njoin = 1",
        "port 1: peers: expected a list of IP addresses, such as [\"198.51.100.7\", \"203.0.113.9\"], and for kind \"ipxnet\" also prefixes of 8 to 32 bits and names of hosts, such as [\"203.0.113.0/24\", \"friend.example\"]",
    ),
    (
        "accept = \"any\"\nplayers = 4",
        "port 1: unknown key players: the keys are kind, network, address, udp_port, cost, directed, for kind = \"rfc1234\" also peers, routers and accept, for kind = \"ethernet\" encapsulation, tunnel, vni, session, peer_session, cookie, peer_cookie, sublayer, remotes, node and switch, for kind = \"ipxnet\" node, clients, accept, peers and join",
    ),
];

#[test]
fn lines_of_ports_for_clients(rt: HostRuntime) -> Result<(), AllocError> {
    for (rest, line) in PLAYERS {
        let text = format!(in rt.alloc(); "{START}{rest}")?;
        assert_eq!(rt; site_line(rt.alloc(), text.as_str())?.as_str(), line);
    }
    Ok(())
}

/// Without `udp_port` players reach the port that `ipxnet connect` dials by itself.
#[test]
fn listens_at_port_213_by_default(rt: HostRuntime) -> Result<(), AllocError> {
    let text = format!(in rt.alloc();
        "[[port]]\nkind = \"ipxnet\"\nnetwork = \"0000d05b\"\naddress = \"any\"\naccept = \"any\""
    )?;
    let Some(site) = site(rt.alloc(), text.as_str()) else {
        panic!(rt; "the file has a fault");
    };
    assert!(rt; players(&site, 0).is_some_and(|port| port.udp_port == 213));
    Ok(())
}

/// Keys that only ipxnet ports have, and a required key.
const KINDS: [(&str, &str); 4] = [
    (
        "clients = 4",
        "port 1: clients is not a key of kind \"rfc1234\": its keys are kind, network, address, udp_port, cost, peers, routers, accept, directed",
    ),
    (
        "join = [\"198.51.100.7:2130\"]",
        "port 1: join is not a key of kind \"rfc1234\": its keys are kind, network, address, udp_port, cost, peers, routers, accept, directed",
    ),
    (
        "kind = \"ethernet\"\nclients = 4",
        "port 1: clients is not a key of kind \"ethernet\": its keys are kind, network, encapsulation, address, tunnel, vni, session, peer_session, cookie, peer_cookie, sublayer, udp_port, cost, remotes, node, switch, directed",
    ),
    (
        "kind = \"ethernet\"\nnetwork = \"0000d05b\"\nencapsulation = \"802.2\"\naddress = \"192.0.2.10\"",
        "port 1: udp_port is missing: expected a number from 1 to 65535, such as 24002",
    ),
];

#[test]
fn lines_of_kinds_beside_clients(rt: HostRuntime) -> Result<(), AllocError> {
    for (rest, line) in KINDS {
        let text = format!(in rt.alloc(); "[[port]]\n{rest}")?;
        assert_eq!(rt; site_line(rt.alloc(), text.as_str())?.as_str(), line);
    }
    Ok(())
}
