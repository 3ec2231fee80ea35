//! Files without a fault: what is parsed from them.

use crate::fixture::{host, site};
use ipx_config::{Accept, AllowedPeer, Directed, PortConfig, Rfc1234PortConfig, RouterConfig};
use ipx_wire::{Address, Network, Node, Socket};

const SITE: &str = "\
# the router of one site
metrics_file = \"/run/ipx/hq/hq.prom\"
tables_file = \"/run/ipx/hq/hq.tables\"
secret_file = \"/var/lib/ipx/hq/secret\"

[[port]]
network = \"00000001\"
address = \"192.0.2.10\"
udp_port = 2130
cost = 6
peers = [\"198.51.100.7\", \"203.0.113.9\"]
routers = [\"203.0.113.9\"]
accept = \"any\"
directed = \"all\"

[[port]]
network = \"000000aB\"
address = \"10.1.0.1\"
peers = [\"10.1.0.20\"]
";

const HOST: &str = "\
network = \"00000011\"
address = \"10.1.0.20\"
router = \"10.1.0.1\"
socket = \"4002\"
";

/// A host that says who may connect.
const FROM: &str = "\
network = \"00000011\"
address = \"10.1.0.20\"
router = \"10.1.0.1\"
socket = \"4002\"
allow = [\"00000022 00000A02001e\", \"00000033\"]
";

/// A host that says which senders it accepts.
const CIRCLE: &str = "\
network = \"00000011\"
address = \"10.1.0.20\"
router = \"10.1.0.1\"
socket = \"4002\"
peers = [\"10.1.0.2\", \"10.1.0.21\"]
routers = [\"10.1.0.2\"]
accept = \"any\"
";

/// The RFC 1234 port with this index.
fn plain(site: &RouterConfig, index: usize) -> Option<&Rfc1234PortConfig> {
    match site.ports.get(index)? {
        PortConfig::Rfc1234(port) => Some(port),
        PortConfig::Ethernet(_) | PortConfig::Ipxnet(_) => None,
    }
}

fn is_first(port: &Rfc1234PortConfig) -> bool {
    port.network == Network(1)
        && port.address == [192, 0, 2, 10]
        && port.udp_port == 2130
        && port.cost == 6
        && port.accept == Accept::Any
        && port.directed == Directed::Always
}

fn is_second(port: &Rfc1234PortConfig) -> bool {
    port.network == Network(0xab)
        && port.address == [10, 1, 0, 1]
        && port.udp_port == 213
        && port.cost == 1
        && port.accept == Accept::Peers
        && port.directed == Directed::Few
}

#[test]
fn reads_ports(rt: HostRuntime) {
    let Some(site) = site(rt.alloc(), SITE) else {
        panic!(rt; "the file has a fault");
    };
    assert_eq!(rt; site.ports.len(), 2);
    assert!(rt; plain(&site, 0).is_some_and(|port| is_first(port)));
    assert!(rt; plain(&site, 1).is_some_and(|port| is_second(port)));
}

#[test]
fn reads_peers(rt: HostRuntime) {
    let Some(site) = site(rt.alloc(), SITE) else {
        panic!(rt; "the file has a fault");
    };
    let (Some(first), Some(second)) = (plain(&site, 0), plain(&site, 1)) else {
        panic!(rt; "a port is missing");
    };
    assert!(rt; first.peers.as_slice() == [[198, 51, 100, 7], [203, 0, 113, 9]].as_slice());
    assert!(rt; second.peers.as_slice() == [[10, 1, 0, 20]].as_slice());
}

#[test]
fn reads_routers(rt: HostRuntime) {
    let Some(site) = site(rt.alloc(), SITE) else {
        panic!(rt; "the file has a fault");
    };
    let (Some(first), Some(second)) = (plain(&site, 0), plain(&site, 1)) else {
        panic!(rt; "a port is missing");
    };
    let Some(routers) = &first.routers else {
        panic!(rt; "it names no routers");
    };
    assert!(rt; routers.as_slice() == [[203, 0, 113, 9]].as_slice());
    assert!(rt; second.routers.is_none());
}

#[test]
fn reads_both_files(rt: HostRuntime) {
    let Some(site) = site(rt.alloc(), SITE) else {
        panic!(rt; "the file has a fault");
    };
    let Some(status) = &site.metrics_file else {
        panic!(rt; "it has no metrics_file");
    };
    assert_eq!(rt; status.as_str(), "/run/ipx/hq/hq.prom");
    let Some(tables) = &site.tables_file else {
        panic!(rt; "it has no file of tables");
    };
    assert_eq!(rt; tables.as_str(), "/run/ipx/hq/hq.tables");
    let Some(secret) = &site.secret_file else {
        panic!(rt; "it has no file of the secret");
    };
    assert_eq!(rt; secret.as_str(), "/var/lib/ipx/hq/secret");
}

#[test]
fn reads_a_host(rt: HostRuntime) {
    let Some(host) = host(rt.alloc(), HOST) else {
        panic!(rt; "the file has a fault");
    };
    assert!(rt; host.network == Network(0x11) && host.socket == Socket(0x4002));
    assert!(rt; host.address == [10, 1, 0, 20] && host.router == [10, 1, 0, 1]);
    assert!(rt; host.udp_port == 213 && host.buffers == 1024);
    assert!(rt; host.from.is_none() && host.accept == Accept::Peers);
    assert!(rt; host.peers.is_empty() && host.routers.is_empty());
}

#[test]
fn reads_whom_a_host_hears(rt: HostRuntime) {
    let Some(host) = host(rt.alloc(), CIRCLE) else {
        panic!(rt; "the file has a fault");
    };
    assert!(rt; host.peers.as_slice() == [[10, 1, 0, 2], [10, 1, 0, 21]].as_slice());
    assert!(rt; host.routers.as_slice() == [[10, 1, 0, 2]].as_slice());
    assert!(rt; host.accept == Accept::Any);
}

#[test]
fn reads_who_may_connect(rt: HostRuntime) {
    let Some(host) = host(rt.alloc(), FROM) else {
        panic!(rt; "the file has a fault");
    };
    let Some(from) = &host.from else {
        panic!(rt; "it names nobody");
    };
    let node = Node([0, 0, 0x0a, 2, 0, 0x1e]);
    assert!(rt; from.len() == 2);
    assert!(rt; from[0].network == Network(0x22) && from[0].node == Some(node));
    assert!(rt; from[1].network == Network(0x33) && from[1].node.is_none());
}

/// A network allows all its nodes, and a node itself alone. Network 0 is the host's own.
#[test]
fn tells_who_is_named(rt: HostRuntime) {
    let (own, socket) = (Network(0x11), Socket(0x4003));
    let (this, other) = (
        Node([0, 0, 0x0a, 2, 0, 0x1e]),
        Node([0, 0, 0x0a, 2, 0, 0x1f]),
    );
    let one = AllowedPeer {
        network: Network(0x22),
        node: Some(this),
    };
    let all = AllowedPeer {
        network: Network(0x11),
        node: None,
    };
    let rows = [
        (0x22, this, true, false),
        (0x22, other, false, false),
        (0x23, this, false, false),
        (0x11, other, false, true),
        (0, other, false, true),
    ];
    for (number, node, by_one, by_all) in rows {
        let network = Network(number);
        let from = Address {
            network,
            node,
            socket,
        };
        assert!(rt; one.has(own, &from) == by_one && all.has(own, &from) == by_all);
    }
}
