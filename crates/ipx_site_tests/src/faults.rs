//! Each fault of a file, with its line.

use crate::fixture::{host_line, site_line};
use std::alloc::{AllocError, Global};

/// The fault of a file of the secret.
const SECRET: &str =
    "secret_file: expected a file name, different from metrics_file and tables_file with or without .new, such as \"/var/lib/ipx/hq/secret\"";

/// A port, and the lines of one on the same network.
const TWIN: &str = "\
[[port]]
network = \"00000001\"
address = \"192.0.2.10\"
peers = []
[[port]]
network = \"00000001\"
address = \"192.0.2.11\"
peers = []
";

/// The lines of a port at an address, and of one that binds every address.
const SAME: &str = "\
[[port]]
network = \"00000001\"
address = \"192.0.2.10\"
udp_port = 2130
peers = []
[[port]]
network = \"00000002\"
address = \"192.0.2.10\"
peers = []
[[port]]
kind = \"ipxnet\"
network = \"00000003\"
address = \"any\"
udp_port = 2130
accept = \"any\"
";

/// Files of routers with what is printed of them.
const SITES: [(&str, &str); 26] = [
    (
        "[[port]]\nrouter = \"10.1.0.1\"",
        "port 1: router is a key of a host's file, and this command reads a router's file",
    ),
    (TWIN, "port 2: network 00000001 is already used by port 1"),
    (
        SAME,
        "port 3: same address and udp_port as port 1; \"any\" includes each address",
    ),
    ("", "port is missing: expected 1 to 16 tables [[port]]"),
    ("port = []", "port: expected 1 to 16 tables [[port]]"),
    (
        "port = [1]",
        "port 1: port: expected 1 to 16 tables [[port]]",
    ),
    (
        "Status = \"a\"",
        "unknown key Status: the keys of a router are metrics_file, tables_file, secret_file, port, route and service; those of a host are network, address, router, udp_port, socket, buffers, peers, routers, allow and accept",
    ),
    (
        "metrics_file = 1",
        "metrics_file: expected a file name, such as \"/run/ipx/hq/hq.prom\"",
    ),
    (
        "metrics_file = \"\"",
        "metrics_file: expected a file name, such as \"/run/ipx/hq/hq.prom\"",
    ),
    (
        "metrics_file = \"/run/ipx/h\\u0000q\"",
        "metrics_file: expected a file name, such as \"/run/ipx/hq/hq.prom\"",
    ),
    (
        "tables_file = 1\nport = 1",
        "tables_file: expected a file name, different from metrics_file with or without .new, such as \"/run/ipx/hq/hq.tables\"",
    ),
    (
        "tables_file = \"\"\nport = 1",
        "tables_file: expected a file name, different from metrics_file with or without .new, such as \"/run/ipx/hq/hq.tables\"",
    ),
    (
        "metrics_file = \"/run/ipx/hq\"\ntables_file = \"/run/ipx/hq\"\nport = 1",
        "tables_file: expected a file name, different from metrics_file with or without .new, such as \"/run/ipx/hq/hq.tables\"",
    ),
    (
        "metrics_file = \"/run/ipx/hq\"\ntables_file = \"/run/ipx/hq.new\"\nport = 1",
        "tables_file: expected a file name, different from metrics_file with or without .new, such as \"/run/ipx/hq/hq.tables\"",
    ),
    (
        "metrics_file = \"/run/ipx/hq.new\"\ntables_file = \"/run/ipx/hq\"\nport = 1",
        "tables_file: expected a file name, different from metrics_file with or without .new, such as \"/run/ipx/hq/hq.tables\"",
    ),
    (
        "metrics_file = \"/run/ipx/hq\"\ntables_file = \"/run/ipx/hq.new.new\"\nport = 1",
        "port: expected 1 to 16 tables [[port]]",
    ),
    (
        "metrics_file = \"/run/ipx/hq\"\ntables_file = \"/run/ipx/hqxnew\"\nport = 1",
        "port: expected 1 to 16 tables [[port]]",
    ),
    (
        "metrics_file = \"/run/ipx/hq\"\ntables_file = \"/run/ipx/q.new\"\nport = 1",
        "port: expected 1 to 16 tables [[port]]",
    ),
    (
        "metrics_file = \"/run/ipx/hq\"\ntables_file = \"/run/ipx/hq.\"\nport = 1",
        "port: expected 1 to 16 tables [[port]]",
    ),
    ("secret_file = 1\nport = 1", SECRET),
    (
        "metrics_file = \"/run/ipx/hq\"\nsecret_file = \"/run/ipx/hq\"\nport = 1",
        SECRET,
    ),
    (
        "tables_file = \"/run/ipx/hq\"\nsecret_file = \"/run/ipx/hq.new\"\nport = 1",
        SECRET,
    ),
    (
        "metrics_file = \"/run/ipx/hq\"\ntables_file = \"/run/ipx/t\"\nsecret_file = \"/run/ipx/s\"\nport = 1",
        "port: expected 1 to 16 tables [[port]]",
    ),
    (
        "[[port]]\npeer = []",
        "port 1: unknown key peer: the keys are kind, network, address, udp_port, cost, directed, for kind = \"rfc1234\" also peers, routers and accept, for kind = \"ethernet\" encapsulation, tunnel, vni, session, peer_session, cookie, peer_cookie, sublayer, remotes, node and switch, for kind = \"ipxnet\" node, clients, accept, peers and join",
    ),
    (
        "[[port]]\nnetwork = \"ffffffff\"",
        "port 1: network: expected eight hex digits, neither all 0 nor all f, such as \"00000011\"",
    ),
    (
        "[[port]]\nnetwork = \"00000001\"",
        "port 1: address is missing: expected an IPv4 address of this machine, such as \"192.0.2.10\", or for kind \"ipxnet\" also \"any\"",
    ),
];

/// A port up to its peers, and what follows with what is printed of it.
const START: &str = "[[port]]\nnetwork = \"00000001\"\naddress = \"192.0.2.10\"\n";

const PORTS: [(&str, &str); 13] = [
    (
        "udp_port = 0",
        "port 1: udp_port: expected a number from 1 to 65535, such as 213",
    ),
    (
        "cost = 65536",
        "port 1: cost: expected a number of ticks from 1 to 65535, such as 6",
    ),
    (
        "",
        "port 1: peers is missing: expected a list of IP addresses, such as [\"198.51.100.7\", \"203.0.113.9\"], and for kind \"ipxnet\" also prefixes of 8 to 32 bits and names of hosts, such as [\"203.0.113.0/24\", \"friend.example\"]; a port of kind \"ipxnet\" may have accept = \"any\" instead",
    ),
    (
        "peers = [\"10.1.0\"]",
        "port 1: peers: expected a list of IP addresses, such as [\"198.51.100.7\", \"203.0.113.9\"], and for kind \"ipxnet\" also prefixes of 8 to 32 bits and names of hosts, such as [\"203.0.113.0/24\", \"friend.example\"]",
    ),
    (
        "peers = []\naccept = \"all\"",
        "port 1: accept: expected \"peers\" or \"any\"",
    ),
    (
        "peers = [\"10.1.0.20\"]\nrouters = [\"10.1.0.21\"]",
        "port 1: routers: expected a list of IP addresses that are also in peers",
    ),
    (
        "peers = [\"10.1.0.20\"]\nrouters = \"10.1.0.20\"\naccept = \"all\"",
        "port 1: routers: expected a list of IP addresses that are also in peers",
    ),
    (
        "peers = []\ndirected = \"some\"",
        "port 1: directed: expected \"none\", \"few\" or \"all\"",
    ),
    ("peers = []\ndirected = \"all\"", "none"),
    ("peers = []\ndirected = \"none\"", "none"),
    ("peers = []", "none"),
    ("peers = []\nrouters = []", "none"),
    (
        "peers = [\"10.1.0.20\", \"10.1.0.21\"]\nrouters = [\"10.1.0.21\", \"10.1.0.21\"]",
        "none",
    ),
];

/// Files of hosts with what is printed of them.
const HOSTS: [(&str, &str); 4] = [
    (
        "cost = 6",
        "cost is a key of a table [[port]] of a router's file",
    ),
    (
        "network = 11",
        "network: expected eight hex digits, neither all 0 nor all f, such as \"00000011\"",
    ),
    (
        "network = \"+0000011\"",
        "network: expected eight hex digits, neither all 0 nor all f, such as \"00000011\"",
    ),
    (
        "port = 1",
        "port is a key of a router's file, and this command reads a host's file",
    ),
];

/// A host up to its peers, and what follows with what is printed of it.
const HOST: &str = "\
network = \"00000011\"
address = \"10.1.0.20\"
router = \"10.1.0.1\"
socket = \"4002\"
";

const CIRCLES: [(&str, &str); 8] = [
    (
        "peers = \"10.1.0.21\"",
        "peers: expected a list of at most 256 IP addresses, such as [\"198.51.100.7\", \"203.0.113.9\"]",
    ),
    (
        "peers = [\"10.1.0.21\", 4]",
        "peers: expected a list of at most 256 IP addresses, such as [\"198.51.100.7\", \"203.0.113.9\"]",
    ),
    (
        "routers = [\"10.1.0.1\"]",
        "routers: expected a list of at most 256 IP addresses that are also in peers",
    ),
    (
        "peers = [\"10.1.0.21\"]\nrouters = [\"10.1.0.21\", \"10.1.0.22\"]",
        "routers: expected a list of at most 256 IP addresses that are also in peers",
    ),
    (
        "routers = 1\nallow = []\npeers = 1",
        "peers: expected a list of at most 256 IP addresses, such as [\"198.51.100.7\", \"203.0.113.9\"]",
    ),
    (
        "allow = 1\naccept = 1\nrouters = 1",
        "routers: expected a list of at most 256 IP addresses that are also in peers",
    ),
    ("accept = \"all\"", "accept: expected \"peers\" or \"any\""),
    ("peers = []\nrouters = []\naccept = \"any\"", "none"),
];

#[test]
fn lines_of_circles(rt: HostRuntime) -> Result<(), AllocError> {
    for (rest, line) in CIRCLES {
        let text = format!(in rt.alloc(); "{HOST}{rest}")?;
        assert_eq!(rt; host_line(rt.alloc(), text.as_str())?.as_str(), line);
    }
    Ok(())
}

/// A list of so many peers, each the same.
fn peers(alloc: Global, count: usize) -> Result<String, AllocError> {
    let mut text = format!(in alloc; "{HOST}peers = [")?;
    for _ in 0..count {
        text.push_str("\"10.1.0.21\", ")?;
    }
    text.push_str("]\n")?;
    Ok(text)
}

#[test]
fn lines_of_many_peers(rt: HostRuntime) -> Result<(), AllocError> {
    let most = peers(rt.alloc(), 256)?;
    assert_eq!(rt; host_line(rt.alloc(), most.as_str())?.as_str(), "none");
    let more = peers(rt.alloc(), 257)?;
    assert_eq!(rt;
        host_line(rt.alloc(), more.as_str())?.as_str(),
        CIRCLES[0].1
    );
    Ok(())
}

#[test]
fn lines_of_sites(rt: HostRuntime) -> Result<(), AllocError> {
    for (text, line) in SITES {
        assert_eq!(rt; site_line(rt.alloc(), text)?.as_str(), line);
    }
    Ok(())
}

#[test]
fn lines_of_ports(rt: HostRuntime) -> Result<(), AllocError> {
    for (rest, line) in PORTS {
        let text = format!(in rt.alloc(); "{START}{rest}")?;
        assert_eq!(rt; site_line(rt.alloc(), text.as_str())?.as_str(), line);
    }
    Ok(())
}

#[test]
fn lines_of_hosts(rt: HostRuntime) -> Result<(), AllocError> {
    for (text, line) in HOSTS {
        assert_eq!(rt; host_line(rt.alloc(), text)?.as_str(), line);
    }
    Ok(())
}

#[test]
fn line_where_toml_ends(rt: HostRuntime) -> Result<(), AllocError> {
    let line = site_line(rt.alloc(), "\n[[port]]\nnetwork 1\n")?;
    assert!(rt; line.as_str().starts_with("line 3: "));
    Ok(())
}
