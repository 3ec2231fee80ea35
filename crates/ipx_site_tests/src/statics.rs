//! Static routes and services: what is parsed from them, their neighbours, and each fault.

use crate::fixture::{site, site_line};
use ipx_config::{StaticEntry, StaticItem};
use ipx_control::{RipEntry, ServiceEntry};
use ipx_site::static_neighbours_of;
use ipx_tables::Source;
use ipx_wire::{Address, Network, Node, Socket};
use std::alloc::{AllocError, Global};

/// A port with two peers, the second of which is the port itself, an Ethernet port, and an ipxnet
/// port.
const PORTS: &str = "\
[[port]]
network = \"00000001\"
address = \"192.0.2.10\"
cost = 6
peers = [\"198.51.100.7\", \"192.0.2.10\", \"203.0.113.9\"]
[[port]]
kind = \"ethernet\"
network = \"00000022\"
encapsulation = \"802.2\"
address = \"127.0.0.1\"
udp_port = 24002
remotes = [\"127.0.0.1:24001\"]
node = \"02:00:00:00:00:22\"
[[port]]
kind = \"ipxnet\"
network = \"0000d05b\"
address = \"127.0.0.1\"
udp_port = 2130
accept = \"any\"
";

/// Entries of two nodes, one of which has two.
const ENTRIES: &str = "\
[[service]]
type = \"0640\"
name = \"BACKUP\"
ipx_address = \"00000011 00000a010014 4002\"
port = 1
next_hop = \"198.51.100.7\"
[[route]]
network = \"000000aa\"
port = 1
next_hop = \"198.51.100.7\"
[[route]]
network = \"000000aa\"
port = 2
next_hop = \"02:00:00:00:00:33\"
hops = 14
ticks = 3
[[route]]
network = \"fffffffd\"
port = 1
next_hop = \"198.51.100.7\"
hops = 2
[[service]]
type = \"FFFE\"
name = \"!~abcdefghijklmnopqrstuvwxyzabcdefghijklmnopqrs\"
ipx_address = \"000000aa 000000000001 ffff\"
port = 2
next_hop = \"02:00:00:00:00:33\"
hops = 3
";

const FIRST: Source = Source {
    port: 1,
    neighbour: Node([0, 0, 0xc6, 0x33, 0x64, 7]),
};

const SECOND: Source = Source {
    port: 2,
    neighbour: Node([2, 0, 0, 0, 0, 0x33]),
};

fn route(network: u32, hops: u16, ticks: u16) -> RipEntry {
    RipEntry {
        network: Network(network),
        hops,
        ticks,
    }
}

fn backup() -> ServiceEntry {
    let mut name = [0; 48];
    name[..6].copy_from_slice(b"BACKUP");
    ServiceEntry {
        kind: 0x640,
        name,
        at: Address {
            network: Network(0x11),
            node: Node([0, 0, 0x0a, 1, 0, 0x14]),
            socket: Socket(0x4002),
        },
        hops: 1,
    }
}

fn longest() -> ServiceEntry {
    let mut name = [0; 48];
    name[..47].copy_from_slice(b"!~abcdefghijklmnopqrstuvwxyzabcdefghijklmnopqrs");
    ServiceEntry {
        kind: 0xfffe,
        name,
        at: Address {
            network: Network(0xaa),
            node: Node([0, 0, 0, 0, 0, 1]),
            socket: Socket(0xffff),
        },
        hops: 3,
    }
}

/// The entries of a router's file that has no fault.
fn read(alloc: Global, entries: &str) -> Result<Option<Vec<StaticEntry>>, AllocError> {
    let text = format!(in alloc; "{PORTS}{entries}")?;
    match site(alloc, &text) {
        Some(site) => Ok(Some(site.statics)),
        None => Ok(None),
    }
}

/// Routes come before services. By default a route is one hop away, and its ticks are the cost of
/// its port.
#[test]
fn reads_entries(rt: HostRuntime) -> Result<(), AllocError> {
    let Some(read) = read(rt.alloc(), ENTRIES)? else {
        panic!(rt; "the file has a fault");
    };
    let words = [
        (FIRST, StaticItem::Route(route(0xaa, 1, 6))),
        (SECOND, StaticItem::Route(route(0xaa, 14, 3))),
        (FIRST, StaticItem::Route(route(0xffff_fffd, 2, 6))),
        (FIRST, StaticItem::Service(backup())),
        (SECOND, StaticItem::Service(longest())),
    ];
    assert_eq!(rt; read.len(), words.len());
    for (entry, (by, word)) in read.iter().zip(words.iter()) {
        assert!(rt; entry.by == *by && entry.word == *word);
    }
    Ok(())
}

#[test]
fn reads_none(rt: HostRuntime) -> Result<(), AllocError> {
    let Some(read) = read(rt.alloc(), "")? else {
        panic!(rt; "the file has a fault");
    };
    assert!(rt; read.is_empty());
    Ok(())
}

/// Each neighbour appears once, with all that it is to have advertised, in the order of the file.
#[test]
fn makes_a_neighbour_of_each(rt: HostRuntime) -> Result<(), AllocError> {
    let Some(read) = read(rt.alloc(), ENTRIES)? else {
        panic!(rt; "the file has a fault");
    };
    let silent = static_neighbours_of(rt.alloc(), &read)?;
    assert_eq!(rt; silent.len(), 2);
    assert!(rt; silent[0].port == 1 && silent[0].node == FIRST.neighbour);
    let routes = [route(0xaa, 1, 6), route(0xffff_fffd, 2, 6)];
    assert!(rt; silent[0].routes.as_slice() == routes.as_slice());
    assert!(rt; silent[0].services.as_slice() == [backup()].as_slice());
    assert!(rt; silent[1].port == 2 && silent[1].node == SECOND.neighbour);
    assert!(rt; silent[1].routes.as_slice() == [route(0xaa, 14, 3)].as_slice());
    assert!(rt; silent[1].services.as_slice() == [longest()].as_slice());
    Ok(())
}

/// A list of this many routes, each to another network.
fn routes(alloc: Global, count: u32) -> Result<String, AllocError> {
    let mut text = String::new(alloc);
    for place in 0..count {
        let network = 0x1000 + place;
        let route = format!(in alloc;
            "[[route]]\nport = 1\nnext_hop = \"203.0.113.9\"\nnetwork = \"{network:08x}\"\n"
        )?;
        text.push_str(&route)?;
    }
    Ok(text)
}

/// The line of a router's file with these entries.
fn line(alloc: Global, entries: &str) -> Result<String, AllocError> {
    let text = format!(in alloc; "{PORTS}{entries}")?;
    site_line(alloc, &text)
}

#[test]
fn reads_256_routes(rt: HostRuntime) -> Result<(), AllocError> {
    let most = routes(rt.alloc(), 256)?;
    assert_eq!(rt; line(rt.alloc(), &most)?.as_str(), "none");
    let more = routes(rt.alloc(), 257)?;
    assert_eq!(rt;
        line(rt.alloc(), &more)?.as_str(),
        "route: expected at most 256 tables [[route]]"
    );
    Ok(())
}

/// A route up to its network, and what follows with what is printed of it.
const ROUTE: &str = "[[route]]\nport = 1\nnext_hop = \"198.51.100.7\"\n";

const ROUTES: [(&str, &str); 11] = [
    ("network = \"000000aa\"", "none"),
    (
        "",
        "route 1: network is missing: expected eight hex digits from 00000001 to fffffffd, such as \"000000aa\"",
    ),
    (
        "network = \"00000000\"",
        "route 1: network: expected eight hex digits from 00000001 to fffffffd, such as \"000000aa\"",
    ),
    (
        "network = \"ffffffff\"",
        "route 1: network: expected eight hex digits from 00000001 to fffffffd, such as \"000000aa\"",
    ),
    (
        "network = \"fffffffe\"",
        "route 1: network: expected eight hex digits from 00000001 to fffffffd, such as \"000000aa\"",
    ),
    (
        "network = \"0000d05b\"",
        "route 1: network 0000d05b is already used by port 3",
    ),
    (
        "network = \"000000aa\"\nhops = 15",
        "route 1: hops: expected a number from 1 to 14, such as 1",
    ),
    (
        "network = \"000000aa\"\nticks = 0",
        "route 1: ticks: expected a number of ticks from 1 to 65535, such as 6",
    ),
    (
        "network = \"000000aa\"\nname = \"A\"",
        "route 1: unknown key name: the keys are port, next_hop, network, hops and ticks",
    ),
    (
        "network = \"000000aa\"\n[[route]]\nport = 1\nnext_hop = \"203.0.113.9\"\nnetwork = \"000000aa\"",
        "none",
    ),
    (
        "network = \"000000aa\"\n[[route]]\nport = 1\nnext_hop = \"198.51.100.7\"\nnetwork = \"000000aa\"",
        "route 2: same port, next_hop and network as route 1",
    ),
];

/// The neighbour of a route to AA, and what is printed of it.
const NEXT: [(&str, &str); 8] = [
    ("port = 2\nnext_hop = \"02:00:00:00:00:33\"", "none"),
    (
        "port = 4\nnext_hop = \"198.51.100.7\"",
        "route 1: port: expected the number of a port of kind \"rfc1234\" or \"ethernet\", such as 1",
    ),
    (
        "port = 3\nnext_hop = \"198.51.100.7\"",
        "route 1: port: expected the number of a port of kind \"rfc1234\" or \"ethernet\", such as 1",
    ),
    (
        "next_hop = \"198.51.100.7\"",
        "route 1: port is missing: expected the number of a port of kind \"rfc1234\" or \"ethernet\", such as 1",
    ),
    (
        "port = 1",
        "route 1: next_hop is missing: expected another node of the port's network: one of its peers, such as \"198.51.100.7\", or on an Ethernet port a MAC address, such as \"02:00:00:00:00:33\"",
    ),
    (
        "port = 1\nnext_hop = \"198.51.100.8\"",
        "route 1: next_hop: expected another node of the port's network: one of its peers, such as \"198.51.100.7\", or on an Ethernet port a MAC address, such as \"02:00:00:00:00:33\"",
    ),
    (
        "port = 1\nnext_hop = \"192.0.2.10\"",
        "route 1: next_hop: expected another node of the port's network: one of its peers, such as \"198.51.100.7\", or on an Ethernet port a MAC address, such as \"02:00:00:00:00:33\"",
    ),
    (
        "port = 2\nnext_hop = \"02:00:00:00:00:22\"",
        "route 1: next_hop: expected another node of the port's network: one of its peers, such as \"198.51.100.7\", or on an Ethernet port a MAC address, such as \"02:00:00:00:00:33\"",
    ),
];

/// A service up to its type, and what follows with what is printed of it.
const SERVICE: &str = "[[service]]\nport = 1\nnext_hop = \"198.51.100.7\"\n";

const SERVICES: [(&str, &str); 9] = [
    (
        "type = \"ffff\"",
        "service 1: type: expected four hex digits, neither all 0 nor all f, such as \"0640\"",
    ),
    (
        "type = \"0000\"",
        "service 1: type: expected four hex digits, neither all 0 nor all f, such as \"0640\"",
    ),
    (
        "type = \"0640\"",
        "service 1: name is missing: expected 1 to 47 printable ASCII characters without spaces, such as \"BACKUP\"",
    ),
    (
        "type = \"0640\"\nname = \"A B\"",
        "service 1: name: expected 1 to 47 printable ASCII characters without spaces, such as \"BACKUP\"",
    ),
    (
        "type = \"0640\"\nname = \"\"",
        "service 1: name: expected 1 to 47 printable ASCII characters without spaces, such as \"BACKUP\"",
    ),
    (
        "type = \"0640\"\nname = \"A\"\nipx_address = \"00000011 00000a010014\"",
        "service 1: ipx_address: expected a network, a node and a socket, such as \"00000011 00000a010014 4002\"",
    ),
    (
        "type = \"0640\"\nname = \"A\"\nipx_address = \"00000011 01000a010014 4002\"",
        "service 1: ipx_address: expected a network, a node and a socket, such as \"00000011 00000a010014 4002\"",
    ),
    (
        "type = \"0640\"\nname = \"A\"\nipx_address = \"00000011 00000a010014 4002\"\nhops = 0",
        "service 1: hops: expected a number from 1 to 14, such as 1",
    ),
    (
        "type = \"0640\"\nname = \"A\"\nipx_address = \"00000011 00000a010014 4002\"\nticks = 1",
        "service 1: unknown key ticks: the keys are port, next_hop, type, name, ipx_address and hops",
    ),
];

#[test]
fn lines_of_routes(rt: HostRuntime) -> Result<(), AllocError> {
    for (rest, wanted) in ROUTES {
        let entries = format!(in rt.alloc(); "{ROUTE}{rest}\n")?;
        assert_eq!(rt; line(rt.alloc(), &entries)?.as_str(), wanted);
    }
    Ok(())
}

#[test]
fn lines_of_next_nodes(rt: HostRuntime) -> Result<(), AllocError> {
    for (by, wanted) in NEXT {
        let entries = format!(in rt.alloc(); "[[route]]\nnetwork = \"000000aa\"\n{by}\n")?;
        assert_eq!(rt; line(rt.alloc(), &entries)?.as_str(), wanted);
    }
    Ok(())
}

#[test]
fn lines_of_services(rt: HostRuntime) -> Result<(), AllocError> {
    for (rest, wanted) in SERVICES {
        let entries = format!(in rt.alloc(); "{SERVICE}{rest}\n")?;
        assert_eq!(rt; line(rt.alloc(), &entries)?.as_str(), wanted);
    }
    Ok(())
}

/// A service of one name and type appears once for each neighbour, whatever its address.
#[test]
fn line_of_a_service_again(rt: HostRuntime) -> Result<(), AllocError> {
    let service = "type = \"0640\"\nname = \"A\"\nipx_address = \"000000";
    let entries = format!(in rt.alloc();
        "{SERVICE}{service}11 00000a010014 4002\"\n{SERVICE}{service}12 00000a010014 4003\"\n"
    )?;
    assert_eq!(rt;
        line(rt.alloc(), &entries)?.as_str(),
        "service 2: same port, next_hop, type and name as service 1"
    );
    Ok(())
}
