//! Who may register at ipxnet ports: which texts are prefixes and names of hosts, and who is in a
//! prefix.

use crate::fixture::{site, site_line};
use ip_prefixes::Prefix;
use ipx_config::{IpxnetPortConfig, Peer, PortConfig, RouterConfig};
use std::alloc::AllocError;
use std::test::Fail;

/// An ipxnet port up to its peers.
const START: &str = "\
[[port]]
kind = \"ipxnet\"
network = \"0000d05b\"
address = \"any\"
";

/// The fault of a list that has something else.
const WRONG: &str =
    "port 1: peers: expected a list of IP addresses, such as [\"198.51.100.7\", \"203.0.113.9\"], and for kind \"ipxnet\" also prefixes of 8 to 32 bits and names of hosts, such as [\"203.0.113.0/24\", \"friend.example\"]";

/// Texts that are peers. Bits of a prefix after its own may be set.
const PEERS: [&str; 15] = [
    "198.51.100.7",
    "203.0.113.0/24",
    "203.0.113.9/24",
    "203.0.113.9/32",
    "10.0.0.0/8",
    "10.0.0.0/9",
    "10.0.0.0/10",
    "198.51.96.0/19",
    "0.0.0.0/8",
    "friend.example",
    "Friend-2.Example",
    "4players.example",
    "desk2",
    "xn--bcher-kva.example",
    "localhost",
];

/// Texts that are none.
const NO_PEERS: [&str; 25] = [
    "",
    "0.0.0.0",
    "198.51.100",
    "198.51.100.256",
    "198.51.100.7.1",
    "198.51.100.7:2130",
    "203.0.113.0/7",
    "203.0.113.0/0",
    "203.0.113.0/33",
    "203.0.113.0/40",
    "203.0.113.0/024",
    "203.0.113.0/+24",
    "203.0.113.0/2x",
    "203.0.113.0/124",
    "203.0.113.0/",
    "/24",
    "203.0.113/24",
    "203.0.113.00/24",
    "203.0.113.0 /24",
    "203.0.113.0/24/8",
    "203.0.113.0/255.255.255.0",
    "2001:db8::/32",
    "friend_2.example",
    "friend example",
    "bücher.example",
];

/// The ipxnet port of a file that has one port.
fn only_port(site: &RouterConfig) -> Option<&IpxnetPortConfig> {
    match site.ports.as_slice() {
        [PortConfig::Ipxnet(port)] => Some(port),
        _ => None,
    }
}

#[test]
fn texts_of_peers(rt: HostRuntime) -> Result<(), AllocError> {
    for peer in PEERS {
        let text = format!(in rt.alloc(); "{START}peers = [\"{peer}\"]")?;
        assert_eq!(rt; site_line(rt.alloc(), text.as_str())?.as_str(), "none");
    }
    for peer in NO_PEERS {
        let text = format!(in rt.alloc(); "{START}peers = [\"198.51.100.7\", \"{peer}\"]")?;
        assert_eq!(rt; site_line(rt.alloc(), text.as_str())?.as_str(), WRONG);
    }
    Ok(())
}

/// A name has at most 253 bytes.
#[test]
fn lengths_of_names(rt: HostRuntime) -> Result<(), AllocError> {
    let tens = "abcdefghi.".repeat(rt.alloc(), 25)?;
    let longest = format!(in rt.alloc(); "{START}peers = [\"{tens}abc\"]")?;
    assert_eq!(rt; site_line(rt.alloc(), longest.as_str())?.as_str(), "none");
    let longer = format!(in rt.alloc(); "{START}peers = [\"{tens}abcd\"]")?;
    assert_eq!(rt; site_line(rt.alloc(), longer.as_str())?.as_str(), WRONG);
    Ok(())
}

/// What a port reads, in order.
#[test]
fn reads_peers(rt: HostRuntime) -> Result<(), Fail> {
    let text = format!(in rt.alloc();
        "{START}peers = [\"203.0.113.9/24\", \"198.51.100.7\", \"friend.example\"]"
    )?;
    let Some(site) = site(rt.alloc(), text.as_str()) else {
        panic!(rt; "the file has a fault");
    };
    let Some(port) = only_port(&site) else {
        panic!(rt; "it has another port");
    };
    match port.peers.as_slice() {
        [Peer::Prefix(first), Peer::Prefix(second), Peer::Host(name)] => {
            assert!(rt; first.bits == 24 && first.network() == [203, 0, 113, 0]);
            assert!(rt; second.bits == 32 && second.network() == [198, 51, 100, 7]);
            assert_eq!(rt; name.as_str(), "friend.example");
        }
        _ => panic!(rt; "it has other peers"),
    }
    Ok(())
}

/// A prefix, its first and last address, and those before and after them.
const EDGES: [(&str, [[u8; 4]; 4]); 6] = [
    (
        "203.0.113.0/24",
        [
            [203, 0, 113, 0],
            [203, 0, 113, 255],
            [203, 0, 112, 255],
            [203, 0, 114, 0],
        ],
    ),
    (
        "10.99.9.9/8",
        [
            [10, 0, 0, 0],
            [10, 255, 255, 255],
            [9, 255, 255, 255],
            [11, 0, 0, 0],
        ],
    ),
    (
        "198.51.100.7/32",
        [
            [198, 51, 100, 7],
            [198, 51, 100, 7],
            [198, 51, 100, 6],
            [198, 51, 100, 8],
        ],
    ),
    (
        "198.51.100.6/31",
        [
            [198, 51, 100, 6],
            [198, 51, 100, 7],
            [198, 51, 100, 5],
            [198, 51, 100, 8],
        ],
    ),
    (
        "198.51.100.0/19",
        [
            [198, 51, 96, 0],
            [198, 51, 127, 255],
            [198, 51, 95, 255],
            [198, 51, 128, 0],
        ],
    ),
    (
        "192.0.2.0/9",
        [
            [192, 0, 0, 0],
            [192, 127, 255, 255],
            [191, 255, 255, 255],
            [192, 128, 0, 0],
        ],
    ),
];

#[test]
fn edges_of_prefixes(rt: HostRuntime) {
    for (text, [first, last, before, after]) in EDGES {
        let Some(prefix) = Prefix::parse(text.as_bytes()) else {
            panic!(rt; "no prefix");
        };
        assert!(rt; prefix.network() == first);
        assert!(rt; prefix.has(first) && prefix.has(last));
        assert!(rt; !prefix.has(before) && !prefix.has(after));
    }
}
