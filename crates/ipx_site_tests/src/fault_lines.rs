//! What is printed of a fault after its line: what the text of the file tells of it.

use ipx_config::{FaultLine, read_host, read_site};
use std::alloc::{AllocError, Global};

/// A port of each kind up to its lists.
const PLAIN: &str = "[[port]]\nnetwork = \"00000011\"\naddress = \"10.1.0.1\"\n";

const WIRE: &str = "\
[[port]]
kind = \"ethernet\"
network = \"00000022\"
encapsulation = \"802.2\"
address = \"10.1.0.1\"
udp_port = 24002
";

const VXLAN: &str = "\
[[port]]
kind = \"ethernet\"
network = \"00000022\"
encapsulation = \"802.2\"
address = \"10.1.0.1\"
tunnel = \"vxlan\"
vni = 42
";

const PLAYERS: &str =
    "[[port]]\nkind = \"ipxnet\"\nnetwork = \"0000d05b\"\naddress = \"any\"\naccept = \"any\"\n";

const HOST: &str =
    "network = \"00000011\"\naddress = \"10.1.0.20\"\nrouter = \"10.1.0.1\"\nsocket = \"4002\"\n";

/// A port, what follows it in the file of a router, and how the line of the fault ends.
const SITES: [(&str, &str, &str); 49] = [
    (
        "[[port]]\nnetwork = \"00000011\n",
        PLAIN,
        "line 2: invalid string; its closing quote is missing",
    ),
    (
        "[[port]]\nnetwork = '00000011\r\n",
        PLAIN,
        "line 2: invalid string; its closing quote is missing",
    ),
    (
        PLAIN,
        "peers = [\"10.1.0.20]",
        "line 4: invalid string; its closing quote is missing",
    ),
    (
        PLAIN,
        "peers = \"\"\"10.1.0.20\n",
        "line 5: invalid string; its closing quote is missing",
    ),
    (
        PLAIN,
        "peers = [\"10.1\u{1}0.20\"]",
        "line 4: invalid string",
    ),
    (
        PLAIN,
        "peers = [\"10.1.0.20\\q\"]",
        "line 4: invalid escape sequence",
    ),
    (
        PLAIN,
        "peers = [\"10.1.0.20, \"10.1.0.21\"]",
        "expected `,` or `]`; the line has an odd number of double quotes",
    ),
    (
        PLAIN,
        "peers = [\"10.1.0.20\" \"10.1.0.21\"]",
        "expected `,` or `]`",
    ),
    (
        PLAIN,
        PLAIN_AGAIN,
        "line 4: duplicate key; each port begins with a line [[port]]",
    ),
    (
        "[port]\ncost = 1\n",
        "[port]\n",
        "line 3: duplicate key; each port begins with a line [[port]]",
    ),
    (
        "[port]\ncost = 1\n",
        "",
        "tables [[port]]; write [[port]] in place of [port]",
    ),
    (
        PLAIN,
        "port = 213\n",
        "port 1: port is no key of a port: its UDP port is udp_port",
    ),
    (
        PLAIN,
        "udp_port = \"2130\"\n",
        "such as 213; write it without quotes",
    ),
    (PLAIN, "udp_port = 0\n", "such as 213"),
    (
        "[[port]]\nnetwork = 11\n",
        "",
        "such as \"00000011\"; write it in double quotes",
    ),
    (
        "[[port]]\nnetwork = [\"00000011\"]\n",
        "",
        "such as \"00000011\"",
    ),
    (
        PLAIN,
        "peers = 1\n",
        "such as [\"203.0.113.0/24\", \"friend.example\"]",
    ),
    (
        PLAIN,
        "peers = [\"10.1.0.20\", \"bob.example.org\"]",
        "; \"bob.example.org\" is no valid IP address",
    ),
    (
        PLAIN,
        "peers = [\"10.1.0.20\", \"::1\"]",
        "; \"::1\" is no valid IP address",
    ),
    (
        PLAIN,
        "peers = [\"a\\u001b[2J\"]",
        "; \"a.[2J\" is no valid IP address",
    ),
    (
        PLAIN,
        "peers = [\"10.1.0.20\", 10]",
        "; entry 2 is no text in double quotes",
    ),
    (
        PLAIN,
        "peers = [\"10.1.0.20\"]\nrouters = [\"10.1.0.20\", \"10.1.0.21\"]",
        "also in peers; \"10.1.0.21\" is not in peers",
    ),
    (
        PLAIN,
        "peers = [\"10.1.0.20\"]\nrouters = [\"10.1.0.20\", \"r2\"]",
        "also in peers; \"r2\" is no valid IP address",
    ),
    (
        WIRE,
        "remotes = [\"10.1.0.2:1\", \"10.1.0.2\"]",
        "; \"10.1.0.2\" is no valid address:port",
    ),
    (
        WIRE,
        "remotes = [\"10.1.0.2:1\", \"10.1.0.2:2\", \"10.1.0.2:1\"]",
        "such as [\"127.0.0.1:24001\"]; \"10.1.0.2:1\" is listed twice",
    ),
    (
        WIRE,
        "remotes = [\"10.1.0.2:24002\", \"10.1.0.1:24002\", \"10.1.0.2:24002\"]",
        "; \"10.1.0.1:24002\" is the port's own address",
    ),
    (
        VXLAN,
        "remotes = [\"10.1.0.2\", \"r2\"]",
        "; \"r2\" is no valid IP address or address:port",
    ),
    (
        VXLAN,
        "remotes = [\"10.1.0.2\", \"10.1.0.3\", \"10.1.0.2:4789\"]",
        "; \"10.1.0.2:4789\" is listed twice",
    ),
    (
        VXLAN,
        "remotes = [\"10.1.0.2\", \"10.1.0.3\", \"10.1.0.2:8472\"]",
        "; \"10.1.0.2:8472\" has the IP address of an earlier one",
    ),
    (
        VXLAN,
        "remotes = [\"10.1.0.2\", \"10.1.0.1\"]",
        "; \"10.1.0.1\" is the port's own address",
    ),
    (
        VXLAN,
        "udp_port = 8472\nremotes = [\"10.1.0.1\", \"10.1.0.1:8472\"]",
        "; \"10.1.0.1:8472\" is the port's own address",
    ),
    (
        VXLAN,
        "remotes = [\"10.1.0.2\", 10]",
        "; entry 2 is no text in double quotes",
    ),
    (
        WIRE,
        "remotes = [\"any\"]",
        "; \"any\" needs tunnel = \"l2tpv3\" and a cookie of 8 bytes: without, anybody could become the remote",
    ),
    (
        VXLAN,
        "remotes = [\"any\"]",
        "; \"any\" needs tunnel = \"l2tpv3\" and a cookie of 8 bytes: without, anybody could become the remote",
    ),
    (
        WIRE,
        "tunnel = \"l2tpv3\"\nsession = 1\nremotes = [\"any\"]",
        "; \"any\" needs tunnel = \"l2tpv3\" and a cookie of 8 bytes: without, anybody could become the remote",
    ),
    (
        WIRE,
        "tunnel = \"l2tpv3\"\nsession = 1\ncookie = \"01234567\"\nremotes = [\"any\"]",
        "; \"any\" needs tunnel = \"l2tpv3\" and a cookie of 8 bytes: without, anybody could become the remote",
    ),
    (
        WIRE,
        "tunnel = \"l2tpv3\"\nsession = 1\ncookie = \"0123456789abcdef\"\nremotes = [\"any\", \"10.1.0.2\"]",
        "; \"10.1.0.2\" is beside \"any\", which must be alone",
    ),
    (
        WIRE,
        "tunnel = \"l2tpv3\"\nsession = 1\ncookie = \"0123456789abcdef\"\nremotes = [\"10.1.0.2\", \"any\"]",
        "; \"any\" must be alone in the list",
    ),
    (WIRE, "vni = 42", "port 1: vni needs tunnel = \"vxlan\""),
    (
        WIRE,
        "tunnel = \"vxlan\"\nvni = \"42\"",
        "such as 42; write it without quotes",
    ),
    (
        WIRE,
        "tunnel = \"l2tpv3\"\nsession = 1\ncookie = 12345678",
        "or \"\" for no cookie; write it in double quotes",
    ),
    (
        PLAYERS,
        "join = [\"10.1.0.2:1\", \"r2:2130\"]",
        "; \"r2:2130\" is no valid address:port",
    ),
    (
        PLAYERS,
        "join = [\"10.1.0.2:1\", \"10.1.0.2:1\"]",
        "such as [\"198.51.100.7:2130\"]; \"10.1.0.2:1\" is listed twice",
    ),
    (
        PLAYERS,
        "peers = [\"203.0.113.0/24\", \"friend.example\", \"198.51.100.7:2130\", \"::1\"]",
        "; \"198.51.100.7:2130\" is no valid IP address, prefix or host name",
    ),
    (
        PLAYERS,
        "peers = [\"203.0.113.9\", \"203.0.113.0/7\"]",
        "; \"203.0.113.0/7\" is no valid IP address, prefix or host name",
    ),
    (
        PLAYERS,
        "peers = [\"203.0.113.256\"]",
        "; \"203.0.113.256\" is no valid IP address, prefix or host name",
    ),
    (
        PLAYERS,
        "peers = [\"my friend\"]",
        "; \"my friend\" is no valid IP address, prefix or host name",
    ),
    (
        PLAYERS,
        "peers = [\"203.0.113.9\", 10]",
        "; entry 2 is no text in double quotes",
    ),
    (
        "[[port]]\nnetwork = \"00000011\"\naddress = \"10.1.0.1\"\npeers = [\"10.1.0.20\"]\n",
        "[[route]]\nport = \"1\"\n",
        "such as 1; write it without quotes",
    ),
];

/// The keys of a second port without its line `[[port]]`.
const PLAIN_AGAIN: &str = "network = \"00000022\"\naddress = \"10.1.0.2\"\n";

/// What follows in the file of a host, and how the line of the fault ends.
const HOSTS: [(&str, &str); 7] = [
    ("socket = \"4003\"", "line 5: duplicate key"),
    (
        "port = 213",
        "reads a host's file; the UDP port is udp_port",
    ),
    ("[[port]]", "reads a host's file"),
    (
        "peers = [\"10.1.0.21\", \"b\"]",
        "; \"b\" is no valid IP address",
    ),
    (
        "routers = [\"10.1.0.21\"]",
        "; \"10.1.0.21\" is not in peers",
    ),
    (
        "allow = [\"00000022\", \"22\"]",
        "; \"22\" is no valid network",
    ),
    (
        "accept = true",
        "expected \"peers\" or \"any\"; write it in double quotes",
    ),
];

/// What is printed of the file of a router.
fn site_line(alloc: Global, text: &str) -> Result<String, AllocError> {
    match read_site(alloc, text) {
        Ok(_) => String::from_str(alloc, "none"),
        Err(fault) => format!(in alloc; "{}", FaultLine::new(alloc, text, &fault)),
    }
}

/// What is printed of the file of a host.
fn host_line(alloc: Global, text: &str) -> Result<String, AllocError> {
    match read_host(alloc, text) {
        Ok(_) => String::from_str(alloc, "none"),
        Err(fault) => format!(in alloc; "{}", FaultLine::new(alloc, text, &fault)),
    }
}

#[test]
fn remarks_of_sites(rt: HostRuntime) -> Result<(), AllocError> {
    for (port, rest, end) in SITES {
        let text = format!(in rt.alloc(); "{port}{rest}")?;
        let line = site_line(rt.alloc(), text.as_str())?;
        let (line, wanted) = (line.as_str(), end);
        assert!(rt; line.ends_with(wanted), "{line}");
    }
    Ok(())
}

#[test]
fn remarks_of_hosts(rt: HostRuntime) -> Result<(), AllocError> {
    for (rest, end) in HOSTS {
        let text = format!(in rt.alloc(); "{HOST}{rest}")?;
        let line = host_line(rt.alloc(), text.as_str())?;
        assert!(rt; line.as_str().ends_with(end), "{line}");
    }
    Ok(())
}

/// A list of 257 entries, each of them valid.
#[test]
fn remark_of_a_long_list(rt: HostRuntime) -> Result<(), AllocError> {
    let mut text = format!(in rt.alloc(); "{HOST}allow = [")?;
    for _ in 0..257 {
        text.push_str("\"00000022\", ")?;
    }
    text.push_str("]\n")?;
    let line = host_line(rt.alloc(), text.as_str())?;
    assert!(rt; line.as_str().ends_with("; the list has 257 entries"));
    Ok(())
}
