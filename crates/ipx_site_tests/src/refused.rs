//! Parsing the files of a site when out of memory: a file is parsed as it is, or memory runs out.
//! Run these with each allocation refused.

use ipx_config::{ConfigError, PortConfig, RemotesConfig, ports_to_texts, read_host, read_site};
use ipx_rate_limits::limits_of;
use ipx_site::static_neighbours_of;

/// A router with an RFC 1234 port, Ethernet ports, one of them with a tunnel, an ipxnet port, and
/// static entries.
const SITE: &str = "\
metrics_file = \"/run/ipx/hq.prom\"
tables_file = \"/run/ipx/hq.tables\"

[[port]]
network = \"00000001\"
address = \"192.0.2.10\"
udp_port = 2130
cost = 6
peers = [\"198.51.100.7\", \"203.0.113.9\"]
accept = \"any\"

[[port]]
network = \"00000022\"
address = \"10.1.0.1\"
peers = [\"10.1.0.20\"]

[[port]]
kind = \"ethernet\"
network = \"00000033\"
encapsulation = \"802.3\"
address = \"127.0.0.1\"
udp_port = 24002
remotes = [\"127.0.0.1:24001\", \"127.0.0.1:24003\"]

[[port]]
kind = \"ethernet\"
network = \"00000044\"
encapsulation = \"802.2\"
address = \"127.0.0.1\"
tunnel = \"l2tpv3\"
session = 1
cookie = \"0123456789abcdef\"
remotes = [\"127.0.0.7\", \"127.0.0.9\"]

[[port]]
kind = \"ipxnet\"
network = \"0000d05b\"
address = \"192.0.2.10\"
udp_port = 2131
peers = [\"198.51.100.7\", \"203.0.113.9\"]

[[route]]
network = \"000000aa\"
port = 1
next_hop = \"198.51.100.7\"

[[service]]
type = \"0640\"
name = \"BACKUP\"
ipx_address = \"00000011 00000a010014 4002\"
port = 2
next_hop = \"10.1.0.20\"
";

const HOST: &str = "\
network = \"00000011\"
address = \"10.1.0.20\"
router = \"10.1.0.1\"
socket = \"4002\"
peers = [\"10.1.0.2\", \"10.1.0.21\"]
routers = [\"10.1.0.2\"]
allow = [\"00000022 00000a02001e\", \"00000033\"]
";

/// A key that a host does not have.
const COST_OF_A_HOST: &str = "network = \"00000011\"\ncost = 1\n";

/// A text that ends too soon, which is not TOML.
const CUT: &str = "network = ";

/// The number of places that a port sends to.
fn reached(port: &PortConfig) -> usize {
    match port {
        PortConfig::Rfc1234(port) => port.peers.len(),
        PortConfig::Ethernet(port) => match &port.remotes {
            RemotesConfig::Listed(ends) => ends.len(),
            RemotesConfig::Learned => 0,
        },
        PortConfig::Ipxnet(port) => port.peers.len(),
    }
}

#[test]
fn refused_site(rt: HostRuntime) {
    match read_site(rt.alloc(), SITE) {
        Ok(site) => {
            assert!(rt;
                site.ports.len() == 5 && site.metrics_file.is_some() && site.tables_file.is_some()
            );
            assert!(rt; site.ports.first().is_some_and(|port| reached(port) == 2));
            assert!(rt; site.ports.last().is_some_and(|port| reached(port) == 2));
            assert!(rt; site.statics.len() == 2);
            if let Ok(silent) = static_neighbours_of(rt.alloc(), &site.statics) {
                assert!(rt; silent.len() == 2 && silent[1].services.len() == 1);
            }
            if let Ok(limits) = limits_of(rt.alloc(), &site.ports) {
                assert_eq!(rt; limits.len(), 5);
            }
            if let Ok(texts) = ports_to_texts(rt.alloc(), &site.ports) {
                assert_eq!(rt; texts.len(), 5);
            }
        }
        Err(fault) => assert!(rt; matches!(fault, ConfigError::OutOfMemory)),
    }
}

#[test]
fn refused_host(rt: HostRuntime) {
    match read_host(rt.alloc(), HOST) {
        Ok(host) => {
            assert!(rt; host.router == [10, 1, 0, 1] && host.buffers == 1024);
            assert!(rt; host.from.as_ref().is_some_and(|from| from.len() == 2));
            assert!(rt; host.peers.len() == 2 && host.routers.len() == 1);
        }
        Err(fault) => assert!(rt; matches!(fault, ConfigError::OutOfMemory)),
    }
}

/// A fault is reported, or memory runs out: a file with a fault is never accepted.
#[test]
fn refused_faults_of_files(rt: HostRuntime) {
    match read_host(rt.alloc(), COST_OF_A_HOST) {
        Ok(_) => assert!(rt; false),
        Err(fault) => {
            assert!(rt; matches!(fault, ConfigError::Unknown(0, _) | ConfigError::OutOfMemory));
        }
    }
    match read_site(rt.alloc(), CUT) {
        Ok(_) => assert!(rt; false),
        Err(fault) => assert!(rt;
            matches!(fault, ConfigError::NotToml(..) | ConfigError::OutOfMemory)
        ),
    }
}
