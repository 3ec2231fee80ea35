//! The file that does what `ipx ipxnet` does: its text, and what is read from it.

use crate::fixture::site;
use ipx_config::{Accept, Directed, IpxnetPortConfig, PortConfig, RouterConfig};
use ipx_site::ipxnet_file;
use ipx_wire::{Network, Node};

const AT_2130: &str = "\
# In DOSBox, players type `ipxnet connect ADDRESS 2130`, with the address of this machine.
# To change something, put these lines into a file, and run `ipx route FILE`.
[[port]]
kind = \"ipxnet\"
network = \"0000d05b\"
address = \"any\"
udp_port = 2130
accept = \"any\"
";

#[test]
fn ipxnet_file_at_2130(rt: HostRuntime) {
    let Ok(text) = ipxnet_file(rt.alloc(), 2130) else {
        panic!(rt; "out of memory");
    };
    assert_eq!(rt; text.as_str(), AT_2130);
}

#[test]
fn refused_ipxnet_file(rt: HostRuntime) {
    if let Ok(text) = ipxnet_file(rt.alloc(), 2130) {
        assert_eq!(rt; text.as_str(), AT_2130);
    }
}

/// A port at each address of the machine, with the defaults of CONFIGURATION.md. Its node is that of
/// 0.0.0.0 with this UDP port.
fn is_open(port: &IpxnetPortConfig, udp_port: u16) -> bool {
    let [high, low] = udp_port.to_be_bytes();
    port.network == Network(0xd05b)
        && port.address == [0, 0, 0, 0]
        && port.udp_port == udp_port
        && port.node == Node([2, 0, 0, 0, high, low])
        && port.cost == 1
        && port.clients == 64
        && port.accept == Accept::Any
        && port.directed == Directed::Few
        && port.peers.is_empty()
        && port.join.is_empty()
}

/// One such port, and no file besides.
fn is_server(site: &RouterConfig, udp_port: u16) -> bool {
    let files = [&site.metrics_file, &site.tables_file, &site.secret_file];
    files.iter().all(|file| file.is_none())
        && site.statics.is_empty()
        && match site.ports.as_slice() {
            [PortConfig::Ipxnet(port)] => is_open(port, udp_port),
            _ => false,
        }
}

/// The least and the greatest port of each number of digits, and two that are used.
const PORTS: [u16; 12] = [
    1, 9, 10, 99, 100, 213, 999, 1_000, 2_130, 9_999, 10_000, 65_535,
];

#[test]
fn reads_ipxnet_files(rt: HostRuntime) {
    for port in PORTS {
        let Ok(text) = ipxnet_file(rt.alloc(), port) else {
            panic!(rt; "out of memory");
        };
        let read = site(rt.alloc(), &text);
        assert!(rt; read.is_some_and(|read| is_server(&read, port)));
    }
}
