//! The metrics text of access lists at RFC 1234 ports, in a router with ports of other kinds before
//! and between them.

use ipx_site::{PortIndex, put_access_list_metrics};
use ipx_sockets::PortFilterDrops;
use std::alloc::{AllocError, Global};

/// An Ethernet port, an RFC 1234 port, an ipxnet port, another RFC 1234 port, and another Ethernet
/// port.
const PORT_INDICES: [PortIndex; 5] = [
    PortIndex::Ethernet(0),
    PortIndex::Datagrams(0),
    PortIndex::IpxnetServer(0),
    PortIndex::Datagrams(1),
    PortIndex::Ethernet(1),
];

const KEPT: [PortFilterDrops; 2] = [
    PortFilterDrops {
        unknown_senders: 3,
        refused: 5,
    },
    PortFilterDrops {
        unknown_senders: 7,
        refused: 11,
    },
];

const TEXT: &str = "\
# HELP ipx_port_unknown_senders_total Datagrams from unknown senders, by port.
# TYPE ipx_port_unknown_senders_total counter
ipx_port_unknown_senders_total{port=\"2\"} 3
ipx_port_unknown_senders_total{port=\"4\"} 7
# HELP ipx_port_egress_filtered_total Datagrams not sent because the destination is not a peer, by \
port.
# TYPE ipx_port_egress_filtered_total counter
ipx_port_egress_filtered_total{port=\"2\"} 5
ipx_port_egress_filtered_total{port=\"4\"} 11
";

#[test]
fn metrics_of_access_lists_in_text(rt: HostRuntime) -> Result<(), AllocError> {
    let mut text = String::new(rt.alloc());
    put_access_list_metrics(&mut text, rt.alloc(), &PORT_INDICES, &KEPT)?;
    assert_eq!(rt; text.as_str(), TEXT);
    Ok(())
}

#[test]
fn no_metrics_without_access_lists(rt: HostRuntime) -> Result<(), AllocError> {
    let mut text = String::new(rt.alloc());
    put_access_list_metrics(
        &mut text,
        rt.alloc(),
        &[PortIndex::Ethernet(0), PortIndex::IpxnetServer(0)],
        &[],
    )?;
    assert_eq!(rt; text.as_str(), "");
    Ok(())
}

/// The text before the metrics of access lists.
const BEFORE: &str = "ipx_uptime_seconds 7\n";

/// That text, made again if out of memory.
fn text_before(alloc: Global) -> Result<String, AllocError> {
    match String::from_str(alloc, BEFORE) {
        Ok(text) => Ok(text),
        Err(_) => String::from_str(alloc, BEFORE),
    }
}

/// The metrics follow the text completely; if out of memory, the text is unchanged.
#[test]
fn refused_metrics_of_access_lists(rt: HostRuntime) -> Result<(), AllocError> {
    let alloc = rt.alloc();
    let mut text = text_before(alloc)?;
    if put_access_list_metrics(&mut text, alloc, &PORT_INDICES, &KEPT).is_err() {
        assert_eq!(rt; text.as_str(), BEFORE);
        put_access_list_metrics(&mut text, alloc, &PORT_INDICES, &KEPT)?;
    }
    assert!(rt; text.as_str().starts_with(BEFORE));
    assert_eq!(rt; &text.as_str()[BEFORE.len()..], TEXT);
    Ok(())
}
