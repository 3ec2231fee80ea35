//! The whole text of a metrics page, for a router with a port of each kind. Each metric has its own
//! number, so that a name or label with another metric's number is noticed.

use crate::metrics::METRICS;
use ipx_carrier::{Core, OutcomeCounters};
use ipx_ethernet::FrameCounters;
use ipx_ethernet_ports::TunnelDrops;
use ipx_metrics::{MeteredRouter, PortCounts};
use ipx_router::{Port, Router};
use ipx_site::{
    EthernetMetrics, EthernetPortMetrics, IpxnetMetrics, IpxnetPortMetrics, MetricsPage, PortIndex,
    TunnelMetrics, TunnelPortMetrics,
};
use ipx_sockets::PortFilterDrops;
use ipx_wire::{Network, Node};
use ipxnet_server::ServerCounts;
use std::alloc::{AllocError, Global};
use std::test::Fail;

/// The header of a broadcast of network 11 from node 00000a010003: its length, type and socket.
fn header(bytes: &mut [u8], kind: u8, socket: u16) {
    let length = bytes.len() as u16;
    bytes[..2].copy_from_slice(&[0xff, 0xff]);
    bytes[2..4].copy_from_slice(&length.to_be_bytes());
    bytes[5] = kind;
    bytes[9] = 0x11;
    bytes[10..16].copy_from_slice(&[0xff; 6]);
    bytes[16..18].copy_from_slice(&socket.to_be_bytes());
    bytes[21] = 0x11;
    bytes[22..28].copy_from_slice(&[0, 0, 0x0a, 1, 0, 3]);
    bytes[28..30].copy_from_slice(&socket.to_be_bytes());
    bytes[31] = 2;
}

/// A RIP response that offers a network, one hop and two ticks away.
fn network(number: u8) -> [u8; 40] {
    let mut bytes = [0; 40];
    header(&mut bytes, 1, 0x0453);
    bytes[34..36].copy_from_slice(&[1, number]);
    bytes[37] = 1;
    bytes[39] = 2;
    bytes
}

/// A SAP response that offers a file server on network 11, whose name is one letter.
fn service(name: u8) -> [u8; 96] {
    let mut bytes = [0; 96];
    header(&mut bytes, 4, 0x0452);
    bytes[33] = 4;
    bytes[34] = name;
    bytes[85] = 0x11;
    bytes[91] = 1;
    bytes[92..94].copy_from_slice(&[0x04, 0x51]);
    bytes[95] = 1;
    bytes
}

fn port(network: u32, last: u8) -> Port {
    Port {
        network: Network(network),
        node: Node([0, 0, 0x7f, 0, 0, last]),
        cost: 1,
    }
}

/// A router on networks 11, 22 and 33. It heard 31 networks and 30 services of one neighbour, the
/// last at 3000 ms.
fn router(alloc: Global) -> Result<MeteredRouter, Fail> {
    let ports = vec![in alloc; port(0x11, 1), port(0x22, 2), port(0x33, 3)]?;
    let mut core = MeteredRouter::new(alloc, Router::new(alloc, ports)?)?;
    for number in 0..31 {
        core.hear(alloc, 0, &network(number), 2000)?;
    }
    for place in 0..30 {
        core.hear(alloc, 0, &service(b'A' + place), 3000)?;
    }
    Ok(core)
}

/// The counters of a port, numbered from `first`.
fn counts_from(first: u64) -> PortCounts {
    PortCounts {
        outcomes: OutcomeCounters {
            forwarded: first + 1,
            answered: first + 2,
            heard: first + 3,
            bad: first + 4,
            propagated: first + 5,
            not_ours: first + 6,
            no_route: first + 7,
            hop_limit: first + 8,
            bad_control: first + 9,
            table_full: first + 10,
        },
        heard_bytes: first + 11,
        sent: first + 12,
        sent_bytes: first + 13,
    }
}

fn ethernet(alloc: Global) -> Result<EthernetMetrics, AllocError> {
    let frames = FrameCounters {
        handed_on: 501,
        not_ours: 502,
        own: 503,
        other_type: 504,
        other_llc: 505,
        tagged: 506,
        broken: 507,
        no_packet: 508,
        other_network: 509,
        in_raw: 510,
        in_llc: 511,
        in_snap: 512,
        in_ethernet_ii: 513,
    };
    let port = EthernetPortMetrics {
        number: 2,
        frames,
        passed: 514,
        refused: 515,
    };
    Ok(EthernetMetrics {
        ports: vec![in alloc; port]?,
        unknown_senders: 516,
        sent: 517,
    })
}

fn tunnels(alloc: Global) -> Result<TunnelMetrics, AllocError> {
    let drops = TunnelDrops {
        short: 702,
        not_vxlan: 703,
        other_vni: 704,
        control: 705,
        other_version: 706,
        other_session: 707,
        other_cookie: 708,
        last: None,
    };
    let port = TunnelPortMetrics { number: 2, drops };
    Ok(TunnelMetrics {
        ports: vec![in alloc; port]?,
    })
}

fn ipxnet(alloc: Global) -> Result<IpxnetMetrics, AllocError> {
    let drops = ServerCounts {
        malformed: 602,
        unregistered: 603,
        other_source: 604,
        too_long: 605,
        no_such_node: 606,
        to_itself: 607,
        ping_elsewhere: 608,
        broadcast_elsewhere: 609,
        from_elsewhere: 610,
        response: 611,
        not_behind: 612,
        for_elsewhere: 613,
        node_taken: 614,
        full_of_address: 615,
        full: 616,
        rate_limited: 619,
        busy: 620,
    };
    let port = IpxnetPortMetrics {
        number: 3,
        clients: 601,
        drops,
    };
    Ok(IpxnetMetrics {
        ports: vec![in alloc; port]?,
        unknown_senders: 617,
        sent: 618,
    })
}

const TEXT: &str = "\
# HELP ipx_receive_packets_total Datagrams that the router itself processed, none between two \
players or two remotes.
# TYPE ipx_receive_packets_total counter
ipx_receive_packets_total 1
# HELP ipx_transmit_packets_total Datagrams sent at RFC 1234 ports, one for each peer that a \
packet goes to.
# TYPE ipx_transmit_packets_total counter
ipx_transmit_packets_total 2
# HELP ipx_outcomes_total Datagrams received and not dropped, by outcome.
# TYPE ipx_outcomes_total counter
ipx_outcomes_total{outcome=\"forwarded\"} 3
ipx_outcomes_total{outcome=\"answered\"} 4
ipx_outcomes_total{outcome=\"heard\"} 5
# HELP ipx_dropped_total Packets dropped, by reason.
# TYPE ipx_dropped_total counter
ipx_dropped_total{reason=\"bad\"} 6
ipx_dropped_total{reason=\"propagated\"} 7
ipx_dropped_total{reason=\"not_ours\"} 8
ipx_dropped_total{reason=\"no_route\"} 9
ipx_dropped_total{reason=\"hop_limit\"} 10
ipx_dropped_total{reason=\"bad_control\"} 11
ipx_dropped_total{reason=\"table_full\"} 12
ipx_dropped_total{reason=\"queue_full\"} 13
ipx_dropped_total{reason=\"unmapped\"} 14
# HELP ipx_unknown_senders_total Datagrams to RFC 1234 ports from unknown senders.
# TYPE ipx_unknown_senders_total counter
ipx_unknown_senders_total 15
# HELP ipx_filtered_total Other datagrams filtered, by reason.
# TYPE ipx_filtered_total counter
ipx_filtered_total{reason=\"spoofed_source\"} 23
ipx_filtered_total{reason=\"not_a_router\"} 24
ipx_filtered_total{reason=\"rate_limited\"} 25
ipx_filtered_total{reason=\"directed_broadcast\"} 32
ipx_filtered_total{reason=\"forwarded_control\"} 33
ipx_filtered_total{reason=\"group_source\"} 35
ipx_filtered_total{reason=\"looped_source\"} 34
# HELP ipx_egress_filtered_total Datagrams not sent because the destination is not a peer.
# TYPE ipx_egress_filtered_total counter
ipx_egress_filtered_total 16
# HELP ipx_errors_total Errors of the system, by kind.
# TYPE ipx_errors_total counter
ipx_errors_total{kind=\"device\"} 17
ipx_errors_total{kind=\"memory\"} 18
ipx_errors_total{kind=\"file\"} 19
# HELP ipx_send_queue_packets Packets in the send queue.
# TYPE ipx_send_queue_packets gauge
ipx_send_queue_packets 29
# HELP ipx_routes Known networks that are not at a port.
# TYPE ipx_routes gauge
ipx_routes 20
# HELP ipx_services Known services.
# TYPE ipx_services gauge
ipx_services 21
# HELP ipx_uptime_seconds Seconds since the start.
# TYPE ipx_uptime_seconds gauge
ipx_uptime_seconds 22
# HELP ipx_port_receive_packets_total Datagrams that the router itself processed, by port of \
arrival.
# TYPE ipx_port_receive_packets_total counter
ipx_port_receive_packets_total{port=\"1\",network=\"00000011\"} 1055
ipx_port_receive_packets_total{port=\"2\",network=\"00000022\"} 2055
ipx_port_receive_packets_total{port=\"3\",network=\"00000033\"} 3055
# HELP ipx_port_receive_bytes_total Bytes of ipx_port_receive_packets_total, from the IPX header on.
# TYPE ipx_port_receive_bytes_total counter
ipx_port_receive_bytes_total{port=\"1\",network=\"00000011\"} 111
ipx_port_receive_bytes_total{port=\"2\",network=\"00000022\"} 211
ipx_port_receive_bytes_total{port=\"3\",network=\"00000033\"} 311
# HELP ipx_port_transmit_packets_total Packets that the router itself gave to a port, each \
counted once.
# TYPE ipx_port_transmit_packets_total counter
ipx_port_transmit_packets_total{port=\"1\",network=\"00000011\"} 112
ipx_port_transmit_packets_total{port=\"2\",network=\"00000022\"} 212
ipx_port_transmit_packets_total{port=\"3\",network=\"00000033\"} 312
# HELP ipx_port_transmit_bytes_total Bytes of ipx_port_transmit_packets_total, from the IPX \
header on.
# TYPE ipx_port_transmit_bytes_total counter
ipx_port_transmit_bytes_total{port=\"1\",network=\"00000011\"} 113
ipx_port_transmit_bytes_total{port=\"2\",network=\"00000022\"} 213
ipx_port_transmit_bytes_total{port=\"3\",network=\"00000033\"} 313
# HELP ipx_port_dropped_total Datagrams dropped, by port of arrival and reason.
# TYPE ipx_port_dropped_total counter
ipx_port_dropped_total{port=\"1\",reason=\"bad\"} 104
ipx_port_dropped_total{port=\"1\",reason=\"propagated\"} 105
ipx_port_dropped_total{port=\"1\",reason=\"not_ours\"} 106
ipx_port_dropped_total{port=\"1\",reason=\"no_route\"} 107
ipx_port_dropped_total{port=\"1\",reason=\"hop_limit\"} 108
ipx_port_dropped_total{port=\"1\",reason=\"bad_control\"} 109
ipx_port_dropped_total{port=\"1\",reason=\"table_full\"} 110
ipx_port_dropped_total{port=\"2\",reason=\"bad\"} 204
ipx_port_dropped_total{port=\"2\",reason=\"propagated\"} 205
ipx_port_dropped_total{port=\"2\",reason=\"not_ours\"} 206
ipx_port_dropped_total{port=\"2\",reason=\"no_route\"} 207
ipx_port_dropped_total{port=\"2\",reason=\"hop_limit\"} 208
ipx_port_dropped_total{port=\"2\",reason=\"bad_control\"} 209
ipx_port_dropped_total{port=\"2\",reason=\"table_full\"} 210
ipx_port_dropped_total{port=\"3\",reason=\"bad\"} 304
ipx_port_dropped_total{port=\"3\",reason=\"propagated\"} 305
ipx_port_dropped_total{port=\"3\",reason=\"not_ours\"} 306
ipx_port_dropped_total{port=\"3\",reason=\"no_route\"} 307
ipx_port_dropped_total{port=\"3\",reason=\"hop_limit\"} 308
ipx_port_dropped_total{port=\"3\",reason=\"bad_control\"} 309
ipx_port_dropped_total{port=\"3\",reason=\"table_full\"} 310
# HELP ipx_port_unknown_senders_total Datagrams from unknown senders, by port.
# TYPE ipx_port_unknown_senders_total counter
ipx_port_unknown_senders_total{port=\"1\"} 401
# HELP ipx_port_egress_filtered_total Datagrams not sent because the destination is not a peer, by \
port.
# TYPE ipx_port_egress_filtered_total counter
ipx_port_egress_filtered_total{port=\"1\"} 402
# HELP ipx_neighbour_networks Networks learned from a neighbour that are still valid.
# TYPE ipx_neighbour_networks gauge
ipx_neighbour_networks{port=\"1\",node=\"00000a010003\"} 31
# HELP ipx_neighbour_services Services learned from a neighbour that are still valid.
# TYPE ipx_neighbour_services gauge
ipx_neighbour_services{port=\"1\",node=\"00000a010003\"} 30
# HELP ipx_neighbour_last_heard_seconds Seconds since the neighbour last advertised a network or service.
# TYPE ipx_neighbour_last_heard_seconds gauge
ipx_neighbour_last_heard_seconds{port=\"1\",node=\"00000a010003\"} 40
# HELP ipx_frames_total Frames received on an Ethernet port, by outcome.
# TYPE ipx_frames_total counter
ipx_frames_total{port=\"2\",outcome=\"handed_on\"} 501
ipx_frames_total{port=\"2\",outcome=\"broken\"} 507
ipx_frames_total{port=\"2\",outcome=\"own\"} 503
ipx_frames_total{port=\"2\",outcome=\"not_ours\"} 502
ipx_frames_total{port=\"2\",outcome=\"tagged\"} 506
ipx_frames_total{port=\"2\",outcome=\"other_type\"} 504
ipx_frames_total{port=\"2\",outcome=\"other_llc\"} 505
ipx_frames_total{port=\"2\",outcome=\"no_packet\"} 508
ipx_frames_total{port=\"2\",outcome=\"other_network\"} 509
ipx_frames_total{port=\"2\",outcome=\"in_802.3\"} 510
ipx_frames_total{port=\"2\",outcome=\"in_802.2\"} 511
ipx_frames_total{port=\"2\",outcome=\"in_snap\"} 512
ipx_frames_total{port=\"2\",outcome=\"in_ethernet-ii\"} 513
# HELP ipx_frames_forwarded_total Frames from one remote that the switch forwards to others.
# TYPE ipx_frames_forwarded_total counter
ipx_frames_forwarded_total{port=\"2\"} 514
# HELP ipx_frames_refused_total Packets that do not fit into a frame.
# TYPE ipx_frames_refused_total counter
ipx_frames_refused_total{port=\"2\"} 515
# HELP ipx_frames_unknown_senders_total Datagrams to an Ethernet port from unknown senders.
# TYPE ipx_frames_unknown_senders_total counter
ipx_frames_unknown_senders_total 516
# HELP ipx_transmit_frames_total Frames that the system accepted for sending.
# TYPE ipx_transmit_frames_total counter
ipx_transmit_frames_total 517
# HELP ipx_tunnel_dropped_total Datagrams of remotes that carry no frame in the tunnel of their \
port, by reason.
# TYPE ipx_tunnel_dropped_total counter
ipx_tunnel_dropped_total{port=\"2\",reason=\"short\"} 702
ipx_tunnel_dropped_total{port=\"2\",reason=\"not_vxlan\"} 703
ipx_tunnel_dropped_total{port=\"2\",reason=\"other_vni\"} 704
ipx_tunnel_dropped_total{port=\"2\",reason=\"control\"} 705
ipx_tunnel_dropped_total{port=\"2\",reason=\"other_version\"} 706
ipx_tunnel_dropped_total{port=\"2\",reason=\"other_session\"} 707
ipx_tunnel_dropped_total{port=\"2\",reason=\"other_cookie\"} 708
# HELP ipx_ipxnet_clients Players connected at the port.
# TYPE ipx_ipxnet_clients gauge
ipx_ipxnet_clients{port=\"3\"} 601
# HELP ipx_ipxnet_dropped_total Datagrams from clients and packets to clients that were dropped, by \
reason.
# TYPE ipx_ipxnet_dropped_total counter
ipx_ipxnet_dropped_total{port=\"3\",reason=\"malformed\"} 602
ipx_ipxnet_dropped_total{port=\"3\",reason=\"node_taken\"} 614
ipx_ipxnet_dropped_total{port=\"3\",reason=\"full_of_address\"} 615
ipx_ipxnet_dropped_total{port=\"3\",reason=\"full\"} 616
ipx_ipxnet_dropped_total{port=\"3\",reason=\"unregistered\"} 603
ipx_ipxnet_dropped_total{port=\"3\",reason=\"other_source\"} 604
ipx_ipxnet_dropped_total{port=\"3\",reason=\"too_long\"} 605
ipx_ipxnet_dropped_total{port=\"3\",reason=\"no_such_node\"} 606
ipx_ipxnet_dropped_total{port=\"3\",reason=\"to_itself\"} 607
ipx_ipxnet_dropped_total{port=\"3\",reason=\"ping_elsewhere\"} 608
ipx_ipxnet_dropped_total{port=\"3\",reason=\"broadcast_elsewhere\"} 609
ipx_ipxnet_dropped_total{port=\"3\",reason=\"from_elsewhere\"} 610
ipx_ipxnet_dropped_total{port=\"3\",reason=\"response\"} 611
ipx_ipxnet_dropped_total{port=\"3\",reason=\"not_behind\"} 612
ipx_ipxnet_dropped_total{port=\"3\",reason=\"for_elsewhere\"} 613
ipx_ipxnet_dropped_total{port=\"3\",reason=\"rate_limited\"} 619
ipx_ipxnet_dropped_total{port=\"3\",reason=\"busy\"} 620
# HELP ipx_ipxnet_unknown_senders_total Datagrams from senders that may not register.
# TYPE ipx_ipxnet_unknown_senders_total counter
ipx_ipxnet_unknown_senders_total 617
# HELP ipx_ipxnet_transmit_packets_total Datagrams to clients that the system accepted for sending.
# TYPE ipx_ipxnet_transmit_packets_total counter
ipx_ipxnet_transmit_packets_total 618
";

const PORT_INDICES: [PortIndex; 3] = [
    PortIndex::Datagrams(0),
    PortIndex::Ethernet(0),
    PortIndex::IpxnetServer(0),
];

const FILTERED: [PortFilterDrops; 1] = [PortFilterDrops {
    unknown_senders: 401,
    refused: 402,
}];

/// The metrics of a router at 43,500 ms.
fn page_of<'a>(
    core: &'a MeteredRouter,
    counters: &'a [PortCounts],
    ethernet: &'a EthernetMetrics,
    tunnels: &'a TunnelMetrics,
    ipxnet: &'a IpxnetMetrics,
) -> MetricsPage<'a> {
    MetricsPage {
        totals: METRICS,
        router: core.router(),
        now: 43_500,
        counters,
        port_indices: &PORT_INDICES,
        filtered: &FILTERED,
        ethernet,
        tunnels,
        ipxnet,
    }
}

#[test]
fn whole_page_of_metrics(rt: HostRuntime) -> Result<(), Fail> {
    let alloc = rt.alloc();
    let core = router(alloc)?;
    let counters = [counts_from(100), counts_from(200), counts_from(300)];
    let ethernet = ethernet(alloc)?;
    let tunnels = tunnels(alloc)?;
    let ipxnet = ipxnet(alloc)?;
    let text = page_of(&core, &counters, &ethernet, &tunnels, &ipxnet).text(alloc)?;
    for (line, wanted) in text.as_str().lines().zip(TEXT.lines()) {
        assert_eq!(rt; line, wanted);
    }
    assert_eq!(rt; text.as_str(), TEXT);
    Ok(())
}

/// A router that heard nothing, and the counters of its ports; None if out of memory.
fn parts_if_memory(
    alloc: Global,
) -> Option<(MeteredRouter, EthernetMetrics, TunnelMetrics, IpxnetMetrics)> {
    let ports = vec![in alloc; port(0x11, 1), port(0x22, 2), port(0x33, 3)].ok()?;
    let core = MeteredRouter::new(alloc, Router::new(alloc, ports).ok()?).ok()?;
    let ethernet = ethernet(alloc).ok()?;
    Some((core, ethernet, tunnels(alloc).ok()?, ipxnet(alloc).ok()?))
}

/// The text is complete, or the test ran out of memory.
#[test]
fn refused_page_of_metrics(rt: HostRuntime) -> Result<(), Fail> {
    let alloc = rt.alloc();
    let (core, ethernet, tunnels, ipxnet) = match parts_if_memory(alloc) {
        Some(parts) => parts,
        None => (
            router(alloc)?,
            ethernet(alloc)?,
            tunnels(alloc)?,
            ipxnet(alloc)?,
        ),
    };
    let counters = [counts_from(100), counts_from(200), counts_from(300)];
    let page = page_of(&core, &counters, &ethernet, &tunnels, &ipxnet);
    let text = match page.text(alloc) {
        Ok(text) => text,
        Err(_) => page.text(alloc)?,
    };
    let end = "ipx_ipxnet_transmit_packets_total 618\n";
    assert!(rt; text.as_str().ends_with(end));
    Ok(())
}
