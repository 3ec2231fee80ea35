//! The metrics of each of two ports as a text, and the log lines of what the router dropped.

use ipx_carrier::{Core, OutcomeCounters};
use ipx_metrics::{LastDrop, MeteredRouter};
use ipx_router::{Port, Router};
use ipx_site::{DropReason, DropSummary, put_neighbour_metrics, put_port_metrics};
use ipx_wire::{Network, Node};
use std::alloc::{AllocError, Global};
use std::test::Fail;

const NODE: [u8; 6] = [0, 0, 0x0a, 1, 0, 0x14];

/// A datagram of 32 bytes from socket 4003 of that node.
fn datagram(hops: u8, kind: u8, to: u8, socket: u16, from: u8) -> [u8; 32] {
    let mut bytes = [0; 32];
    bytes[..6].copy_from_slice(&[0xff, 0xff, 0, 32, hops, kind]);
    bytes[9] = to;
    bytes[10..16].copy_from_slice(&[0xff; 6]);
    bytes[16..18].copy_from_slice(&socket.to_be_bytes());
    bytes[21] = from;
    bytes[22..28].copy_from_slice(&NODE);
    bytes[28..30].copy_from_slice(&[0x40, 0x03]);
    bytes
}

fn port(network: u32, last: u8) -> Port {
    Port {
        network: Network(network),
        node: Node([0, 0, 0x7f, 0, 0, last]),
        cost: 1,
    }
}

/// A router with ports on networks 11 and 22.
fn two_ports(alloc: Global) -> Result<MeteredRouter, Fail> {
    let router = Router::new(alloc, vec![in alloc; port(0x11, 1), port(0x22, 2)]?)?;
    Ok(MeteredRouter::new(alloc, router)?)
}

/// It receives one datagram of each outcome by its first port, and some of them by its second. Then
/// it gives what it has to send.
fn hear_all(alloc: Global, core: &mut MeteredRouter) -> Result<(), Fail> {
    core.hear(alloc, 0, &[1, 2, 3], 0)?;
    core.hear(alloc, 0, &datagram(0, 4, 0x11, 0x4002, 0x11), 0)?;
    core.hear(alloc, 0, &datagram(15, 4, 0x22, 0x4002, 0x11), 0)?;
    core.hear(alloc, 0, &datagram(0, 20, 0x22, 0x4002, 0x11), 0)?;
    core.hear(alloc, 0, &datagram(0, 1, 0x11, 0x0453, 0x11), 0)?;
    core.hear(alloc, 0, &datagram(0, 4, 0x33, 0x4002, 0x11), 0)?;
    core.hear(alloc, 0, &datagram(0, 4, 0x22, 0x4002, 0x11), 0)?;
    core.hear(alloc, 1, &datagram(0, 4, 0x44, 0x4002, 0x22), 0)?;
    core.hear(alloc, 1, &datagram(0, 4, 0x11, 0x4002, 0x22), 0)?;
    core.hear(alloc, 1, &datagram(0, 4, 0x11, 0x4002, 0x22), 0)?;
    let mut room = [0; 1536];
    while core.next(alloc, 0, &mut room)?.is_some() {}
    Ok(())
}

/// A count, summed over the ports.
fn sum(core: &MeteredRouter, of: fn(&OutcomeCounters) -> u64) -> u64 {
    core.port_counters()
        .iter()
        .map(|port| of(&port.outcomes))
        .sum()
}

#[test]
fn ports_make_up_the_whole(rt: HostRuntime) -> Result<(), Fail> {
    let alloc = rt.alloc();
    let mut core = two_ports(alloc)?;
    hear_all(alloc, &mut core)?;
    let all = core.outcomes();
    assert_eq!(rt; (all.bad, all.not_ours, all.hop_limit), (1, 1, 1));
    assert_eq!(rt;
        (all.propagated, all.bad_control, all.no_route, all.forwarded),
        (1, 1, 2, 3)
    );
    assert_eq!(rt; sum(&core, |outcomes| outcomes.bad), all.bad);
    assert_eq!(rt; sum(&core, |outcomes| outcomes.not_ours), all.not_ours);
    assert_eq!(rt; sum(&core, |outcomes| outcomes.hop_limit), all.hop_limit);
    assert_eq!(rt; sum(&core, |outcomes| outcomes.propagated), all.propagated);
    assert_eq!(rt;
        sum(&core, |outcomes| outcomes.bad_control),
        all.bad_control
    );
    assert_eq!(rt; sum(&core, |outcomes| outcomes.no_route), all.no_route);
    assert_eq!(rt; sum(&core, |outcomes| outcomes.forwarded), all.forwarded);
    Ok(())
}

const LINES: [&str; 8] = [
    "ipx_port_receive_packets_total{port=\"1\",network=\"00000011\"} 7\n",
    "ipx_port_receive_packets_total{port=\"2\",network=\"00000022\"} 3\n",
    "ipx_port_receive_bytes_total{port=\"1\",network=\"00000011\"} 195\n",
    "ipx_port_receive_bytes_total{port=\"2\",network=\"00000022\"} 96\n",
    "ipx_port_dropped_total{port=\"1\",reason=\"no_route\"} 1\n",
    "ipx_port_dropped_total{port=\"2\",reason=\"no_route\"} 1\n",
    "ipx_port_dropped_total{port=\"1\",reason=\"hop_limit\"} 1\n",
    "ipx_port_dropped_total{port=\"2\",reason=\"hop_limit\"} 0\n",
];

#[test]
fn metrics_of_ports_in_text(rt: HostRuntime) -> Result<(), Fail> {
    let alloc = rt.alloc();
    let mut core = two_ports(alloc)?;
    hear_all(alloc, &mut core)?;
    let mut text = String::new(alloc);
    put_port_metrics(
        &mut text,
        alloc,
        core.router().ports(),
        core.port_counters(),
    )?;
    for line in LINES {
        assert!(rt; text.as_str().contains(line), "{line}");
    }
    Ok(())
}

fn said(alloc: Global, reason: DropReason, last: Option<LastDrop>) -> Result<String, AllocError> {
    let network = Some(Network(0x11));
    let words = DropSummary {
        reason,
        last,
        network,
    };
    format!(in alloc; "{words}")
}

#[test]
fn lines_of_what_was_dropped(rt: HostRuntime) -> Result<(), Fail> {
    let alloc = rt.alloc();
    let mut core = two_ports(alloc)?;
    hear_all(alloc, &mut core)?;
    let last = core.last();
    let bad = said(alloc, DropReason::Bad, last.bad)?;
    assert_eq!(rt; bad.as_str(), "bad, the last on port 1");
    let not_ours = said(alloc, DropReason::NotOurs, last.not_ours)?;
    assert_eq!(rt;
        not_ours.as_str(),
        "not ours, the last from 00000011 00000a010014 4003 on port 1"
    );
    let no_route = said(alloc, DropReason::NoRoute, last.no_route)?;
    assert_eq!(rt;
        no_route.as_str(),
        "no route 00000044, the last from 00000022 00000a010014 4003 on port 2"
    );
    let hop_limit = said(alloc, DropReason::HopLimit, last.hop_limit)?;
    assert_eq!(rt;
        hop_limit.as_str(),
        "hop limit, the last from 00000011 00000a010014 4003 on port 1"
    );
    let control = said(alloc, DropReason::BadControl, last.bad_control)?;
    assert_eq!(rt;
        control.as_str(),
        "bad control, the last from 00000011 00000a010014 4003 on port 1"
    );
    assert_eq!(rt; said(alloc, DropReason::Bad, None)?.as_str(), "bad");
    let forwarded = said(alloc, DropReason::ForwardedControl, last.not_ours)?;
    assert_eq!(rt;
        forwarded.as_str(),
        "forwarded control, the last from 00000011 00000a010014 4003 on port 1"
    );
    let grouped = said(alloc, DropReason::GroupSource, last.not_ours)?;
    assert_eq!(rt;
        grouped.as_str(),
        "RIP or SAP with a group or zero source node, the last from 00000011 00000a010014 4003 on port 1"
    );
    let looped = said(alloc, DropReason::LoopedSource, last.no_route)?;
    assert_eq!(rt;
        looped.as_str(),
        "looped source (sender uses network 00000022, this port has 00000011), the last from 00000022 \
            00000a010014 4003 on port 2"
    );
    let nowhere = said(alloc, DropReason::LoopedSource, None)?;
    assert_eq!(rt; nowhere.as_str(), "looped source");
    Ok(())
}

fn warns(reason: DropReason, last: Option<LastDrop>) -> bool {
    let network = None;
    DropSummary {
        reason,
        last,
        network,
    }
    .warns()
}

/// What is for all nodes of a network reaches its router too, and is no fault. Anything else is a
/// fault. So is a neighbour's RIP or SAP packet with another number for the network.
#[test]
fn warns_of_faults(rt: HostRuntime) -> Result<(), Fail> {
    let alloc = rt.alloc();
    let mut core = two_ports(alloc)?;
    hear_all(alloc, &mut core)?;
    let last = core.last();
    assert!(rt; !warns(DropReason::NotOurs, last.not_ours));
    assert!(rt; warns(DropReason::Bad, last.bad));
    assert!(rt; warns(DropReason::NoRoute, last.no_route));
    assert!(rt; warns(DropReason::HopLimit, last.hop_limit));
    assert!(rt; warns(DropReason::BadControl, last.bad_control));
    assert!(rt; warns(DropReason::ForwardedControl, last.not_ours));
    assert!(rt; warns(DropReason::GroupSource, last.not_ours));
    assert!(rt; warns(DropReason::LoopedSource, last.not_ours));
    for socket in [0x0453, 0x0452] {
        core.hear(alloc, 0, &datagram(0, 4, 0x11, 0x4002, 0x11), 0)?;
        assert!(rt; !warns(DropReason::NotOurs, core.last().not_ours));
        core.hear(alloc, 0, &datagram(0, 1, 0x11, socket, 0x33), 0)?;
        assert!(rt; warns(DropReason::NotOurs, core.last().not_ours));
    }
    let mut to_a_node = datagram(0, 4, 0x11, 0x4002, 0x11);
    to_a_node[10..16].copy_from_slice(&[0, 0, 0, 0, 0, 9]);
    core.hear(alloc, 0, &to_a_node, 0)?;
    assert!(rt; warns(DropReason::NotOurs, core.last().not_ours));
    assert!(rt; warns(DropReason::NotOurs, None));
    Ok(())
}

/// A RIP response of a neighbour on network 11, which advertises a network.
fn response(neighbour: u16, network: u16) -> [u8; 40] {
    let mut bytes = [0; 40];
    bytes[..32].copy_from_slice(&datagram(0, 1, 0x11, 0x0453, 0x11));
    bytes[3] = 40;
    bytes[26..28].copy_from_slice(&neighbour.to_be_bytes());
    bytes[28..30].copy_from_slice(&[0x04, 0x53]);
    bytes[31] = 2;
    bytes[34..36].copy_from_slice(&network.to_be_bytes());
    bytes[37] = 1;
    bytes[39] = 2;
    bytes
}

const TOLD: [&str; 6] = [
    "ipx_neighbour_networks{port=\"1\",node=\"00000a010003\"} 2\n",
    "ipx_neighbour_networks{port=\"1\",node=\"00000a010004\"} 1\n",
    "ipx_neighbour_services{port=\"1\",node=\"00000a010003\"} 0\n",
    "ipx_neighbour_services{port=\"1\",node=\"00000a010004\"} 0\n",
    "ipx_neighbour_last_heard_seconds{port=\"1\",node=\"00000a010003\"} 7\n",
    "ipx_neighbour_last_heard_seconds{port=\"1\",node=\"00000a010004\"} 8\n",
];

#[test]
fn metrics_of_neighbours_in_text(rt: HostRuntime) -> Result<(), Fail> {
    let alloc = rt.alloc();
    let mut core = two_ports(alloc)?;
    core.hear(alloc, 0, &response(3, 0x71), 1000)?;
    core.hear(alloc, 0, &response(4, 0x72), 2000)?;
    core.hear(alloc, 0, &response(3, 0x73), 3000)?;
    let mut text = String::new(alloc);
    put_neighbour_metrics(&mut text, alloc, core.router(), 10_500)?;
    for line in TOLD {
        assert!(rt; text.as_str().contains(line), "{line}: {text}");
    }
    Ok(())
}

#[test]
fn of_300_neighbours_the_first_256_have_metrics(rt: HostRuntime) -> Result<(), Fail> {
    let alloc = rt.alloc();
    let mut core = two_ports(alloc)?;
    for neighbour in 0..300 {
        core.hear(alloc, 0, &response(1000 + neighbour, 0x71), 1000)?;
    }
    let mut text = String::new(alloc);
    put_neighbour_metrics(&mut text, alloc, core.router(), 2000)?;
    let lines = text
        .as_str()
        .lines()
        .filter(|line| line.starts_with("ipx_neighbour_services{"));
    assert_eq!(rt; lines.count(), 256);
    Ok(())
}

/// The same, or None if out of memory.
fn two_ports_if_memory(alloc: Global) -> Option<MeteredRouter> {
    let ports = vec![in alloc; port(0x11, 1), port(0x22, 2)].ok()?;
    let router = Router::new(alloc, ports).ok()?;
    MeteredRouter::new(alloc, router).ok()
}

/// The same, made again if out of memory.
fn two_ports_at_last(alloc: Global) -> Result<MeteredRouter, Fail> {
    match two_ports_if_memory(alloc) {
        Some(core) => Ok(core),
        None => two_ports(alloc),
    }
}

/// A router counts at each of its ports from its start on, or the test ran out of memory.
#[test]
fn refused_counted_router(rt: HostRuntime) -> Result<(), Fail> {
    let core = two_ports_at_last(rt.alloc())?;
    assert_eq!(rt; core.port_counters().len(), 2);
    assert_eq!(rt; core.last().bad, None);
    Ok(())
}

/// The text is complete, or the test ran out of memory.
#[test]
fn refused_metrics_of_ports(rt: HostRuntime) -> Result<(), Fail> {
    let alloc = rt.alloc();
    let core = two_ports_at_last(alloc)?;
    let mut text = String::new(alloc);
    if put_port_metrics(
        &mut text,
        alloc,
        core.router().ports(),
        core.port_counters(),
    )
    .is_err()
    {
        text = String::new(alloc);
        put_port_metrics(
            &mut text,
            alloc,
            core.router().ports(),
            core.port_counters(),
        )?;
    }
    let end = "ipx_port_dropped_total{port=\"2\",reason=\"table_full\"} 0\n";
    assert!(rt; text.as_str().ends_with(end));
    Ok(())
}

/// The same for neighbours.
#[test]
fn refused_metrics_of_neighbours(rt: HostRuntime) -> Result<(), Fail> {
    let alloc = rt.alloc();
    let mut core = two_ports_at_last(alloc)?;
    if core.hear(alloc, 0, &response(3, 0x71), 1000).is_err() {
        core.hear(alloc, 0, &response(3, 0x71), 1000)?;
    }
    let mut text = String::new(alloc);
    if put_neighbour_metrics(&mut text, alloc, core.router(), 10_500).is_err() {
        text = String::new(alloc);
        put_neighbour_metrics(&mut text, alloc, core.router(), 10_500)?;
    }
    let end = "ipx_neighbour_last_heard_seconds{port=\"1\",node=\"00000a010003\"} 9\n";
    assert!(rt; text.as_str().ends_with(end), "{text}");
    Ok(())
}
