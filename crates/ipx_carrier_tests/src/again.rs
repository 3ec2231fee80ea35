//! A router that asks its neighbours again, and its counts.

use crate::fixture::{no_peers, one_peer_each, one_turn, two_ports, two_ports_by_priority};
use ipx_carrier::{MemoryDatagrams, OutcomeCounters};
use std::test::Fail;

/// In its first turn it asks for routes and services on each port, and advertises a network on
/// each. When it is told to ask again, it sends the four requests once more.
#[test]
fn asks_again_for_all(rt: HostRuntime) -> Result<(), Fail> {
    let alloc = rt.alloc();
    let peers = one_peer_each(alloc)?;
    let mut core = two_ports(alloc)?;
    let mut datagrams = MemoryDatagrams::new(alloc, 2)?;
    assert_eq!(rt; one_turn(alloc, &mut core, &mut datagrams, &peers)?.sent, 6);
    assert_eq!(rt; one_turn(alloc, &mut core, &mut datagrams, &peers)?.sent, 0);
    core.restart_discovery();
    assert_eq!(rt; one_turn(alloc, &mut core, &mut datagrams, &peers)?.sent, 4);
    Ok(())
}

/// So does a router that gives forwarded packets first.
#[test]
fn asks_again_for_all_by_priority(rt: HostRuntime) -> Result<(), Fail> {
    let alloc = rt.alloc();
    let peers = one_peer_each(alloc)?;
    let mut core = two_ports_by_priority(alloc)?;
    let mut datagrams = MemoryDatagrams::new(alloc, 2)?;
    assert_eq!(rt; one_turn(alloc, &mut core, &mut datagrams, &peers)?.sent, 6);
    assert_eq!(rt; one_turn(alloc, &mut core, &mut datagrams, &peers)?.sent, 0);
    core.restart_discovery();
    assert_eq!(rt; one_turn(alloc, &mut core, &mut datagrams, &peers)?.sent, 4);
    Ok(())
}

#[test]
fn counts_what_is_no_packet(rt: HostRuntime) -> Result<(), Fail> {
    let alloc = rt.alloc();
    let peers = no_peers(alloc)?;
    let mut core = two_ports(alloc)?;
    let mut datagrams = MemoryDatagrams::new(alloc, 2)?;
    assert!(rt; core.outcomes() == OutcomeCounters::new());
    datagrams.put(alloc, 1, b"abc")?;
    let _report = one_turn(alloc, &mut core, &mut datagrams, &peers)?;
    assert_eq!(rt; core.outcomes().bad, 1);
    assert_eq!(rt; core.router().ports().len(), 2);
    assert!(rt; core.router().routes().list(alloc, 0).is_ok());
    assert!(rt; core.router().services().list(alloc, 0).is_ok());
    Ok(())
}

#[test]
fn counts_what_is_no_packet_by_priority(rt: HostRuntime) -> Result<(), Fail> {
    let alloc = rt.alloc();
    let peers = no_peers(alloc)?;
    let mut core = two_ports_by_priority(alloc)?;
    let mut datagrams = MemoryDatagrams::new(alloc, 2)?;
    assert!(rt; core.outcomes() == OutcomeCounters::new());
    datagrams.put(alloc, 1, b"abc")?;
    let _report = one_turn(alloc, &mut core, &mut datagrams, &peers)?;
    assert_eq!(rt; core.outcomes().bad, 1);
    assert_eq!(rt; core.router().ports().len(), 2);
    Ok(())
}
