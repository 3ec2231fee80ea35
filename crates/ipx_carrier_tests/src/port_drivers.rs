//! Packets that a port driver sends by IP address, and a run over it, with literal values.

use crate::fixture::{one_peer_each, text_of, two_ports};
use crate::turns::are_first;
use ipx_carrier::{
    Datagrams, DeviceFault, MemoryDatagrams, PacketSent, PortDriver, Rfc1234Ports, SteppedClock,
    run_over_ports,
};
use ipx_wire::Node;
use std::alloc::Global;
use std::test::Fail;

/// Three peers on port 0, and no list for port 1.
fn three_peers(alloc: Global) -> Result<Vec<Vec<[u8; 4]>>, Fail> {
    let peers = vec![in alloc; [127, 0, 0, 9], [127, 0, 0, 8], [127, 0, 0, 7]]?;
    Ok(vec![in alloc; peers]?)
}

#[test]
fn a_packet_goes_by_its_node(rt: HostRuntime) -> Result<(), Fail> {
    let alloc = rt.alloc();
    let mut datagrams = MemoryDatagrams::new(alloc, 2)?;
    let peers = three_peers(alloc)?;
    let mut driver = Rfc1234Ports {
        datagrams: &mut datagrams,
        peers: &peers,
    };
    let to_all = driver.send(0, Node::BROADCAST, &[0xab]);
    let to_one = driver.send(1, Node([0, 0, 127, 0, 0, 5]), &[1, 2]);
    let to_none = driver.send(0, Node([2, 0, 127, 0, 0, 5]), &[3]);
    let to_no_list = driver.send(1, Node::BROADCAST, &[4]);
    assert!(rt; matches!(to_all, Ok(PacketSent::Transmitted(3))));
    assert!(rt; matches!(to_one, Ok(PacketSent::Transmitted(1))));
    assert!(rt; matches!(to_none, Ok(PacketSent::Unmapped)));
    assert!(rt; matches!(to_no_list, Ok(PacketSent::Transmitted(0))));
    let texts = ["0 9 ab", "0 8 ab", "0 7 ab", "1 5 0102"];
    assert_eq!(rt; datagrams.sent().len(), 4);
    for (datagram, text) in datagrams.sent().iter().zip(texts.iter()) {
        assert_eq!(rt; text_of(alloc, datagram)?.as_str(), *text);
    }
    Ok(())
}

#[test]
fn a_broadcast_stops_where_the_device_fails(rt: HostRuntime) -> Result<(), Fail> {
    let alloc = rt.alloc();
    let mut datagrams = MemoryDatagrams::new(alloc, 2)?;
    datagrams.fail_at(3);
    let peers = three_peers(alloc)?;
    let mut driver = Rfc1234Ports {
        datagrams: &mut datagrams,
        peers: &peers,
    };
    let answer = driver.send(0, Node::BROADCAST, &[0xab]);
    assert!(rt; matches!(answer, Err(DeviceFault)));
    assert_eq!(rt; driver.failures(), 1);
    assert_eq!(rt; datagrams.sent().len(), 2);
    Ok(())
}

#[test]
fn a_run_over_segments_sends_what_a_run_sends(rt: HostRuntime) -> Result<(), Fail> {
    let alloc = rt.alloc();
    let mut core = two_ports(alloc)?;
    let mut datagrams = MemoryDatagrams::new(alloc, 2)?;
    let peers = one_peer_each(alloc)?;
    let mut driver = Rfc1234Ports {
        datagrams: &mut datagrams,
        peers: &peers,
    };
    let mut clock = SteppedClock::new(0, 10);
    let report = run_over_ports(alloc, &mut core, &mut driver, &mut clock, 1)?;
    assert_eq!(rt; report.sent, 6);
    assert_eq!(rt; datagrams.received(), 2);
    assert_eq!(rt; datagrams.sent().len(), 6);
    are_first(&rt, alloc, datagrams.sent())
}
