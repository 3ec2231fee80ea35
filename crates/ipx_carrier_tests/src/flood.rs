//! Long datagrams, and more packets than a queue holds, with literal values.

use crate::fixture::{one_peer_each, one_turn, two_ports};
use ipx_carrier::{Core, Datagrams, MemoryDatagrams, RouterCore, SentDatagram};
use ipx_wire::IpxFault;
use std::alloc::Global;
use std::process::Abort;
use std::test::Fail;

/// A packet from network 11 to node 00007f000005 of network 22, in hex.
const ONWARD: &[u8] = b"ffff001e00000000002200007f00000540000000001100007f0000034001";

/// A datagram of this size that begins as the packet does, with this length in its header.
fn long(alloc: Global, size: usize, length: [u8; 2]) -> Result<Vec<u8>, Fail> {
    let mut bytes = hex::decode(alloc, ONWARD)?;
    bytes.resize(size, 0)?;
    if bytes.len() > 3 {
        bytes[2] = length[0];
        bytes[3] = length[1];
    }
    Ok(bytes)
}

/// The device after a turn in which this datagram arrives at port 0.
fn sent_for(rt: &impl Abort, alloc: Global, bytes: &[u8]) -> Result<MemoryDatagrams, Fail> {
    let mut core = two_ports(alloc)?;
    let mut datagrams = MemoryDatagrams::new(alloc, 2)?;
    if datagrams.ports() == 2 {
        datagrams.put(alloc, 0, bytes)?;
    }
    let report = one_turn(alloc, &mut core, &mut datagrams, &one_peer_each(alloc)?)?;
    assert!(rt; report.heard == 1);
    Ok(datagrams)
}

#[test]
fn a_datagram_that_is_cut_is_dropped(rt: HostRuntime) -> Result<(), Fail> {
    let alloc = rt.alloc();
    let cut = long(alloc, 1600, [0x06, 0x40])?;
    let datagrams = sent_for(&rt, alloc, &cut)?;
    assert_eq!(rt; datagrams.sent().len(), 6);
    Ok(())
}

#[test]
fn what_is_received_of_it_is_truncated(rt: HostRuntime) -> Result<(), Fail> {
    let alloc = rt.alloc();
    let cut = long(alloc, 1600, [0x06, 0x40])?;
    let received = cut.get(..1536).unwrap_or(&[]);
    assert!(rt;
        matches!(
            ipx_wire::decode(received),
            Err(IpxFault::Truncated(1600, 1536))
        )
    );
    Ok(())
}

#[test]
fn a_long_packet_goes_on(rt: HostRuntime) -> Result<(), Fail> {
    let alloc = rt.alloc();
    let packet = long(alloc, 2000, [0x05, 0xdc])?;
    let datagrams = sent_for(&rt, alloc, &packet)?;
    assert_eq!(rt; datagrams.sent().len(), 7);
    let first: Option<&SentDatagram> = datagrams.sent().first();
    assert!(rt; matches!(first, Some(d) if d.port == 1 && d.to == [127, 0, 0, 5]));
    assert!(rt; matches!(first, Some(d) if d.bytes.len() == 1500));
    Ok(())
}

fn hear_onward(alloc: Global, core: &mut RouterCore, bytes: &[u8]) -> Result<(), Fail> {
    if core.ports() > 0 {
        core.hear(alloc, 0, bytes, 0)?;
    }
    Ok(())
}

/// If 16,384 packets wait, the next is dropped, and so are the four packets of its start and its
/// two advertisements.
#[test]
fn a_flood_is_dropped(rt: HostRuntime) -> Result<(), Fail> {
    let alloc = rt.alloc();
    let packet = hex::decode(alloc, ONWARD)?;
    let mut core = two_ports(alloc)?;
    for _ in 0..16_384 {
        hear_onward(alloc, &mut core, &packet)?;
    }
    assert_eq!(rt; core.dropped(), 0);
    hear_onward(alloc, &mut core, &packet)?;
    assert_eq!(rt; core.dropped(), 1);
    let mut room = [0; 1536];
    let given = core.next(alloc, 0, &mut room)?;
    assert!(rt; matches!(given, Some((1, _, 30))));
    assert_eq!(rt; core.dropped(), 7);
    Ok(())
}
