//! Batches of a router over a port driver that owns its device, with literal values.

use crate::fixture::{text_of, two_ports};
use crate::refused::core_at_last;
use ipx_carrier::{
    Batch, Datagrams, MemoryDatagrams, OwnedRfc1234Ports, PortDriver, PortDriverFilters, RunFault,
    SteppedClock, run_batch, run_once_over_ports,
};
use ipx_wire::OutOfMemory;
use std::alloc::Global;
use std::test::Fail;

/// A packet from network 11 to node 00007f000005 of network 22, in hex.
const ONWARD: &[u8] = b"ffff001e00000000002200007f00000540000000001100007f0000034001";

/// A port driver of this many ports, of which the first two have a peer each.
fn driver(alloc: Global, ports: usize) -> Result<OwnedRfc1234Ports<MemoryDatagrams>, OutOfMemory> {
    let nine = vec![in alloc; [127, 0, 0, 9]]?;
    let eight = vec![in alloc; [127, 0, 0, 8]]?;
    let device = MemoryDatagrams::new(alloc, ports)?;
    Ok(OwnedRfc1234Ports::new(device, vec![in alloc; nine, eight]?))
}

/// What arrives at one port is forwarded by the other. The packets of the router's start go to the
/// peer of each port. Then the batch is quiet.
#[test]
fn a_batch_over_segments(rt: HostRuntime) -> Result<(), Fail> {
    let alloc = rt.alloc();
    let mut driver = driver(alloc, 2)?;
    driver.device.put(alloc, 0, &hex::decode(alloc, ONWARD)?)?;
    let mut core = two_ports(alloc)?;
    let mut clock = SteppedClock::new(0, 10);
    let batch = run_batch(alloc, &mut core, &mut driver, &mut clock, 8);
    assert!(rt;
        batch
            == Batch {
                heard: 1,
                sent: 7,
                unmapped: 0,
                fault: None,
                quiet: true,
            }
    );
    let sent = driver.device.sent();
    assert_eq!(rt;
        text_of(alloc, &sent[0])?.as_str(),
        "1 5 ffff001e01000000002200007f00000540000000001100007f0000034001"
    );
    assert_eq!(rt;
        text_of(alloc, &sent[1])?.as_str(),
        "0 9 ffff0028000100000011ffffffffffff04530000001100007f00000104530001ffffffffffffffff"
    );
    assert_eq!(rt; driver.filtered(), 0);
    Ok(())
}

/// No turn begins over a port driver with one port too many. A failure of the device ends a turn,
/// and is counted.
#[test]
fn bursts_that_fail(rt: HostRuntime) -> Result<(), Fail> {
    let alloc = rt.alloc();
    let mut core = two_ports(alloc)?;
    let mut clock = SteppedClock::new(0, 10);
    let mut three = driver(alloc, 3)?;
    let refused = run_batch(alloc, &mut core, &mut three, &mut clock, 8);
    assert!(rt; refused.fault == Some(RunFault::Device));
    assert_eq!(rt; three.failures(), 0);
    let none = run_batch(alloc, &mut core, &mut three, &mut clock, 0);
    assert!(rt; none.fault.is_none());
    let mut two = driver(alloc, 2)?;
    two.device.fail_at(1);
    let failed = run_once_over_ports(alloc, &mut core, &mut two, &mut clock);
    assert!(rt; failed == Err(RunFault::Device));
    assert_eq!(rt; two.failures(), 1);
    let well = run_once_over_ports(alloc, &mut core, &mut two, &mut clock)?;
    assert!(rt; well.sent == 6);
    Ok(())
}

/// If memory is refused, the turn or the batch ends with that, and another one works. Run it with
/// each request refused.
#[test]
fn refused_turns_over_segments(rt: HostRuntime) -> Result<(), Fail> {
    let alloc = rt.alloc();
    let mut core = core_at_last(alloc)?;
    let mut two = match driver(alloc, 2) {
        Ok(two) => two,
        Err(_) => driver(alloc, 2)?,
    };
    let mut clock = SteppedClock::new(0, 10);
    let first = run_once_over_ports(alloc, &mut core, &mut two, &mut clock);
    let second = run_batch(alloc, &mut core, &mut two, &mut clock, 8);
    assert!(rt; first.is_ok() || second.fault.is_none());
    assert!(rt; two.device.sent().len() <= 6);
    assert_eq!(rt; two.device.refusals(), two.device.failures());
    Ok(())
}
