//! A run if memory is refused: it says so, or that the device failed, and another run works. Run it
//! with each request refused.

use crate::fixture::{one_peer_each, one_turn, two_ports, two_ports_by_priority};
use ipx_carrier::{
    Core, Datagrams, MemoryDatagrams, PriorityRouterCore, Report, RouterCore, RunFault,
};
use ipx_wire::OutOfMemory;
use std::alloc::Global;
use std::process::Abort;
use std::test::Fail;

/// The core of `two_ports`, made once more if memory was refused.
pub fn core_at_last(alloc: Global) -> Result<RouterCore, OutOfMemory> {
    match two_ports(alloc) {
        Ok(core) => Ok(core),
        Err(_) => two_ports(alloc),
    }
}

/// The core of `two_ports_by_priority`, made once more if memory was refused.
pub fn priority_core_at_last(alloc: Global) -> Result<PriorityRouterCore, OutOfMemory> {
    match two_ports_by_priority(alloc) {
        Ok(core) => Ok(core),
        Err(_) => two_ports_by_priority(alloc),
    }
}

/// A device of two ports, made once more if memory was refused.
pub fn device_at_last(alloc: Global) -> Result<MemoryDatagrams, OutOfMemory> {
    match MemoryDatagrams::new(alloc, 2) {
        Ok(datagrams) => Ok(datagrams),
        Err(_) => MemoryDatagrams::new(alloc, 2),
    }
}

/// One peer on each port, made once more if memory was refused.
fn peers_at_last(alloc: Global) -> Result<Vec<Vec<[u8; 4]>>, OutOfMemory> {
    match one_peer_each(alloc) {
        Ok(peers) => Ok(peers),
        Err(_) => one_peer_each(alloc),
    }
}

/// A turn, and another one if memory was refused.
fn turn_at_last<C: Core>(
    alloc: Global,
    core: &mut C,
    datagrams: &mut MemoryDatagrams,
    peers: &[Vec<[u8; 4]>],
) -> Result<Report, RunFault> {
    match one_turn(alloc, core, datagrams, peers) {
        Ok(report) => Ok(report),
        Err(_) => one_turn(alloc, core, datagrams, peers),
    }
}

/// A turn of a core works after memory was refused, and sends at most the six packets of its start.
fn goes_on<C: Core>(rt: &impl Abort, alloc: Global, core: &mut C) -> Result<(), Fail> {
    let mut datagrams = device_at_last(alloc)?;
    let peers = peers_at_last(alloc)?;
    let report = turn_at_last(alloc, core, &mut datagrams, &peers)?;
    assert!(rt; report.turns == 1);
    assert!(rt; datagrams.sent().len() <= 6);
    assert_eq!(rt; datagrams.refusals(), datagrams.failures());
    Ok(())
}

#[test]
fn refused_memory_of_a_run(rt: HostRuntime) -> Result<(), Fail> {
    let alloc = rt.alloc();
    let mut core = core_at_last(alloc)?;
    goes_on(&rt, alloc, &mut core)
}

#[test]
fn refused_memory_of_a_run_by_priority(rt: HostRuntime) -> Result<(), Fail> {
    let alloc = rt.alloc();
    let mut core = priority_core_at_last(alloc)?;
    goes_on(&rt, alloc, &mut core)
}
