//! Sockets, waiting, batches and metrics when out of memory: each works as usual, or reports it.
//! Run these with each allocation refused.

use crate::metrics::METRICS;
use ipx_carrier::{Batch, Core, Datagrams, Rfc1234Ports, RunFault, run_batch};
use ipx_sockets::{
    AccessList, BindFault, Poller, SourceFilter, SteadyClock, UdpSockets, WaitFault,
};
use ipx_wire::{Network, Node, OutOfMemory};
use std::alloc::Global;

const UDP_PORT: u16 = 21393;

/// A core that allocates when it is asked for a packet, and has none to send.
#[derive(Drop)]
struct Greedy;

impl Core for Greedy {
    ghost use Rattle.std.specs.Prelude.{◌≡◌};

    ghost port_count = { λ c. 1 };

    ghost hears = { λ old port bytes now new. new ≡ old };

    ghost gives = { λ old now given new. new ≡ old };

    ghost hear_out_of_memory = { λ old port bytes now new. ⊥ };

    ghost next_out_of_memory = { λ old now new. new ≡ old };

    fn ports(&self) -> usize {
        1
    }

    fn hear(
        &mut self,
        _alloc: Global,
        _port: usize,
        _bytes: &[u8],
        _now: u64,
    ) -> Result<(), OutOfMemory> {
        Ok(())
    }

    fn next(
        &mut self,
        alloc: Global,
        _now: u64,
        _room: &mut [u8],
    ) -> Result<Option<(usize, Node, usize)>, OutOfMemory> {
        let _some = vec![in alloc; 7; 7]?;
        Ok(None)
    }
}

fn socket(rt: &HostRuntime, last: u8) -> Result<UdpSockets, BindFault> {
    UdpSockets::bind_one(rt, rt.alloc(), [127, 0, 93, last], UDP_PORT)
}

/// A socket, bound again if out of memory.
fn socket_at_last(rt: &HostRuntime, last: u8) -> Result<UdpSockets, BindFault> {
    match socket(rt, last) {
        Ok(sockets) => Ok(sockets),
        Err(_) => socket(rt, last),
    }
}

/// These sockets with an access list that accepts everybody, which allocates nothing.
fn guarded(alloc: Global, sockets: UdpSockets) -> SourceFilter<UdpSockets> {
    let mut access_lists = Vec::new(alloc);
    let access_list = AccessList {
        network: Network(1),
        sends: Some(Vec::new(alloc)),
        hears: None,
        routers: None,
    };
    let _full = access_lists.push(access_list);
    SourceFilter::new(sockets, access_lists)
}

/// A batch over this device, with the peers of one port.
fn batch_of(
    alloc: Global,
    device: &mut SourceFilter<UdpSockets>,
    clock: &mut SteadyClock<'_, HostRuntime>,
) -> Batch {
    let mut peers = Vec::new(alloc);
    if peers.push(Vec::new(alloc)).is_err() {
        let _again = peers.push(Vec::new(alloc));
    }
    let mut driver = Rfc1234Ports {
        datagrams: device,
        peers: &peers,
    };
    run_batch(alloc, &mut Greedy, &mut driver, clock, 4)
}

#[test]
fn refused_bind_of_one(rt: HostRuntime) {
    match socket(&rt, 1) {
        Ok(sockets) => assert!(rt; sockets.ports() == 1),
        Err(fault) => assert!(rt; fault == BindFault::OutOfMemory),
    }
}

#[test]
fn refused_readiness(rt: HostRuntime) {
    let Ok(sockets) = socket_at_last(&rt, 2) else {
        assert!(rt; false);
        return;
    };
    match Poller::new(&rt, rt.alloc(), &sockets) {
        Ok(mut ready) => assert!(rt; ready.wait(0) == Ok(false)),
        Err(fault) => assert!(rt; fault == WaitFault::OutOfMemory),
    }
}

#[test]
fn refused_batch(rt: HostRuntime) {
    let Ok(sockets) = socket_at_last(&rt, 3) else {
        assert!(rt; false);
        return;
    };
    let Ok(mut clock) = SteadyClock::new(&rt) else {
        assert!(rt; false);
        return;
    };
    let mut device = guarded(rt.alloc(), sockets);
    let first = batch_of(rt.alloc(), &mut device, &mut clock);
    let second = batch_of(rt.alloc(), &mut device, &mut clock);
    assert!(rt; first.quiet || first.fault == Some(RunFault::OutOfMemory));
    assert!(rt; second.quiet || second.fault == Some(RunFault::OutOfMemory));
    assert!(rt; first.quiet || second.quiet);
}

#[test]
fn refused_metrics(rt: HostRuntime) {
    if let Ok(text) = METRICS.text(rt.alloc()) {
        assert!(rt; text.as_str().ends_with("ipx_uptime_seconds 22\n"));
    }
}
