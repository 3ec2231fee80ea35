//! Waiting for sockets of the loopback interface, and batches of turns over them.

use ipx_carrier::{Clock, Core, Datagrams, DeviceFault, Rfc1234Ports, run_batch};
use ipx_sockets::{
    AccessList, BindFault, ClockFault, Poller, SourceFilter, SteadyClock, UdpSockets,
};
use ipx_wire::{Network, Node, OutOfMemory};
use std::alloc::{AllocError, Global};
use std::io;
use std::rt::Clock as SystemClock;
use std::test::Fail;
use std::time::Duration;

const UDP_PORT: u16 = 21392;

/// A core that hears all and sends nothing.
#[derive(Drop)]
struct Mute;

impl Core for Mute {
    ghost use Rattle.std.specs.Prelude.{◌≡◌};

    ghost port_count = { λ c. 1 };

    ghost hears = { λ old port bytes now new. new ≡ old };

    ghost gives = { λ old now given new. new ≡ old };

    ghost hear_out_of_memory = { λ old port bytes now new. ⊥ };

    ghost next_out_of_memory = { λ old now new. ⊥ };

    fn ports(&self) -> usize {
        1
    }

    fn hear(
        &mut self,
        _alloc: Global,
        _port: usize,
        _bytes: &[u8],
        _now: u64,
    ) -> Result<(), OutOfMemory> {
        Ok(())
    }

    fn next(
        &mut self,
        _alloc: Global,
        _now: u64,
        _room: &mut [u8],
    ) -> Result<Option<(usize, Node, usize)>, OutOfMemory> {
        Ok(None)
    }
}

fn socket(rt: &HostRuntime, last: u8) -> Result<UdpSockets, BindFault> {
    UdpSockets::bind_one(rt, rt.alloc(), [127, 0, 92, last], UDP_PORT)
}

fn send(device: &mut UdpSockets, last: u8) -> Result<(), DeviceFault> {
    if device.ports() == 0 || device.failures() > 1000 {
        return Err(DeviceFault);
    }
    device.send(0, [127, 0, 92, last], b"abc")
}

/// These sockets with an access list of the peer 127.0.92.4.
fn guarded(alloc: Global, sockets: UdpSockets) -> Result<SourceFilter<UdpSockets>, AllocError> {
    let access_list = AccessList {
        network: Network(1),
        sends: Some(vec![in alloc; [127, 0, 92, 4]]?),
        hears: Some(vec![in alloc; [127, 0, 92, 4]]?),
        routers: None,
    };
    Ok(SourceFilter::new(sockets, vec![in alloc; access_list]?))
}

#[test]
fn tells_that_something_came(rt: HostRuntime) -> Result<(), Fail> {
    let here = socket(&rt, 1)?;
    let mut there = socket(&rt, 2)?;
    let mut ready = Poller::new(&rt, rt.alloc(), &here)?;
    assert!(rt; !ready.wait(0)?);
    assert_eq!(rt; ready.events().iter().count(), 0);
    send(&mut there, 1)?;
    assert!(rt; ready.wait(5000)?);
    assert!(rt; ready.events().iter().all(|event| event.token().0 == 0));
    assert_eq!(rt; ready.events().iter().count(), 1);
    assert!(rt; !ready.wait(0)?);
    assert_eq!(rt; ready.events().iter().count(), 0);
    Ok(())
}

#[test]
fn a_batch_ends_quietly(rt: HostRuntime) -> Result<(), Fail> {
    let alloc = rt.alloc();
    let mut peer = socket(&rt, 4)?;
    let mut unknown = socket(&rt, 5)?;
    let mut device = guarded(alloc, socket(&rt, 3)?)?;
    send(&mut unknown, 3)?;
    send(&mut peer, 3)?;
    let peers = vec![in alloc; Vec::new(alloc)]?;
    let mut clock = SteadyClock::new(&rt)?;
    let mut driver = Rfc1234Ports {
        datagrams: &mut device,
        peers: &peers,
    };
    let batch = run_batch(alloc, &mut Mute, &mut driver, &mut clock, 8);
    assert!(rt; batch.quiet && batch.fault.is_none());
    assert_eq!(rt; (batch.heard, batch.sent), (1, 0));
    assert_eq!(rt; device.kept().unknown_senders.count, 1);
    Ok(())
}

#[test]
fn a_clock_is_frozen_until_it_is_stopped_again(rt: HostRuntime) -> Result<(), Fail> {
    let quiet = socket(&rt, 6)?;
    let mut ready = Poller::new(&rt, rt.alloc(), &quiet)?;
    let mut clock = SteadyClock::new(&rt)?;
    let stopped = clock.stop();
    assert!(rt; !ready.wait(20)?);
    assert_eq!(rt; clock.now(), stopped);
    assert!(rt; clock.stop() >= stopped + 19);
    Ok(())
}

/// A system that does not tell the time.
#[derive(Drop)]
struct Timeless;

impl SystemClock for Timeless {
    fn monotonic(&self) -> io::Result<Duration> {
        Err(io::Error::from(io::ErrorKind::Unsupported))
    }

    fn since_1970(&self) -> io::Result<Duration> {
        Err(io::Error::from(io::ErrorKind::Unsupported))
    }
}

#[test]
fn no_clock_where_the_system_tells_no_time(rt: HostRuntime) {
    let clock = SteadyClock::new(&Timeless);
    assert!(rt; matches!(clock, Err(ClockFault::Unread)));
}
