//! A router with ports on networks 11 and 22, over a device of two ports.

ghost use Rattle.std.specs.Prelude.{◌≡◌, IfOk};
ghost use Rattle.ipx_router.specs.NewRouter.{IsOwnNetwork};

use ipx_carrier::{
    Core, Datagrams, MemoryDatagrams, PriorityRouterCore, Report, RouterCore, RunFault,
    SentDatagram, SteppedClock, run,
};
use ipx_router::{Port, Router};
use ipx_wire::{Network, Node, OutOfMemory};
use std::alloc::Global;
use std::test::Fail;

fn port(network: u32, last: u8) -> Port
    ensures { result.network.0 ≡ network }
{
    Port {
        network: Network(network),
        node: Node([0, 0, 0x7f, 0, 0, last]),
        cost: 1,
    }
}

/// A router with these ports.
fn router_of(alloc: Global, first: Port, second: Port) -> Result<Router, OutOfMemory>
    requires first { IsOwnNetwork first }
    requires second { IsOwnNetwork second }
{
    match Router::new(alloc, vec![in alloc; first, second]?) {
        Ok(router) => Ok(router),
        Err(_) => Err(OutOfMemory),
    }
}

/// A core of a router with ports on networks 11 and 22.
pub fn two_ports(alloc: Global) -> Result<RouterCore, OutOfMemory> {
    let router = router_of(alloc, port(0x11, 1), port(0x22, 2))?;
    Ok(RouterCore::new(alloc, router))
}

/// A core of the same router that gives forwarded packets first.
pub fn two_ports_by_priority(alloc: Global) -> Result<PriorityRouterCore, OutOfMemory> {
    let router = router_of(alloc, port(0x11, 1), port(0x22, 2))?;
    Ok(PriorityRouterCore::new(alloc, router))
}

/// A core of the next router, with ports on networks 22 and 33.
pub fn next_ports(alloc: Global) -> Result<RouterCore, OutOfMemory> {
    let router = router_of(alloc, port(0x22, 4), port(0x33, 6))?;
    Ok(RouterCore::new(alloc, router))
}

/// One peer on each port.
pub fn one_peer_each(alloc: Global) -> Result<Vec<Vec<[u8; 4]>>, OutOfMemory> {
    let first = vec![in alloc; [127, 0, 0, 9]]?;
    let second = vec![in alloc; [127, 0, 0, 8]]?;
    Ok(vec![in alloc; first, second]?)
}

/// No peer on either port.
pub fn no_peers(alloc: Global) -> Result<Vec<Vec<[u8; 4]>>, OutOfMemory> {
    Ok(vec![in alloc; Vec::new(alloc), Vec::new(alloc)]?)
}

/// Runs a core for one turn. Returns out of memory if the peers or the device are for another
/// number of ports.
pub fn turn_at<C: Core>(
    alloc: Global,
    core: &mut C,
    datagrams: &mut MemoryDatagrams,
    peers: &[Vec<[u8; 4]>],
    clock: &mut SteppedClock,
) -> Result<Report, RunFault> {
    let ports = core.ports();
    if datagrams.ports() != ports || peers.len() != ports || datagrams.failures() > 1000 {
        return Err(RunFault::OutOfMemory);
    }
    run(alloc, core, datagrams, peers, clock, 1)
}

/// The same at time 0.
pub fn one_turn<C: Core>(
    alloc: Global,
    core: &mut C,
    datagrams: &mut MemoryDatagrams,
    peers: &[Vec<[u8; 4]>],
) -> Result<Report, RunFault> {
    let mut clock = SteppedClock::new(0, 10);
    turn_at(alloc, core, datagrams, peers, &mut clock)
}

/// A datagram as text: port, last byte of the address and bytes in hex.
pub fn text_of(alloc: Global, datagram: &SentDatagram) -> Result<String, Fail> {
    let number = datagram.port;
    let last = datagram.to[3];
    let bytes = hex::encode(alloc, datagram.bytes.as_slice())?;
    Ok(format!(in alloc; "{number} {last} {bytes}")?)
}
