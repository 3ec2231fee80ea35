//! New networks, and routers of which none can be made.

ghost use Rattle.std.specs.Prelude.{◌≢◌, ◌<◌, ◌≤◌, All, IfOk, IfSome};
ghost use Rattle.ipx_router.specs.NewRouter.{IsOwnNetwork};
ghost use Rattle.ipx_net.specs.NetBeginnings.{ArePortsOwed, IsHostOwed};

use ipx_net::{Answer, Event, Host, Member, Net, NetFault, Place};
use ipx_router::{NewFault, Port};
use ipx_wire::{Address, Network, Node, Socket};
use std::alloc::{AllocError, Global};
use std::process::Abort;
use std::test::Fail;

/// A node 00007f0000xx.
pub fn node(last: u8) -> Node {
    Node([0, 0, 0x7f, 0, 0, last])
}

/// A host of network 11.
fn host(last: u8, listen: Option<(Socket, u16)>) -> Host
    requires { IfSome listen (λ l. (0 < l.1) × (l.1 ≤ 8192)) }
    ensures { IsHostOwed result }
{
    Host {
        network: Network(0x11),
        node: node(last),
        router: node(1),
        listen,
    }
}

fn port(network: u32, last: u8) -> Port
    requires first { network ≢ 0 }
    requires last { network ≢ 4294967295 }
    ensures { IsOwnNetwork result }
{
    Port {
        network: Network(network),
        node: node(last),
        cost: 1,
    }
}

/// The ports of a router on network 11 and another one.
pub fn ports_with(alloc: Global, network: u32) -> Result<Vec<Port>, AllocError>
    requires first { network ≢ 0 }
    requires last { network ≢ 4294967295 }
    ensures { IfOk result (λ v. ArePortsOwed v) }
{
    let ports = vec![in alloc; port(0x11, 1), port(network, 2)]?;
    Ok(ports)
}

/// A network of two hosts, of which the second listens at socket 4000, and two routers. The first
/// has networks 11 and 22, the second 11 and another one.
fn net_with(alloc: Global, network: u32) -> Result<Net, NewFault>
    requires first { network ≢ 0 }
    requires last { network ≢ 4294967295 }
{
    let Ok(hosts) = vec![in alloc; host(3, None), host(4, Some((Socket(0x4000), 8)))] else {
        return Err(NewFault::OutOfMemory);
    };
    let Ok(first) = ports_with(alloc, 0x22) else {
        return Err(NewFault::OutOfMemory);
    };
    let Ok(second) = ports_with(alloc, network) else {
        return Err(NewFault::OutOfMemory);
    };
    let Ok(routers) = vec![in alloc; first, second] else {
        return Err(NewFault::OutOfMemory);
    };
    Net::new(alloc, hosts, routers)
}

#[test]
fn twin_in_the_second_router(rt: HostRuntime) -> Result<(), Fail> {
    let net = net_with(rt.alloc(), 0x11);
    assert!(rt; matches!(net, Err(NewFault::TwinNetwork(Network(0x11)))));
    Ok(())
}

/// A router without ports, followed by one with two ports on one network: the first is reported.
#[test]
fn two_that_are_refused(rt: HostRuntime) -> Result<(), Fail> {
    let twins = ports_with(rt.alloc(), 0x11)?;
    let routers = vec![in rt.alloc(); Vec::new(rt.alloc()), twins]?;
    let net = Net::new(rt.alloc(), Vec::new(rt.alloc()), routers);
    assert!(rt; matches!(net, Err(NewFault::NoPorts)));
    Ok(())
}

/// Host 0 asks host 1 for a connection.
pub fn dial(alloc: Global, net: &mut Net) -> Result<Answer, NetFault> {
    let event = Event::Dial {
        host: 0,
        socket: Socket(0x4001),
        to: Address {
            network: Network(0x11),
            node: node(4),
            socket: Socket(0x4000),
        },
        buffers: 8,
    };
    net.step(alloc, event)
}

/// The request that host 0 sends is delivered to host 1.
fn call(alloc: Global, net: &mut Net) -> Result<Answer, NetFault> {
    let member = Member::Host(0);
    net.step(alloc, Event::Poll { member })?;
    let place = Place::Host(1);
    net.step(alloc, Event::Deliver { parcel: 0, place })
}

#[test]
fn a_call_in_a_new_network(rt: HostRuntime) -> Result<(), Fail> {
    let mut net = net_with(rt.alloc(), 0x33)?;
    let dialled = dial(rt.alloc(), &mut net)?;
    assert!(rt; matches!(dialled, Answer::End(0)));
    let called = call(rt.alloc(), &mut net)?;
    assert!(rt; matches!(called, Answer::Arrived(Some(1), _)));
    Ok(())
}

/// The network. If memory is refused, it is tried again.
pub fn net_at_last(rt: &impl Abort, alloc: Global) -> Result<Net, NewFault> {
    match net_with(alloc, 0x33) {
        Ok(net) => Ok(net),
        Err(fault) => {
            assert_eq!(rt; fault, NewFault::OutOfMemory);
            net_with(alloc, 0x33)
        }
    }
}

#[test]
fn refused_memory_of_a_network(rt: HostRuntime) -> Result<(), Fail> {
    let mut net = net_at_last(&rt, rt.alloc())?;
    let ticked = net.step(rt.alloc(), Event::Tick { now: 5 })?;
    assert!(rt; matches!(ticked, Answer::Done));
    Ok(())
}

/// A router, followed by one with two ports on one network.
fn twins(alloc: Global) -> Result<Vec<Vec<Port>>, AllocError>
    ensures { IfOk result (λ v. All ArePortsOwed v.items) }
{
    let first = ports_with(alloc, 0x22)?;
    let second = ports_with(alloc, 0x11)?;
    let routers = vec![in alloc; first, second]?;
    Ok(routers)
}

/// The same. If memory is refused, it is tried again.
fn twins_at_last(alloc: Global) -> Result<Vec<Vec<Port>>, AllocError>
    ensures { IfOk result (λ v. All ArePortsOwed v.items) }
{
    match twins(alloc) {
        Ok(routers) => Ok(routers),
        Err(_) => twins(alloc),
    }
}

/// If a router is refused, that is reported, even if memory is refused too.
#[test]
fn refused_memory_before_a_twin(rt: HostRuntime) -> Result<(), Fail> {
    let routers = twins_at_last(rt.alloc())?;
    let net = Net::new(rt.alloc(), Vec::new(rt.alloc()), routers);
    assert!(rt; matches!(net, Err(NewFault::TwinNetwork(Network(0x11)))));
    Ok(())
}
