//! Two hosts with two routers between them, over datagrams in memory that all arrive twice.
//!
//! The nodes are 00007f0000xx. Host 3 is on network 11. The first router has 1 there and 2 on
//! network 22. The second has 4 on network 22 and 6 on network 33, where host 7 is.

ghost use Rattle.std.specs.Prelude.{◌≡◌};
ghost use Rattle.ipx_router.specs.NewRouter.{IsOwnNetwork};

use crate::fixture::turn_at;
use ipx_carrier::{Core, Datagrams, HostCore, MemoryDatagrams, RouterCore, SteppedClock};
use ipx_router::{Port, Router};
use ipx_wire::{Address, Network, Node, OutOfMemory, Socket};
use spx_messages::{Endpoint, Message, Taken};
use std::alloc::Global;
use std::test::Fail;

/// A core with its device, the peers of its ports, and its clock.
#[derive(Drop)]
struct Member<C: Core + Drop> {
    core: C,
    device: MemoryDatagrams,
    peers: Vec<Vec<[u8; 4]>>,
    clock: SteppedClock,
    passed: usize,
}

#[derive(Drop)]
struct Site {
    caller: Member<HostCore>,
    near: Member<RouterCore>,
    far: Member<RouterCore>,
    called: Member<HostCore>,
}

/// A datagram in transit: the last byte of its address, and its bytes.
#[derive(Drop)]
struct Sent {
    last: u8,
    bytes: Vec<u8>,
}

const fn node(last: u8) -> Node {
    Node([0, 0, 0x7f, 0, 0, last])
}

fn port(network: u32, last: u8) -> Port
    ensures { result.network.0 ≡ network }
{
    Port {
        network: Network(network),
        node: node(last),
        cost: 1,
    }
}

/// The one peer of a port.
fn peer(alloc: Global, last: u8) -> Result<Vec<[u8; 4]>, OutOfMemory> {
    Ok(vec![in alloc; [127, 0, 0, last]]?)
}

fn new_member<C: Core + Drop>(
    alloc: Global,
    core: C,
    peers: Vec<Vec<[u8; 4]>>,
) -> Result<Member<C>, OutOfMemory> {
    let device = MemoryDatagrams::new(alloc, peers.len())?;
    Ok(Member {
        core,
        device,
        peers,
        clock: SteppedClock::new(0, 10),
        passed: 0,
    })
}

fn host(
    alloc: Global,
    network: u32,
    last: u8,
    router: u8,
) -> Result<Member<HostCore>, OutOfMemory> {
    let endpoint = Endpoint::new(alloc, Network(network), node(last), node(router));
    let peers = vec![in alloc; peer(alloc, router)?]?;
    new_member(alloc, HostCore::new(endpoint), peers)
}

/// A router with two ports, on networks with a number, and one peer on each.
fn router(
    alloc: Global,
    first: Port,
    second: Port,
    peers: [u8; 2],
) -> Result<Member<RouterCore>, OutOfMemory>
    requires first { IsOwnNetwork first }
    requires second { IsOwnNetwork second }
{
    let Ok(router) = Router::new(alloc, vec![in alloc; first, second]?) else {
        return Err(OutOfMemory);
    };
    let peers = vec![in alloc; peer(alloc, peers[0])?, peer(alloc, peers[1])?]?;
    new_member(alloc, RouterCore::new(alloc, router), peers)
}

fn new_site(alloc: Global) -> Result<Site, OutOfMemory> {
    let mut called = host(alloc, 0x33, 7, 6)?;
    called.core.endpoint().listen(alloc, Socket(0x4000), 8)?;
    Ok(Site {
        caller: host(alloc, 0x11, 3, 1)?,
        near: router(alloc, port(0x11, 1), port(0x22, 2), [3, 4])?,
        far: router(alloc, port(0x22, 4), port(0x33, 6), [2, 7])?,
        called,
    })
}

/// Runs a member for one turn, and gives what it sent.
fn turn<C: Core + Drop>(alloc: Global, member: &mut Member<C>) -> Result<Vec<Sent>, Fail> {
    turn_at(
        alloc,
        &mut member.core,
        &mut member.device,
        &member.peers,
        &mut member.clock,
    )?;
    let mut sent = Vec::new(alloc);
    for datagram in member.device.sent().iter().skip(member.passed) {
        sent.push(Sent {
            last: datagram.to[3],
            bytes: datagram.bytes.clone()?,
        })?;
    }
    member.passed = member.device.sent().len();
    Ok(sent)
}

fn put_twice(
    alloc: Global,
    device: &mut MemoryDatagrams,
    port: usize,
    bytes: &[u8],
) -> Result<(), Fail> {
    for _ in 0..2 {
        if port < device.ports() {
            device.put(alloc, port, bytes)?;
        }
    }
    Ok(())
}

/// Puts each datagram twice to the port of its address.
fn pass(alloc: Global, site: &mut Site, sent: &[Sent]) -> Result<(), Fail> {
    for datagram in sent {
        match datagram.last {
            1 => put_twice(alloc, &mut site.near.device, 0, &datagram.bytes)?,
            2 => put_twice(alloc, &mut site.near.device, 1, &datagram.bytes)?,
            3 => put_twice(alloc, &mut site.caller.device, 0, &datagram.bytes)?,
            4 => put_twice(alloc, &mut site.far.device, 0, &datagram.bytes)?,
            6 => put_twice(alloc, &mut site.far.device, 1, &datagram.bytes)?,
            7 => put_twice(alloc, &mut site.called.device, 0, &datagram.bytes)?,
            _ => {}
        }
    }
    Ok(())
}

/// This many turns of each member.
fn pump(alloc: Global, site: &mut Site, turns: u32) -> Result<(), Fail> {
    for _ in 0..turns {
        let sent = turn(alloc, &mut site.caller)?;
        pass(alloc, site, &sent)?;
        let sent = turn(alloc, &mut site.near)?;
        pass(alloc, site, &sent)?;
        let sent = turn(alloc, &mut site.far)?;
        pass(alloc, site, &sent)?;
        let sent = turn(alloc, &mut site.called)?;
        pass(alloc, site, &sent)?;
    }
    Ok(())
}

/// How many messages `abc` of stream 0 are taken, of all that a host has.
fn taken(alloc: Global, host: &mut HostCore) -> Result<u32, Fail> {
    let mut count: u32 = 0;
    for _ in 0..20_u32 {
        if let Taken::Whole(message) = host.endpoint().take(alloc, 1)? {
            if message.stream == 0 && message.body.as_slice() == b"abc".as_slice() {
                count = count.saturating_add(1);
            }
        }
    }
    Ok(count)
}

fn dial(alloc: Global, host: &mut HostCore) -> Result<u16, Fail> {
    let to = Address {
        network: Network(0x33),
        node: node(7),
        socket: Socket(0x4000),
    };
    Ok(host.endpoint().dial(alloc, Socket(0x4001), to, 8, 0)?)
}

fn send(alloc: Global, host: &mut HostCore, id: u16) -> Result<(), Fail> {
    let body = vec![in alloc; b'a', b'b', b'c']?;
    host.endpoint()
        .send(alloc, id, &Message { stream: 0, body })?;
    Ok(())
}

#[test]
fn each_datagram_twice(rt: HostRuntime) -> Result<(), Fail> {
    let alloc = rt.alloc();
    let mut site = new_site(alloc)?;
    pump(alloc, &mut site, 50)?;
    let id = dial(alloc, &mut site.caller.core)?;
    pump(alloc, &mut site, 200)?;
    send(alloc, &mut site.caller.core, id)?;
    pump(alloc, &mut site, 200)?;
    assert_eq!(rt; taken(alloc, &mut site.called.core)?, 1);
    let numbers = site.caller.core.as_endpoint().numbers(id)?;
    assert!(rt; numbers.next == 1 && numbers.out == 0);
    Ok(())
}
