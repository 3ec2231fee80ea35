//! The script of examples/two_routers.sim while memory is refused. Each step answers as usual up to
//! the one whose request was refused. Then the log is a prefix of the usual one, and the next step
//! is refused. Run it with each request refused.

ghost use Rattle.std.specs.Prelude.{◌≡◌, ◌≢◌, ◌<◌, ◌≤◌, IfOk, IfSome};
ghost use Rattle.ipx_net.specs.NetBeginnings.{IsHostOwed};
ghost use Rattle.ipx_net.specs.NetEvents.{IsOwed};
ghost use Rattle.ipx_router.specs.NewRouter.{IsOwnNetwork};

use crate::made::node;
use crate::spent::{Told, is_spent, told};
use ipx_net::{Answer, Event, Host, Member, Net, NetFault, Parcel, Place};
use ipx_router::{NewFault, Port};
use ipx_wire::{Address, Network, Socket};
use spx_messages::Message;
use std::alloc::{AllocError, Global};
use std::process::Abort;
use std::test::Fail;

/// A host of network 11 or 33.
fn host(network: u32, last: u8, router: u8, listen: Option<(Socket, u16)>) -> Host
    requires first { network ≢ 0 }
    requires last { network ≢ 4294967295 }
    requires buffers { IfSome listen (λ l. (0 < l.1) × (l.1 ≤ 8192)) }
    ensures { IsHostOwed result }
{
    Host {
        network: Network(network),
        node: node(last),
        router: node(router),
        listen,
    }
}

fn port(network: u32, last: u8) -> Port
    requires first { network ≢ 0 }
    requires last { network ≢ 4294967295 }
    ensures { IsOwnNetwork result }
{
    Port {
        network: Network(network),
        node: node(last),
        cost: 1,
    }
}

/// The ports of the two routers: network 22 is between them.
fn routers(alloc: Global) -> Result<Vec<Vec<Port>>, AllocError> {
    let near = vec![in alloc; port(0x11, 1), port(0x22, 2)]?;
    let far = vec![in alloc; port(0x22, 4), port(0x33, 6)]?;
    let routers = vec![in alloc; near, far]?;
    Ok(routers)
}

/// A host of network 11, two routers, and a host of network 33 that listens at socket 4000.
fn net(alloc: Global) -> Result<Net, NewFault> {
    let listens = Some((Socket(0x4000), 8));
    let Ok(hosts) = vec![in alloc; host(0x11, 3, 1, None), host(0x33, 7, 6, listens)] else {
        return Err(NewFault::OutOfMemory);
    };
    let Ok(routers) = routers(alloc) else {
        return Err(NewFault::OutOfMemory);
    };
    Net::new(alloc, hosts, routers)
}

/// The network. If memory is refused, it is tried again.
fn net_at_last(alloc: Global) -> Result<Net, NewFault> {
    match net(alloc) {
        Ok(net) => Ok(net),
        Err(_) => net(alloc),
    }
}

/// An action: an event that can be made again.
#[derive(Clone, Copy)]
enum Deed {
    Dial,
    Send,
    Take,
    Poll(Member),
    Deliver(usize, Place),
}

/// Host 0 dials host 1.
fn dial() -> Event
    ensures { IsOwed result }
{
    Event::Dial {
        host: 0,
        socket: Socket(0x4001),
        to: Address {
            network: Network(0x33),
            node: node(7),
            socket: Socket(0x4000),
        },
        buffers: 8,
    }
}

/// The message `abc`.
fn message(alloc: Global) -> Result<Message, AllocError> {
    let body = vec![in alloc; b'a', b'b', b'c']?;
    Ok(Message { stream: 0, body })
}

/// The same. If memory is refused, it is tried again.
fn message_at_last(alloc: Global) -> Result<Message, AllocError> {
    match message(alloc) {
        Ok(message) => Ok(message),
        Err(_) => message(alloc),
    }
}

fn event(alloc: Global, deed: Deed) -> Result<Event, AllocError>
    ensures { IfOk result (λ e. IsOwed e) }
{
    match deed {
        Deed::Dial => Ok(dial()),
        Deed::Send => Ok(Event::Send {
            who: 0,
            message: message_at_last(alloc)?,
        }),
        Deed::Take => Ok(Event::Take { who: 1 }),
        Deed::Poll(member) => Ok(Event::Poll { member }),
        Deed::Deliver(parcel, place) => Ok(Event::Deliver { parcel, place }),
    }
}

/// The usual log; the message is `abc`. First, each router asks for routes and for services on both
/// of its ports, and advertises the one network on the other. On the network between them each
/// answers the other's request for routes, the second router first. Neither knows a service.
const USUAL: [Told; 36] = [
    ("told", 0, 0, 0),
    ("told", 0, 1, 0),
    ("told", 0, 2, 0),
    ("told", 0, 3, 0),
    ("told", 0, 4, 0),
    ("told", 0, 5, 0),
    ("told", 1, 6, 0),
    ("told", 1, 7, 0),
    ("told", 1, 8, 0),
    ("told", 1, 9, 0),
    ("told", 1, 10, 0),
    ("told", 1, 11, 0),
    ("told", 1, 12, 0),
    ("told", 0, 13, 0),
    ("opened", 0, 0, 8),
    ("system", 0, 14, 0),
    ("carried", 14, 15, 0),
    ("carried", 15, 16, 0),
    ("accepted", 1, 16, 8),
    ("got", 1, 16, 0),
    ("system", 1, 17, 0),
    ("carried", 17, 18, 0),
    ("carried", 18, 19, 0),
    ("joined", 0, 19, 0),
    ("got", 0, 19, 0),
    ("handed in", 0, 0, 0x61_62_63),
    ("unit", 0, 20, 0),
    ("carried", 20, 21, 0),
    ("carried", 21, 22, 0),
    ("got", 1, 22, 0),
    ("system", 1, 23, 0),
    ("carried", 23, 24, 0),
    ("carried", 24, 25, 0),
    ("got", 0, 25, 0),
    ("taken", 1, 0, 0x61_62_63),
    ("handed out", 1, 0, 0x61_62_63),
];

/// Whether the log is a prefix of the usual one.
fn is_beginning(net: &Net) -> bool {
    let log = net.log();
    log.len() <= USUAL.len() && log.iter().zip(USUAL).all(|pair| told(pair.0) == pair.1)
}

/// Takes a step. If an end refuses it, it is tried again. `None` if memory ran out: the log is then
/// a prefix of the usual one, and stays so.
fn step(rt: &impl Abort, alloc: Global, net: &mut Net, deed: Deed) -> Result<Option<Answer>, Fail> {
    let before = net.log().len();
    let mut answer = net.step(alloc, event(alloc, deed)?);
    if let Ok(Answer::Refused(fault)) = &answer {
        assert_eq!(rt; fault.number(), 27);
        assert_eq!(rt; net.log().len(), before);
        answer = net.step(alloc, event(alloc, deed)?);
    }
    assert!(rt; is_beginning(net));
    match answer {
        Ok(answer) => Ok(Some(answer)),
        Err(fault) => {
            assert_eq!(rt; fault, NetFault::OutOfMemory);
            assert_eq!(rt; net.log().len(), before);
            assert!(rt; is_spent(net, alloc));
            assert_eq!(rt; net.log().len(), before);
            assert!(rt; is_beginning(net));
            Ok(None)
        }
    }
}

const MEMBERS: [Member; 4] = [
    Member::Host(0),
    Member::Host(1),
    Member::Router(0),
    Member::Router(1),
];

/// The places, each with its network and the last byte of its node.
const PLACES: [(Place, u32, u8); 6] = [
    (Place::Host(0), 0x11, 3),
    (Place::Host(1), 0x33, 7),
    (Place::Port(0, 1), 0x11, 1),
    (Place::Port(0, 2), 0x22, 2),
    (Place::Port(1, 1), 0x22, 4),
    (Place::Port(1, 2), 0x33, 6),
];

/// Polls a member until it has nothing to send. The result is whether the network goes on.
fn polls(rt: &impl Abort, alloc: Global, net: &mut Net, member: Member) -> Result<bool, Fail> {
    for _ in 0..20u32 {
        match step(rt, alloc, net, Deed::Poll(member))? {
            None => return Ok(false),
            Some(Answer::Parcels(numbers)) if numbers.is_empty() => return Ok(true),
            Some(answer) => assert!(rt; matches!(answer, Answer::Parcels(_))),
        }
    }
    assert!(rt; false, "it is never quiet");
    Ok(true)
}

/// Whether a parcel goes to a place: to its node, or to all except the place that sent it.
fn goes_to(parcel: &Parcel, place: (Place, u32, u8)) -> bool {
    let is_for_all = parcel.next.0 == [0xff; 6] && parcel.sent_by != Some(place.0);
    parcel.segment == Network(place.1) && (parcel.next == node(place.2) || is_for_all)
}

/// Delivers a parcel to each place that it goes to. The result is whether the network goes on.
fn delivers(rt: &impl Abort, alloc: Global, net: &mut Net, number: usize) -> Result<bool, Fail> {
    for place in PLACES {
        let is_for = net
            .parcels()
            .get(number)
            .is_some_and(|parcel| goes_to(parcel, place));
        if is_for && step(rt, alloc, net, Deed::Deliver(number, place.0))?.is_none() {
            return Ok(false);
        }
    }
    Ok(true)
}

/// Runs rounds until so many parcels have been made and delivered, of which the first ones were
/// there before. The result is whether the network goes on.
fn runs(
    rt: &impl Abort,
    alloc: Global,
    net: &mut Net,
    first: usize,
    count: usize,
) -> Result<bool, Fail> {
    let mut number = first;
    for _ in 0..3u32 {
        for member in MEMBERS {
            if !polls(rt, alloc, net, member)? {
                return Ok(false);
            }
        }
        while number < net.parcels().len() {
            if !delivers(rt, alloc, net, number)? {
                return Ok(false);
            }
            number = number.wrapping_add(1);
        }
    }
    assert_eq!(rt; number, count);
    Ok(true)
}

#[test]
fn refused_memory_over_two_routers(rt: HostRuntime) -> Result<(), Fail> {
    let alloc = rt.alloc();
    let mut net = net_at_last(alloc)?;
    if !runs(&rt, alloc, &mut net, 0, 14)?
        || step(&rt, alloc, &mut net, Deed::Dial)?.is_none()
        || !runs(&rt, alloc, &mut net, 14, 20)?
        || step(&rt, alloc, &mut net, Deed::Send)?.is_none()
        || !runs(&rt, alloc, &mut net, 20, 26)?
        || step(&rt, alloc, &mut net, Deed::Take)?.is_none()
    {
        return Ok(());
    }
    assert_eq!(rt; net.log().len(), USUAL.len());
    Ok(())
}
