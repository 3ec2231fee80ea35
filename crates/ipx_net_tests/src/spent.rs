//! A message over a router while memory is refused: the log is a prefix of the usual one, and the
//! next step is refused. Run it with each request refused.

ghost use Rattle.std.specs.Prelude.{◌≡◌, ◌≢◌, ◌<◌, ◌≤◌, All, IfOk, IfSome};
ghost use Rattle.ipx_net.specs.NetBeginnings.{IsHostOwed};
ghost use Rattle.ipx_net.specs.NetEvents.{IsOwed};

use crate::book::message;
use crate::made::{node, ports_with};
use ipx_net::{Answer, Entry, Event, Host, Member, Net, NetFault, Place};
use ipx_router::NewFault;
use ipx_wire::{Address, Network, Socket};
use spx_messages::Message;
use std::alloc::{AllocError, Global};
use std::process::Abort;
use std::test::Fail;

/// A host of network 11 or 22, whose router has the node 1 or 2.
fn host(network: u32, last: u8, router: u8, listen: Option<(Socket, u16)>) -> Host
    requires first { network ≢ 0 }
    requires last { network ≢ 4294967295 }
    requires buffers { IfSome listen (λ l. (0 < l.1) × (l.1 ≤ 8192)) }
    ensures { IsHostOwed result }
{
    Host {
        network: Network(network),
        node: node(last),
        router: node(router),
        listen,
    }
}

/// A host of network 11, a router, and a host of network 22 that listens at socket 4000.
fn net(alloc: Global) -> Result<Net, NewFault> {
    let listens = Some((Socket(0x4000), 8));
    let Ok(hosts) = vec![in alloc; host(0x11, 3, 1, None), host(0x22, 4, 2, listens)] else {
        return Err(NewFault::OutOfMemory);
    };
    let Ok(ports) = ports_with(alloc, 0x22) else {
        return Err(NewFault::OutOfMemory);
    };
    let Ok(routers) = vec![in alloc; ports] else {
        return Err(NewFault::OutOfMemory);
    };
    Net::new(alloc, hosts, routers)
}

/// The network. If memory is refused, it is tried again.
fn net_at_last(alloc: Global) -> Result<Net, NewFault> {
    match net(alloc) {
        Ok(net) => Ok(net),
        Err(_) => net(alloc),
    }
}

/// Host 0 dials host 1.
fn dial() -> Event
    ensures { IsOwed result }
{
    Event::Dial {
        host: 0,
        socket: Socket(0x4001),
        to: Address {
            network: Network(0x22),
            node: node(4),
            socket: Socket(0x4000),
        },
        buffers: 8,
    }
}

/// A parcel is delivered to the next place on its way.
fn deliver(parcel: usize) -> Event
    ensures { IsOwed result }
{
    let place = match parcel {
        0 | 4 => Place::Port(0, 1),
        1 | 5 => Place::Host(1),
        2 => Place::Port(0, 2),
        _ => Place::Host(0),
    };
    Event::Deliver { parcel, place }
}

/// The message that is handed in. If memory is refused, it is tried again.
fn message_at_last(alloc: Global) -> Result<Message, AllocError> {
    match message(alloc, 0x61) {
        Ok(message) => Ok(message),
        Err(_) => message(alloc, 0x61),
    }
}

/// The events that send a message of one byte from host 0 to host 1, by their numbers.
fn event(alloc: Global, number: usize) -> Result<Event, AllocError>
    ensures { IfOk result (λ e. IsOwed e) }
{
    let member = Member::Host(if number == 4 { 1 } else { 0 });
    match number {
        0 => Ok(dial()),
        1 | 4 | 8 => Ok(Event::Poll { member }),
        2 | 3 => Ok(deliver(number - 2)),
        5 | 6 => Ok(deliver(number - 3)),
        7 => Ok(Event::Send {
            who: 0,
            message: message_at_last(alloc)?,
        }),
        9 | 10 => Ok(deliver(number - 5)),
        _ => Ok(Event::Take { who: 1 }),
    }
}

/// The number of log entries before each of the events, and after the last.
const LENGTHS: [usize; 13] = [0, 1, 2, 3, 5, 6, 7, 9, 10, 11, 12, 13, 15];

/// An entry: its kind; its end, or the parcel that was forwarded; and two more numbers.
pub type Told = (&'static str, usize, usize, usize);

/// The usual log. The byte of the message is 97.
const USUAL: [Told; 15] = [
    ("opened", 0, 0, 8),
    ("system", 0, 0, 0),
    ("carried", 0, 1, 0),
    ("accepted", 1, 1, 8),
    ("got", 1, 1, 0),
    ("system", 1, 2, 0),
    ("carried", 2, 3, 0),
    ("joined", 0, 3, 0),
    ("got", 0, 3, 0),
    ("handed in", 0, 0, 97),
    ("unit", 0, 4, 0),
    ("carried", 4, 5, 0),
    ("got", 1, 5, 0),
    ("taken", 1, 0, 97),
    ("handed out", 1, 0, 97),
];

/// The bytes of a body as a big-endian number.
fn number_of(body: &[u8]) -> usize {
    let mut number: usize = 0;
    for byte in body {
        number = number.wrapping_mul(256).wrapping_add(*byte as usize);
    }
    number
}

/// An entry of a log, in the form of `USUAL`.
pub fn told(entry: &Entry) -> Told {
    match entry {
        Entry::Opened { who, host, buffers } => ("opened", *who, *host, *buffers as usize),
        Entry::Accepted {
            who,
            parcel,
            buffers,
        } => ("accepted", *who, *parcel, *buffers as usize),
        Entry::Joined { who, parcel } => ("joined", *who, *parcel, 0),
        Entry::Got { who, parcel } => ("got", *who, *parcel, 0),
        Entry::Unit { who, parcel } => ("unit", *who, *parcel, 0),
        Entry::System { who, parcel } => ("system", *who, *parcel, 0),
        Entry::Carried { from, parcel } => ("carried", *from, *parcel, 0),
        Entry::Told { router, parcel } => ("told", *router, *parcel, 0),
        _ => told_of_a_message(entry),
    }
}

fn told_of_a_message(entry: &Entry) -> Told {
    match entry {
        Entry::HandIn { who, message } => {
            (
                "handed in",
                *who,
                message.stream as usize,
                number_of(&message.body),
            )
        }
        Entry::HandOut { who, message } => {
            (
                "handed out",
                *who,
                message.stream as usize,
                number_of(&message.body),
            )
        }
        Entry::UnitTaken { who, unit } => {
            (
                "taken",
                *who,
                unit.stream as usize,
                number_of(unit.body.as_slice()),
            )
        }
        _ => ("another", 0, 0, 0),
    }
}

/// Whether the log is the prefix of the usual one that ends before the event of that number.
fn is_usual_before(net: &Net, number: usize) -> bool {
    let log = net.log();
    let is_as_long = LENGTHS.get(number) == Some(&log.len());
    is_as_long && log.iter().zip(USUAL).all(|pair| told(pair.0) == pair.1)
}

/// Does the event of that number. If an end refuses it, it is tried again. The result is whether
/// the network goes on.
fn goes_on(rt: &impl Abort, alloc: Global, net: &mut Net, number: usize) -> Result<bool, Fail> {
    let mut answer = net.step(alloc, event(alloc, number)?);
    if let Ok(Answer::Refused(fault)) = &answer {
        assert_eq!(rt; fault.number(), 27);
        assert!(rt; is_usual_before(net, number));
        answer = net.step(alloc, event(alloc, number)?);
    }
    match answer {
        Ok(_) => Ok(true),
        Err(fault) => {
            assert_eq!(rt; fault, NetFault::OutOfMemory);
            Ok(false)
        }
    }
}

/// Whether a network has given up: no further step is taken, not even a clock tick.
pub fn is_spent(net: &mut Net, alloc: Global) -> bool {
    let ticked = net.step(alloc, Event::Tick { now: 5 });
    let taken = net.step(alloc, Event::Take { who: 0 });
    matches!(ticked, Err(NetFault::Spent)) && matches!(taken, Err(NetFault::Spent))
}

#[test]
fn refused_memory_of_a_message(rt: HostRuntime) -> Result<(), Fail> {
    let alloc = rt.alloc();
    let mut net = net_at_last(alloc)?;
    for number in 0..12 {
        if !goes_on(&rt, alloc, &mut net, number)? {
            assert!(rt; is_usual_before(&net, number), "{number}");
            assert!(rt; is_spent(&mut net, alloc), "{number}");
            assert!(rt; is_usual_before(&net, number), "{number}");
            return Ok(());
        }
    }
    assert!(rt; is_usual_before(&net, 12));
    Ok(())
}
