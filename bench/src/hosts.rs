//! Two plain hosts, in the loops that `crates/ipx_bench` has for the proved ones.

use crate::plain::endpoint::{Arrived, EndFault, Endpoint, Message, ROOM, Taken};
use crate::plain::link::{OfferFault, Sent};
use crate::plain::spx::SpxFault;
use crate::plain::wire::{Address, Network, Node, Socket};
use crate::theirs::fault_number;

const ID: u16 = 1;

const SOCKET: Socket = Socket(0x4000);

const NETWORK: Network = Network(0x11);

const NEAR: Node = Node([0, 0, 0x7f, 0, 0, 3]);

const FAR: Node = Node([0, 0, 0x7f, 0, 0, 4]);

const ROUTER: Node = Node([0, 0, 0x7f, 0, 0, 1]);

/// Two hosts on one network, of which the near one has dialled the far one.
struct Hosts {
    near: Endpoint,
    far: Endpoint,
}

impl Hosts {
    fn new(buffers: u16) -> Result<Self, EndFault> {
        let mut near = Endpoint::new(NETWORK, NEAR, ROUTER);
        let mut far = Endpoint::new(NETWORK, FAR, ROUTER);
        far.listen(SOCKET, buffers);
        let to = Address {
            network: NETWORK,
            node: FAR,
            socket: SOCKET,
        };
        near.dial(SOCKET, to, buffers, 0)?;
        Ok(Hosts { near, far })
    }
}

fn mixed(digest: u64, number: u64) -> u64 {
    digest.wrapping_mul(31).wrapping_add(number)
}

fn node_number(node: Node) -> u64 {
    let [a, b, c, d, e, f] = node.0;
    u64::from_be_bytes([0, 0, a, b, c, d, e, f])
}

fn byte_at(bytes: &[u8], at: usize) -> u64 {
    bytes.get(at).copied().map_or(0, u64::from)
}

fn ends_digest(bytes: &[u8]) -> u64 {
    let count = bytes.len();
    let ends = byte_at(bytes, 0) ^ byte_at(bytes, count.saturating_sub(1));
    mixed(ends, count as u64)
}

fn given_digest(next: Node, sent: Option<(u16, Sent)>, datagram: &[u8]) -> u64 {
    let what = sent.map_or(0, |(id, what)| mixed(u64::from(id), what as u64));
    let sequence = mixed(byte_at(datagram, 36), byte_at(datagram, 37));
    let place = mixed(node_number(next), what);
    mixed(place ^ sequence, ends_digest(datagram))
}

fn arrived_digest(arrived: &Arrived) -> u64 {
    match arrived {
        Arrived::Bad(fault) => u64::from(fault_number(fault)),
        Arrived::NotOurs => 20,
        Arrived::BadSpx(SpxFault::Short(_)) => 6,
        Arrived::BadSpx(SpxFault::OverSize(_)) => 7,
        Arrived::NoListener => 21,
        Arrived::NoRoom => 22,
        Arrived::Stranger => 23,
        Arrived::Accepted(id) => mixed(24, u64::from(*id)),
        Arrived::Link(id, received) => mixed(u64::from(*id), *received as u64),
    }
}

fn message_digest(message: &Message) -> u64 {
    mixed(u64::from(message.stream), ends_digest(&message.body))
}

// ---- passing

fn messages_of(bytes: &[u8], size: usize) -> Vec<Message> {
    let pieces = bytes.chunks(size).map(<[u8]>::to_vec);
    pieces.map(|body| Message { stream: 0, body }).collect()
}

fn carry(from: &mut Endpoint, to: &mut Endpoint, room: &mut [u8; ROOM], now: u64) -> Option<u64> {
    let (next, count) = from.poll(now, room)?;
    let datagram = room.get(..count)?;
    let given = given_digest(next, from.sent(), datagram);
    let arrived = to.receive(datagram, now);
    Some(mixed(given, arrived_digest(&arrived)))
}

fn carry_all(from: &mut Endpoint, to: &mut Endpoint, room: &mut [u8; ROOM], now: u64) -> u64 {
    let mut digest = 0;
    while let Some(carried) = carry(from, to, room, now) {
        digest = mixed(digest, carried);
    }
    digest
}

fn take_all(host: &mut Endpoint) -> (u16, u64) {
    let (mut count, mut digest) = (0, 0);
    loop {
        match host.take(ID) {
            Ok(Taken::Part) => {}
            Ok(Taken::Whole(message)) => digest = mixed(digest, message_digest(&message)),
            _ => return (count, digest),
        }
        count += 1;
    }
}

fn pump(hosts: &mut Hosts, turns: usize, now: u64) -> u64 {
    let mut room = [0; ROOM];
    let mut digest = 0;
    for _ in 0..turns {
        let sent = carry_all(&mut hosts.near, &mut hosts.far, &mut room, now);
        let (count, taken) = take_all(&mut hosts.far);
        let answered = carry_all(&mut hosts.far, &mut hosts.near, &mut room, now);
        digest = mixed(mixed(mixed(digest, sent), taken), answered);
        if count == 0 {
            break;
        }
    }
    digest
}

fn deliver(hosts: &mut Hosts, message: &Message, now: u64) -> u64 {
    match hosts.near.send(ID, message) {
        Ok(()) => pump(hosts, message.body.len(), now),
        Err(_) => 0,
    }
}

fn deliver_all(hosts: &mut Hosts, messages: &[Message], now: u64) -> u64 {
    let digests = messages.iter().map(|message| deliver(hosts, message, now));
    digests.fold(0, mixed)
}

#[inline(never)]
pub fn deliver_rounds(bytes: &[u8], size: usize, buffers: u16, rounds: u32) -> u64 {
    let messages = messages_of(bytes, size);
    let Ok(mut hosts) = Hosts::new(buffers) else {
        return 0;
    };
    let mut digest = pump(&mut hosts, 1, 0);
    for round in 0..rounds {
        let delivered = deliver_all(&mut hosts, &messages, u64::from(round));
        digest = mixed(digest, delivered);
    }
    digest
}

// ---- talking

/// How many milliseconds pass from a turn to the next one: an unanswered unit is then due.
const LATER: u64 = 600;

/// How many turns a message has.
const TURNS: u64 = 600;

fn end_fault_number(fault: EndFault) -> u8 {
    match fault {
        EndFault::Offer(OfferFault::NotLive) => 25,
        EndFault::Offer(OfferFault::Ended) => 26,
        EndFault::TooMany => 28,
        EndFault::TooLong(_) => 29,
        EndFault::BadStream(_) => 30,
        EndFault::Overlong => 31,
        EndFault::NoSuchEnd => 34,
    }
}

fn write_bytes(out: &mut Vec<u8>, bytes: &[u8]) {
    out.extend((bytes.len() as u64).to_be_bytes());
    out.extend(bytes);
}

fn hand_over(to: &mut Endpoint, datagram: &[u8], now: u64, out: &mut Vec<u8>) {
    let arrived = to.receive(datagram, now);
    out.extend(arrived_digest(&arrived).to_be_bytes());
    out.push(u8::from(to.heard() == Some(ID)));
}

/// Carries one datagram from a host to the other, and writes it. Where `altered`, it comes first
/// with a bit of its headers turned. False where there is none to send.
fn carry_written(
    from: &mut Endpoint,
    to: &mut Endpoint,
    altered: bool,
    now: u64,
    out: &mut Vec<u8>,
) -> bool {
    let mut room = [0; ROOM];
    let Some((next, count)) = from.poll(now, &mut room) else {
        return false;
    };
    out.extend(next.0);
    write_bytes(out, &room[..count]);
    if altered {
        let bit = out.len() % 336;
        let mut other = room;
        other[bit / 8] ^= 1 << (bit % 8);
        hand_over(to, &other[..count], now, out);
    }
    hand_over(to, &room[..count], now, out);
    true
}

fn take_written(host: &mut Endpoint, out: &mut Vec<u8>) -> bool {
    match host.take(ID) {
        Ok(Taken::Nothing) => return false,
        Ok(Taken::Part) => out.push(b'P'),
        Ok(Taken::Whole(message)) => {
            out.extend([b'W', message.stream]);
            write_bytes(out, &message.body);
        }
        Ok(Taken::PeerEnd) => out.push(b'E'),
        Err(fault) => {
            out.push(end_fault_number(fault));
            return false;
        }
    }
    true
}

fn turns(hosts: &mut Hosts, altered: bool, from: u64, count: u64, out: &mut Vec<u8>) {
    let Hosts { near, far } = hosts;
    for turn in 0..count {
        let now = from + turn * LATER;
        while carry_written(near, far, altered, now, out) {}
        while take_written(far, out) {}
        while carry_written(far, near, altered, now, out) {}
        while take_written(near, out) {}
    }
}

/// What two new hosts with so many buffers say when bytes are sent in messages of a size.
pub fn talk(bytes: &[u8], size: usize, buffers: u16, altered: bool) -> Vec<u8> {
    let mut out = Vec::new();
    let Ok(mut hosts) = Hosts::new(buffers) else {
        return out;
    };
    turns(&mut hosts, altered, 0, 1, &mut out);
    let mut now = 0;
    for message in messages_of(bytes, size) {
        let sent = hosts.near.send(ID, &message);
        out.push(sent.map_or_else(end_fault_number, |()| 0));
        turns(&mut hosts, altered, now, TURNS, &mut out);
        now += TURNS * LATER;
    }
    out
}
