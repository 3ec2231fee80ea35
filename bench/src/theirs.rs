//! The plain router, in the loops that `crates/ipx_bench` has for the proved one.

use crate::inputs::{LEAD, Pace, Records, port_network};
use crate::plain::control::ControlFault;
use crate::plain::router::{InPlace, Outcome, Port, Reason, Reply, Router};
use crate::plain::wire::{
    Address, HEADER, IpxFault, Network, Node, Packet, decode as decode_packet,
};
use std::time::Instant;

const MOMENT: u64 = 1 << 60;

fn mixed(digest: u64, number: u64) -> u64 {
    digest.wrapping_mul(31).wrapping_add(number)
}

fn node_number(node: Node) -> u64 {
    let [a, b, c, d, e, f] = node.0;
    u64::from_be_bytes([0, 0, a, b, c, d, e, f])
}

fn address_digest(address: Address) -> u64 {
    let place = u64::from(address.network.0) ^ node_number(address.node);
    mixed(place, u64::from(address.socket.0))
}

fn packet_digest(packet: &Packet<'_>) -> u64 {
    let header = packet.header;
    let kinds = u64::from(u16::from_be_bytes([header.hops, header.kind]));
    let ends = address_digest(header.to) ^ address_digest(header.from);
    mixed(kinds ^ ends, packet.body.len() as u64)
}

fn byte_at(bytes: &[u8], at: usize) -> u64 {
    bytes.get(at).copied().map_or(0, u64::from)
}

fn sent_digest(port: u8, next: Node, bytes: &[u8]) -> u64 {
    let count = bytes.len();
    let ends = byte_at(bytes, 4) ^ byte_at(bytes, count.saturating_sub(1));
    let place = mixed(u64::from(port), node_number(next));
    mixed(place ^ ends, count as u64)
}

fn reply_digest(reply: &Reply) -> u64 {
    sent_digest(reply.port, reply.next, &reply.bytes)
}

fn replies_digest(replies: &[Reply]) -> u64 {
    replies
        .iter()
        .fold(0, |digest, reply| mixed(digest, reply_digest(reply)))
}

fn outcome_digest(outcome: &Outcome) -> u64 {
    match outcome {
        Outcome::Forward(reply) => reply_digest(reply),
        Outcome::Replies(replies) => replies_digest(replies),
        Outcome::Heard(count) => mixed(4, u64::from(*count)),
        Outcome::Dropped(reason) => u64::from(reason_number(reason)),
    }
}

fn in_place_digest(outcome: &InPlace, room: &[u8]) -> u64 {
    match outcome {
        InPlace::Forward { port, next, count } => sent_digest(*port, *next, &room[..*count]),
        InPlace::Other(outcome) => outcome_digest(outcome),
    }
}

fn router_of(count: u8) -> Router {
    let ports = (1..=count).map(|number| Port {
        network: Network(port_network(number)),
        node: Node([0, 0, 0x7f, 0, 0, number]),
        cost: 1,
    });
    Router::new(ports.collect())
}

fn router_of_three() -> Router {
    router_of(3)
}

fn feed(router: &mut Router, record: &[u8], now: u64) -> Option<Outcome> {
    let port = *record.first()?;
    let datagram = record.get(LEAD..)?;
    if port == 0 || port > 3 {
        return None;
    }
    Some(router.receive(port, datagram, now))
}

fn fed_digests(router: &mut Router, records: &Records, first: u64, apart: u64) -> u64 {
    let mut digest = 0;
    let mut now = first;
    for record in records.bytes.chunks_exact(records.size) {
        let fed = feed(router, record, now).map_or(2, |outcome| outcome_digest(&outcome));
        digest = mixed(digest, fed);
        now = now.saturating_add(apart);
    }
    digest
}

/// Hands a datagram to the router in place, and puts its header back as it was.
fn fed_in_place(router: &mut Router, record: &mut [u8]) -> u64 {
    let Some((lead, datagram)) = record.split_first_chunk_mut::<LEAD>() else {
        return 2;
    };
    let (port, header) = (lead[0], datagram.first_chunk::<HEADER>().copied());
    let Some(header) = header.filter(|_| (1..=3).contains(&port)) else {
        return 2;
    };
    let outcome = router.receive_in_place(port, datagram, MOMENT);
    let digest = in_place_digest(&outcome, datagram);
    datagram[..HEADER].copy_from_slice(&header);
    digest
}

#[inline(never)]
pub fn decode(datagrams: &[u8], size: usize, rounds: u32) -> u64 {
    let mut digest = 0;
    for _ in 0..rounds {
        for datagram in datagrams.chunks_exact(size) {
            let decoded = decode_packet(datagram).map_or_else(
                |fault| u64::from(fault_number(&fault)),
                |packet| packet_digest(&packet),
            );
            digest = mixed(digest, decoded);
        }
    }
    digest
}

#[inline(never)]
pub fn receive(heard: &Records, records: &Records, rounds: u32, pace: Pace) -> u64 {
    let mut router = router_of_three();
    fed_digests(&mut router, heard, MOMENT, 0);
    let mut digest = 0;
    let mut first = MOMENT;
    for _ in 0..rounds {
        let round = fed_digests(&mut router, records, first, pace.apart);
        digest = mixed(digest, round);
        first = first.saturating_add(pace.period);
    }
    digest
}

/// The same, and how many nanoseconds each record of each round took.
#[inline(never)]
pub fn receive_each(
    heard: &Records,
    records: &Records,
    rounds: u32,
    pace: Pace,
) -> (u64, Vec<u64>) {
    let mut router = router_of_three();
    fed_digests(&mut router, heard, MOMENT, 0);
    let mut times = Vec::new();
    let (mut digest, mut first) = (0, MOMENT);
    for _ in 0..rounds {
        let (mut round, mut now) = (0, first);
        for record in records.bytes.chunks_exact(records.size) {
            let start = Instant::now();
            let fed = feed(&mut router, record, now).map_or(2, |outcome| outcome_digest(&outcome));
            times.push(start.elapsed().as_nanos() as u64);
            round = mixed(round, fed);
            now = now.saturating_add(pace.apart);
        }
        digest = mixed(digest, round);
        first = first.saturating_add(pace.period);
    }
    (digest, times)
}

#[inline(never)]
pub fn in_place(heard: &Records, records: &Records, rounds: u32) -> u64 {
    let mut router = router_of_three();
    fed_digests(&mut router, heard, MOMENT, 0);
    let mut bytes = records.bytes.clone();
    let mut digest = 0;
    for _ in 0..rounds {
        let mut round = 0;
        for record in bytes.chunks_exact_mut(records.size) {
            round = mixed(round, fed_in_place(&mut router, record));
        }
        digest = mixed(digest, round);
    }
    digest
}

fn told_digests(mut router: Router, heard: &Records, rounds: u32) -> u64 {
    fed_digests(&mut router, heard, MOMENT, 0);
    let mut digest = 0;
    for round in 0..rounds {
        let told = router.tell(u64::from(round) * 60_000);
        digest = mixed(digest, replies_digest(&told));
    }
    digest
}

#[inline(never)]
pub fn tell(heard: &Records, rounds: u32) -> u64 {
    told_digests(router_of_three(), heard, rounds)
}

/// The same by a router of sixteen ports.
#[inline(never)]
pub fn tell_sixteen(heard: &Records, rounds: u32) -> u64 {
    told_digests(router_of(16), heard, rounds)
}

/// The digest of a text: how long it is, and bytes of it.
fn bytes_digest(bytes: &[u8]) -> u64 {
    let count = bytes.len();
    let ends = mixed(byte_at(bytes, 9), byte_at(bytes, count / 2));
    mixed(ends, count as u64)
}

#[inline(never)]
pub fn known(heard: &Records, rounds: u32) -> u64 {
    let mut router = router_of_three();
    fed_digests(&mut router, heard, MOMENT, 0);
    let mut digest = 0;
    for round in 0..rounds {
        let text = router.text(MOMENT + u64::from(round) * 10);
        digest = mixed(digest, bytes_digest(text.as_bytes()));
    }
    digest
}

fn write_reply(reply: &Reply, out: &mut Vec<u8>) {
    out.push(reply.port);
    out.extend(reply.next.0);
    out.extend((reply.bytes.len() as u64).to_be_bytes());
    out.extend(&reply.bytes);
}

pub fn fault_number(fault: &IpxFault) -> u8 {
    match fault {
        IpxFault::Short(_) => 1,
        IpxFault::Checksummed(_) => 2,
        IpxFault::LengthShort(_) => 3,
        IpxFault::Truncated(..) => 4,
        IpxFault::TooLong(_) => 5,
    }
}

fn control_number(fault: &ControlFault) -> u8 {
    match fault {
        ControlFault::NoOperation => 8,
        ControlFault::UnknownOperation(_) => 9,
        ControlFault::TooManyEntries(_) => 10,
        ControlFault::QueryShort(_) => 11,
    }
}

fn reason_number(reason: &Reason) -> u8 {
    match reason {
        Reason::Bad(fault) => fault_number(fault),
        Reason::Propagated => 19,
        Reason::NotOurs => 20,
        Reason::NoRoute(_) => 21,
        Reason::HopLimit => 22,
        Reason::BadControl(fault) => control_number(fault),
        Reason::TableFull => 24,
    }
}

fn write_outcome(outcome: &Outcome, out: &mut Vec<u8>) {
    match outcome {
        Outcome::Forward(reply) => {
            out.push(b'F');
            write_reply(reply, out);
        }
        Outcome::Replies(replies) => {
            out.push(b'R');
            replies.iter().for_each(|reply| write_reply(reply, out));
        }
        Outcome::Heard(count) => {
            out.push(b'H');
            out.extend(count.to_be_bytes());
        }
        Outcome::Dropped(reason) => out.extend([b'D', reason_number(reason)]),
    }
}

/// What became of a datagram in place, with a copy of what goes on.
fn copied(outcome: InPlace, room: &[u8]) -> Outcome {
    match outcome {
        InPlace::Forward { port, next, count } => Outcome::Forward(Reply {
            port,
            next,
            bytes: room[..count].to_vec(),
        }),
        InPlace::Other(outcome) => outcome,
    }
}

/// What a new router answers to each record, and what it tells then, as bytes. Another one is to
/// answer the same in place.
pub fn answers(records: &Records) -> Vec<u8> {
    let (mut router, mut other) = (router_of_three(), router_of_three());
    let mut out = Vec::new();
    for record in records.bytes.chunks_exact(records.size) {
        if let Some(outcome) = feed(&mut router, record, MOMENT) {
            let mut room = record[LEAD..].to_vec();
            let in_place = other.receive_in_place(record[0], &mut room, MOMENT);
            assert!(copied(in_place, &room) == outcome, "in place differs");
            write_outcome(&outcome, &mut out);
        }
    }
    out.push(b'T');
    router
        .tell(0)
        .iter()
        .for_each(|reply| write_reply(reply, &mut out));
    out
}
