//! A pair of plain links, in the loops that `crates/ipx_bench` has for the proved ones.

use crate::plain::link::{Link, OfferFault, Received, Sent, Unit};
use crate::plain::links::Links;
use crate::plain::spx::{Fragment, MOST_DATA, ROOM, SpxFault, SpxHeader, decode, encode_into};
use crate::plain::wire::{Address, Network, Node, Socket};

const SOCKET: Socket = Socket(0x4000);

const ADDRESS: Address = Address {
    network: Network(0x11),
    node: Node([0, 0, 0x7f, 0, 0, 4]),
    socket: SOCKET,
};

/// A host with one link.
pub struct End {
    links: Links,
    id: u16,
}

/// Two ends, of which the near one asks the far one for a connection.
pub struct Pair {
    pub near: End,
    pub far: End,
}

impl End {
    fn dialed(buffers: u16) -> Option<Self> {
        let mut links = Links::default();
        let id = links.dial(SOCKET, ADDRESS, buffers, 0).ok()?;
        Some(End { links, id })
    }

    fn accepted(request: &SpxHeader, buffers: u16) -> Option<Self> {
        let mut links = Links::default();
        let id = links.accept(SOCKET, ADDRESS, request, buffers, 0).ok()?;
        Some(End { links, id })
    }

    pub fn link(&mut self) -> Option<&mut Link> {
        self.links.get_mut(self.id)
    }

    pub fn send(&mut self, now: u64, out: &mut [u8; ROOM]) -> Option<(Sent, usize)> {
        let packet = self.link()?.poll(now)?;
        let count = encode_into(&packet.header, packet.body, out);
        Some((packet.what, count))
    }

    pub fn receive(&mut self, header: &SpxHeader, body: &[u8]) -> Option<Received> {
        Some(self.link()?.receive(header, body))
    }
}

impl Pair {
    pub fn new(buffers: u16) -> Option<Self> {
        let mut near = End::dialed(buffers)?;
        let mut packet = [0; ROOM];
        let (_, count) = near.send(0, &mut packet)?;
        let (request, _) = decode(&packet[..count]).ok()?;
        let far = End::accepted(&request, buffers)?;
        Some(Pair { near, far })
    }
}

// ---- passing

fn mixed(digest: u64, number: u64) -> u64 {
    digest.wrapping_mul(31).wrapping_add(number)
}

fn byte_at(bytes: &[u8], at: usize) -> u64 {
    bytes.get(at).copied().map_or(0, u64::from)
}

fn ends_digest(bytes: &[u8]) -> u64 {
    let count = bytes.len();
    let ends = byte_at(bytes, 0) ^ byte_at(bytes, count.saturating_sub(1));
    mixed(ends, count as u64)
}

fn spx_digest(header: &SpxHeader, body: &[u8]) -> u64 {
    let marks = mixed(
        u64::from(header.system),
        mixed(u64::from(header.wants_ack), u64::from(header.last)),
    );
    let kind = mixed(marks, u64::from(header.stream));
    let ids = mixed(u64::from(header.from_id), u64::from(header.to_id));
    let counts = mixed(u64::from(header.seq), u64::from(header.ack));
    let numbers = mixed(counts, u64::from(header.limit));
    mixed(kind ^ ids ^ numbers, ends_digest(body))
}

fn unit_digest(unit: &Unit) -> u64 {
    let kind = mixed(u64::from(unit.stream), u64::from(unit.last));
    mixed(kind, ends_digest(unit.body.as_slice()))
}

fn cut(bytes: &[u8], size: usize, stream: u8, last: bool) -> Vec<Unit> {
    let units = bytes.chunks(size).map(|piece| Unit {
        stream,
        last,
        body: Fragment::new(piece),
    });
    units.collect()
}

fn carry(from: &mut End, to: &mut End, packet: &mut [u8; ROOM], now: u64) -> Option<u64> {
    let (what, count) = from.send(now, packet)?;
    let (header, body) = decode(&packet[..count]).ok()?;
    let digest = mixed(what as u64, spx_digest(&header, body));
    let received = to.receive(&header, body)?;
    Some(mixed(digest, received as u64))
}

fn carry_all(from: &mut End, to: &mut End, packet: &mut [u8; ROOM], now: u64) -> u64 {
    let mut digest = 0;
    while let Some(carried) = carry(from, to, packet, now) {
        digest = mixed(digest, carried);
    }
    digest
}

fn take_all(end: &mut End) -> (u16, u64) {
    let (mut count, mut digest) = (0, 0);
    while let Some(unit) = end.link().and_then(Link::take) {
        digest = mixed(digest, unit_digest(&unit));
        count += 1;
    }
    (count, digest)
}

fn pump(pair: &mut Pair, turns: usize, now: u64) -> u64 {
    let mut packet = [0; ROOM];
    let mut digest = 0;
    for _ in 0..turns {
        let sent = carry_all(&mut pair.near, &mut pair.far, &mut packet, now);
        let (count, taken) = take_all(&mut pair.far);
        let answered = carry_all(&mut pair.far, &mut pair.near, &mut packet, now);
        digest = mixed(mixed(mixed(digest, sent), taken), answered);
        if count == 0 {
            break;
        }
    }
    digest
}

fn pass_part(pair: &mut Pair, bytes: &[u8], now: u64) -> Option<u64> {
    let units = cut(bytes, MOST_DATA, 0, false);
    pair.near.link()?.offer(units).ok()?;
    Some(pump(pair, bytes.len(), now))
}

fn pass_all(pair: &mut Pair, bytes: &[u8], offered: usize, now: u64) -> u64 {
    let mut digest = 0;
    for part in bytes.chunks(offered) {
        digest = mixed(digest, pass_part(pair, part, now).unwrap_or(3));
    }
    digest
}

#[inline(never)]
pub fn pass(bytes: &[u8], offered: usize, buffers: u16, rounds: u32) -> u64 {
    let Some(mut pair) = Pair::new(buffers) else {
        return 0;
    };
    let mut digest = pump(&mut pair, 1, 0);
    for round in 0..rounds {
        let passed = pass_all(&mut pair, bytes, offered, u64::from(round));
        digest = mixed(digest, passed);
    }
    digest
}

// ---- playing

/// How many bytes come before the bytes of an event.
pub const LEAD: usize = 16;

/// The last stream that is a user's own.
pub const LAST_STREAM: u8 = 0xfd;

fn write_bytes(bytes: &[u8], out: &mut Vec<u8>) {
    out.extend((bytes.len() as u64).to_be_bytes());
    out.extend(bytes);
}

fn write_unit(unit: Option<&Unit>, out: &mut Vec<u8>) {
    let Some(unit) = unit else {
        out.push(0);
        return;
    };
    out.extend([1, unit.stream, u8::from(unit.last)]);
    write_bytes(unit.body.as_slice(), out);
}

fn write_offered(offered: Result<(), OfferFault>, out: &mut Vec<u8>) {
    out.push(match offered {
        Ok(()) => 0,
        Err(OfferFault::NotLive) => 25,
        Err(OfferFault::Ended) => 26,
    });
}

fn play_poll(end: &mut End, now: u64, out: &mut Vec<u8>) {
    let mut packet = [0; ROOM];
    match end.send(now, &mut packet) {
        Some((what, count)) => {
            out.extend([1, what as u8]);
            write_bytes(&packet[..count], out);
        }
        None => out.push(0),
    }
}

fn play_packet(end: &mut End, bytes: &[u8], out: &mut Vec<u8>) -> Option<()> {
    out.push(match decode(bytes) {
        Ok((header, body)) => end.receive(&header, body)? as u8,
        Err(SpxFault::Short(_)) => 16,
        Err(SpxFault::OverSize(_)) => 17,
    });
    Some(())
}

fn write_numbers(link: &Link, out: &mut Vec<u8>) {
    let numbers = link.numbers();
    out.push(link.state() as u8);
    for number in [
        numbers.next,
        numbers.out,
        numbers.room,
        numbers.expected,
        numbers.held,
        numbers.buffers,
    ] {
        out.extend(number.to_be_bytes());
    }
}

/// Makes the call of an event, and writes what it answered and the numbers of the link.
pub fn play(pair: &mut Pair, record: &[u8], out: &mut Vec<u8>) -> Option<()> {
    let (lead, rest) = record.split_first_chunk::<LEAD>()?;
    let [call, which, moment @ .., a, b, c, d, stream, mark] = *lead;
    let now = u64::from_be_bytes(moment);
    let bytes = &rest[..usize::from(u16::from_be_bytes([a, b])).min(rest.len())];
    let size = usize::from(u16::from_be_bytes([c, d]).max(1));
    let end = match which {
        0 => &mut pair.near,
        _ => &mut pair.far,
    };
    match call {
        b'P' => play_poll(end, now, out),
        b'D' => play_packet(end, bytes, out)?,
        b'O' => {
            let units = cut(bytes, size, stream.min(LAST_STREAM), mark != 0);
            write_offered(end.link()?.offer(units), out);
        }
        b'T' => {
            write_unit(end.link()?.peek(), out);
            write_unit(end.link()?.take().as_ref(), out);
        }
        b'E' => write_offered(end.link()?.end(), out),
        b'R' => end.link()?.owe_reply(),
        _ => end.link()?.lose(),
    }
    write_numbers(end.link()?, out);
    Some(())
}

/// What a new pair with so many buffers answers to a script of events of one size.
pub fn played(script: &[u8], size: usize, buffers: u16) -> Option<Vec<u8>> {
    let mut pair = Pair::new(buffers)?;
    let mut out = Vec::new();
    for record in script.chunks_exact(size) {
        play(&mut pair, record, &mut out)?;
    }
    Some(out)
}
