//! The endpoint of a host: whole messages in and out, over connections by their ids.

mod receiving;

use super::link::{END_STREAM, Link, OfferFault, Outgoing, Received, Sent, Unit};
use super::spx::{self, Fragment, MOST_DATA, SpxFault};
use super::wire::{self, Address, Header, IpxFault, Network, Node, Socket};
use std::collections::HashMap;

pub const MOST_BYTES: usize = 65_535;
pub const ROOM: usize = wire::HEADER + spx::ROOM;

const MOST_ENDS: usize = 16;
const IDS: u16 = 0xfffe;
const SPX: u8 = 5;

#[derive(Clone, Debug, PartialEq, Eq)]
pub struct Message {
    pub stream: u8,
    pub body: Vec<u8>,
}

#[derive(Debug, PartialEq, Eq)]
pub enum Taken {
    Nothing,
    Part,
    Whole(Message),
    PeerEnd,
}

#[derive(Clone, Copy, Debug, PartialEq, Eq)]
pub enum Arrived {
    Bad(IpxFault),
    NotOurs,
    BadSpx(SpxFault),
    NoListener,
    NoRoom,
    Stranger,
    Accepted(u16),
    Link(u16, Received),
}

#[derive(Clone, Copy, Debug, PartialEq, Eq)]
pub enum EndFault {
    Offer(OfferFault),
    Overlong,
    TooLong(usize),
    BadStream(u8),
    TooMany,
    NoSuchEnd,
}

impl From<OfferFault> for EndFault {
    fn from(fault: OfferFault) -> Self {
        EndFault::Offer(fault)
    }
}

/// A connection, and the message of which units were taken but not the last one.
#[derive(Debug)]
struct End {
    link: Link,
    part: Option<Message>,
}

/// The connections of a host, in the order of their ids.
#[derive(Debug)]
pub struct Endpoint {
    network: Network,
    node: Node,
    router: Node,
    listening: HashMap<Socket, u16>,
    ends: Vec<End>,
    last: u16,
    sent: Option<(u16, Sent)>,
    heard: Option<u16>,
}

impl Endpoint {
    pub fn new(network: Network, node: Node, router: Node) -> Self {
        Endpoint {
            network,
            node,
            router,
            listening: HashMap::new(),
            ends: Vec::new(),
            last: 0,
            sent: None,
            heard: None,
        }
    }

    /// Accepts connections at a socket from now on, each with so many buffers.
    pub fn listen(&mut self, socket: Socket, buffers: u16) {
        self.listening.insert(socket, buffers);
    }

    pub fn dial(
        &mut self,
        socket: Socket,
        to: Address,
        buffers: u16,
        now: u64,
    ) -> Result<u16, EndFault> {
        let id = self.next_id().ok_or(EndFault::TooMany)?;
        self.add(Link::dial(id, socket, to, buffers, now));
        Ok(id)
    }

    /// Cuts a message into units and queues them.
    pub fn send(&mut self, id: u16, message: &Message) -> Result<(), EndFault> {
        let end = self.end_mut(id)?;
        end.link.offer(cut(message)?)?;
        Ok(())
    }

    /// Takes the first unit that is held, and gives the message that it ends.
    pub fn take(&mut self, id: u16) -> Result<Taken, EndFault> {
        let end = self.end_mut(id)?;
        let Some(unit) = end.link.take() else {
            return Ok(Taken::Nothing);
        };
        if unit.stream == END_STREAM {
            return Ok(Taken::PeerEnd);
        }
        end.join(&unit)
    }

    /// Writes one packet, and tells the node that it goes to next and how many bytes it takes. The
    /// links are asked in the order of their ids.
    pub fn poll(&mut self, now: u64, room: &mut [u8]) -> Option<(Node, usize)> {
        self.sent = None;
        for end in &mut self.ends {
            let link = &mut end.link;
            let (id, socket, to) = (link.own(), link.local(), link.remote());
            if let Some(packet) = link.poll(now) {
                self.sent = Some((id, packet.what));
                let from = Address {
                    network: self.network,
                    node: self.node,
                    socket,
                };
                let count = write(from, to, &packet, room);
                return Some((self.next_node(to), count));
            }
        }
        None
    }

    /// The link and the kind of the packet that the last poll wrote.
    pub fn sent(&self) -> Option<(u16, Sent)> {
        self.sent
    }

    /// The link that read the last datagram.
    pub fn heard(&self) -> Option<u16> {
        self.heard
    }

    fn next_node(&self, to: Address) -> Node {
        if to.network == self.network || to.network == Network(0) {
            to.node
        } else {
            self.router
        }
    }

    fn place_of(&self, id: u16) -> Result<usize, usize> {
        self.ends.binary_search_by_key(&id, |end| end.link.own())
    }

    fn end_mut(&mut self, id: u16) -> Result<&mut End, EndFault> {
        match self.place_of(id) {
            Ok(place) => Ok(&mut self.ends[place]),
            Err(_) => Err(EndFault::NoSuchEnd),
        }
    }

    fn add(&mut self, link: Link) {
        self.last = link.own();
        if let Err(place) = self.place_of(link.own()) {
            self.ends.insert(place, End { link, part: None });
        }
    }

    /// The first id after the one last given that is free, unless 16 links are held.
    fn next_id(&self) -> Option<u16> {
        if self.ends.len() >= MOST_ENDS {
            return None;
        }
        let ids = (0..IDS).map(|step| (u32::from(self.last) + u32::from(step)) % u32::from(IDS));
        let mut ids = ids.map(|id| id as u16 + 1);
        ids.find(|id| self.place_of(*id).is_err())
    }
}

impl End {
    /// Adds a unit to the message that it is of.
    fn join(&mut self, unit: &Unit) -> Result<Taken, EndFault> {
        let bytes = unit.body.as_slice();
        let part = self.part.get_or_insert_with(|| Message {
            stream: unit.stream,
            body: Vec::new(),
        });
        if part.body.len() + bytes.len() > MOST_BYTES {
            self.part = None;
            self.link.lose();
            return Err(EndFault::Overlong);
        }
        part.body.extend_from_slice(bytes);
        let whole = if unit.last { self.part.take() } else { None };
        Ok(whole.map_or(Taken::Part, Taken::Whole))
    }
}

/// The units that carry a message.
fn cut(message: &Message) -> Result<Vec<Unit>, EndFault> {
    let Message { stream, body } = message;
    if body.len() > MOST_BYTES {
        return Err(EndFault::TooLong(body.len()));
    }
    if *stream >= END_STREAM {
        return Err(EndFault::BadStream(*stream));
    }
    let count = body.len().div_ceil(MOST_DATA).max(1);
    let unit = |k: usize| Unit {
        stream: *stream,
        last: k + 1 == count,
        body: Fragment::new(&body[k * MOST_DATA..body.len().min((k + 1) * MOST_DATA)]),
    };
    Ok((0..count).map(unit).collect())
}

/// Writes a packet between two addresses.
fn write(from: Address, to: Address, packet: &Outgoing<'_>, room: &mut [u8]) -> usize {
    let (head, rest) = room.split_at_mut(wire::HEADER);
    let count = spx::encode_into(&packet.header, packet.body, rest);
    let header = Header {
        hops: 0,
        kind: SPX,
        to,
        from,
    };
    wire::put_header(&header, count, head);
    wire::HEADER + count
}
