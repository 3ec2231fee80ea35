//! One end of a connection, as the tests use it, and the packets between two ends.

ghost use Rattle.std.specs.Prelude.{◌<◌, ◌≤◌, All, IfOk, length};
ghost use Rattle.spx_link.specs.Limits.{end_stream};

use ipx_wire::{Address, Fragment, Network, Node, Socket, SpxHeader};
use spx_link::{Links, LinksFault, Numbers, OfferFault, Received, Sent, State, Unit};
use std::alloc::{AllocError, Global};
use std::process::Abort;
use std::test::Fail;

/// A request for a connection: id 1, 8 buffers.
pub const REQUEST: SpxHeader = SpxHeader {
    system: true,
    wants_ack: true,
    last: false,
    stream: 0,
    from_id: 1,
    to_id: 0xffff,
    seq: 0,
    ack: 0,
    limit: 7,
};

/// A system packet between ids 1 and 1.
pub fn system(ack: u16, limit: u16) -> SpxHeader {
    SpxHeader {
        system: true,
        wants_ack: false,
        last: false,
        stream: 0,
        from_id: 1,
        to_id: 1,
        seq: 0,
        ack,
        limit,
    }
}

/// The packet of a unit that ends a message.
pub fn unit(stream: u8, seq: u16) -> SpxHeader {
    SpxHeader {
        system: false,
        wants_ack: true,
        last: true,
        stream,
        from_id: 1,
        to_id: 1,
        seq,
        ack: 0,
        limit: 7,
    }
}

pub const HERE: Socket = Socket(0x4001);

pub fn there() -> Address {
    Address {
        network: Network(0x11),
        node: Node([0, 0, 0x7f, 0, 0, 4]),
        socket: Socket(0x4000),
    }
}

/// One unit of stream 00 and one byte.
pub fn one_unit(alloc: Global, byte: u8) -> Result<Vec<Unit>, AllocError>
    ensures { IfOk result (λ v. All (λ u. u.stream < end_stream) v.items) }
{
    let mut body = Fragment::new();
    body.push(byte);
    let mut units = Vec::new(alloc);
    units.push(Unit {
        stream: 0,
        last: true,
        body,
    })?;
    Ok(units)
}

/// A unit, tried again if memory is refused once.
pub fn unit_again(alloc: Global) -> Result<Vec<Unit>, AllocError>
    ensures { IfOk result (λ v. All (λ u. u.stream < end_stream) v.items) }
{
    match one_unit(alloc, 0) {
        Ok(units) => Ok(units),
        Err(_) => one_unit(alloc, 0),
    }
}

/// A host with one link, of id 1.
#[derive(Drop)]
pub struct End {
    links: Links,
    alloc: Global,
}

impl End {
    /// A link that requests a connection, tried again if memory was refused.
    pub fn dial(alloc: Global, buffers: u16) -> Result<End, LinksFault> {
        let mut links = Links::new(alloc);
        if links.dial(alloc, HERE, there(), buffers, 0).is_err() {
            links.dial(alloc, HERE, there(), buffers, 0)?;
        }
        Ok(End { links, alloc })
    }

    /// A link for a request.
    pub fn accept(alloc: Global, request: &SpxHeader, buffers: u16) -> Result<End, LinksFault> {
        let mut links = Links::new(alloc);
        links.accept(alloc, HERE, there(), request, buffers, 0)?;
        Ok(End { links, alloc })
    }

    /// The packet that a poll gives.
    pub fn poll(&mut self, now: u64) -> Option<(Sent, SpxHeader)> {
        self.links.get(1)?;
        let packet = self.links.poll(1, now)?;
        Some((packet.what, packet.header))
    }

    /// What kind of packet a poll gives.
    pub fn sent(&mut self, now: u64) -> Option<Sent> {
        Some(self.poll(now)?.0)
    }

    /// How it answers a packet. A link that is gone is not live.
    pub fn receive(
        &mut self,
        header: &SpxHeader,
        body: &[u8],
        now: u64,
    ) -> Result<Received, OfferFault>
        requires { length body.now ≤ 534 }
    {
        if self.links.get(1).is_none() {
            return Err(OfferFault::NotLive);
        }
        Ok(self.links.receive(1, header, body, now))
    }

    /// Queues units. A link that is gone is not live.
    pub fn offer(&mut self, units: Vec<Unit>) -> Result<(), OfferFault>
        requires { All (λ u. u.stream < end_stream) units.items }
    {
        if self.links.get(1).is_none() {
            return Err(OfferFault::NotLive);
        }
        self.links.offer(self.alloc, 1, units)
    }

    /// Queues the end. A link that is gone is not live.
    pub fn end(&mut self) -> Result<(), OfferFault> {
        if self.links.get(1).is_none() {
            return Err(OfferFault::NotLive);
        }
        self.links.end(self.alloc, 1)
    }

    /// Sets the window, and whether the link is manual.
    pub fn pace(&mut self, window: u16, manual: bool) {
        if self.links.get(1).is_some() {
            self.links.pace(1, window, manual);
        }
    }

    /// Asks for the unit at a place again.
    pub fn again(&mut self, place: u16) {
        if self.links.get(1).is_some() {
            self.links.again(1, place);
        }
    }

    /// When it is due.
    pub fn next_due(&self) -> Option<u64> {
        let link = self.links.get(1)?;
        link.next_due()
    }

    /// The stream of the unit that it gives next.
    pub fn peek(&self) -> Option<u8> {
        let link = self.links.get(1)?;
        let unit = link.peek()?;
        Some(unit.stream)
    }

    /// The length of the unit that it gives.
    pub fn take(&mut self) -> Option<usize> {
        self.links.get(1)?;
        let unit = self.links.take(1)?;
        Some(unit.body.len())
    }

    pub fn state(&self) -> Option<State> {
        let link = self.links.get(1)?;
        Some(link.state())
    }

    pub fn numbers(&self) -> Option<Numbers> {
        let link = self.links.get(1)?;
        Some(link.numbers())
    }
}

/// An end that dials, with 8 buffers, tried again if memory is refused once.
fn dial_again(alloc: Global) -> Result<End, LinksFault> {
    match End::dial(alloc, 8) {
        Ok(end) => Ok(end),
        Err(_) => End::dial(alloc, 8),
    }
}

/// An end that dialed, with 8 buffers, and got a reply with an allocation.
pub fn joined(rt: &impl Abort, alloc: Global, limit: u16) -> Result<End, Fail> {
    let mut end = dial_again(alloc)?;
    assert_eq!(rt; end.sent(0), Some(Sent::Request));
    assert_eq!(rt; end.receive(&system(0, limit), &[], 0)?, Received::Joined);
    Ok(end)
}
