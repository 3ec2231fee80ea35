//! What a host makes of a datagram.

use super::{Arrived, Endpoint, SPX};
use crate::plain::link::{END_STREAM, Link, NO_ID, Received};
use crate::plain::spx::{self, SpxHeader};
use crate::plain::wire::{self, Address, Header, Network, Socket};

impl Endpoint {
    pub fn receive(&mut self, bytes: &[u8], now: u64) -> Arrived {
        self.heard = None;
        let packet = match wire::decode(bytes) {
            Ok(packet) => packet,
            Err(fault) => return Arrived::Bad(fault),
        };
        if !self.is_for(&packet.header) {
            return Arrived::NotOurs;
        }
        let (header, body) = match spx::decode(packet.body) {
            Ok(read) => read,
            Err(fault) => return Arrived::BadSpx(fault),
        };
        let (socket, from) = (packet.header.to.socket, packet.header.from);
        if is_request(&header) {
            self.ask(socket, from, &header, now)
        } else {
            self.hear(socket, from, &header, body)
        }
    }

    fn is_for(&self, header: &Header) -> bool {
        let to = header.to;
        header.kind == SPX
            && to.node == self.node
            && (to.network == self.network || to.network == Network(0))
    }

    /// A request: one that came again is answered by the reply again.
    fn ask(&mut self, socket: Socket, from: Address, request: &SpxHeader, now: u64) -> Arrived {
        let mut links = self.ends.iter_mut().map(|end| &mut end.link);
        if let Some(link) = links.find(|link| link.is_accepted_from(from, request.from_id)) {
            link.owe_reply();
            return Arrived::Link(link.own(), Received::Repeat);
        }
        let Some(&buffers) = self.listening.get(&socket) else {
            return Arrived::NoListener;
        };
        let Some(id) = self.next_id() else {
            return Arrived::NoRoom;
        };
        self.add(Link::accept(id, socket, from, request, buffers, now));
        Arrived::Accepted(id)
    }

    /// A packet for a link that is there.
    fn hear(&mut self, socket: Socket, from: Address, header: &SpxHeader, body: &[u8]) -> Arrived {
        let Ok(end) = self.end_mut(header.to_id) else {
            return Arrived::Stranger;
        };
        let link = &mut end.link;
        if link.local() != socket || link.remote() != from {
            return Arrived::Stranger;
        }
        match link.receive(header, body) {
            Received::Stranger => Arrived::Stranger,
            received => {
                self.heard = Some(header.to_id);
                Arrived::Link(header.to_id, received)
            }
        }
    }
}

fn is_request(header: &SpxHeader) -> bool {
    header.system
        && header.to_id == NO_ID
        && header.stream < END_STREAM
        && (1..NO_ID).contains(&header.from_id)
}
