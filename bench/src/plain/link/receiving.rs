//! What a link makes of a packet.

use super::{CONFIRM_STREAM, END_STREAM, Link, MOST_ROOM, NO_ID, Received, State, Unit};
use crate::plain::spx::{Fragment, SpxHeader};

impl Link {
    /// Reads a packet from the peer, with at most 534 bytes of data.
    pub fn receive(&mut self, header: &SpxHeader, body: &[u8]) -> Received {
        match self.state {
            State::Lost => return Received::Stranger,
            State::Opening => return self.join(header),
            _ => {}
        }
        if header.to_id != self.own || header.from_id != self.peer {
            return Received::Stranger;
        }
        self.read_numbers(header);
        let is_end = header.stream == END_STREAM;
        if header.system && !is_end || header.stream == CONFIRM_STREAM {
            return self.read_system(header);
        }
        let beyond = header.seq.wrapping_sub(self.expected);
        if beyond >= 0x8000 {
            if is_end && self.peer_ended {
                self.owes_confirm = true;
            } else {
                self.owes_ack = true;
            }
            return Received::Repeat;
        }
        if self.peer_ended {
            return Received::Ahead;
        }
        if beyond >= self.free() {
            self.owes_ack = true;
            return Received::OverAllocation;
        }
        self.keep(beyond, header, body)
    }

    fn join(&mut self, header: &SpxHeader) -> Received {
        let is_reply = header.system
            && header.stream == 0
            && !header.wants_ack
            && header.to_id == self.own
            && (1..NO_ID).contains(&header.from_id);
        if !is_reply {
            return Received::Stranger;
        }
        self.state = State::Live;
        self.peer = header.from_id;
        self.read_numbers(header);
        Received::Joined
    }

    fn read_numbers(&mut self, header: &SpxHeader) {
        let acknowledged = header.ack.wrapping_sub(self.base());
        if acknowledged <= self.out {
            self.queue.drain(..usize::from(acknowledged));
            self.out -= acknowledged;
        }
        self.read_limit(header.limit);
        self.probes = 0;
    }

    pub(super) fn read_limit(&mut self, limit: u16) {
        let room = limit.wrapping_add(1).wrapping_sub(self.next);
        if self.room < room && room <= MOST_ROOM {
            self.room = room;
        }
    }

    fn read_system(&mut self, header: &SpxHeader) -> Received {
        self.owes_ack |= header.wants_ack;
        let confirms = header.stream == CONFIRM_STREAM
            && self.end_queued
            && self.queue.is_empty()
            && self.state != State::Confirmed;
        if !confirms {
            return Received::System;
        }
        self.state = State::Confirmed;
        Received::Confirmed
    }

    /// Keeps a unit at its place, unless it was kept before.
    fn keep(&mut self, beyond: u16, header: &SpxHeader, body: &[u8]) -> Received {
        let place = usize::from(self.held + beyond);
        if self.ring.len() <= place {
            self.ring.resize_with(place + 1, || None);
        }
        if self.ring[place].is_some() {
            self.owes_ack = true;
            return Received::Repeat;
        }
        let is_end = header.stream == END_STREAM;
        self.ring[place] = Some(Unit {
            stream: header.stream,
            last: header.last,
            body: Fragment::new(if is_end { &[] } else { body }),
        });
        self.settle()
    }

    /// Holds the units that are in order now. After an end nothing is kept.
    fn settle(&mut self) -> Received {
        while let Some(Some(unit)) = self.ring.get(usize::from(self.held)) {
            let is_end = unit.stream == END_STREAM;
            self.held += 1;
            self.expected = self.expected.wrapping_add(1);
            if is_end {
                self.ring.truncate(self.held.into());
                return self.ended();
            }
        }
        self.owes_ack = true;
        Received::Kept
    }

    fn ended(&mut self) -> Received {
        self.peer_ended = true;
        self.owes_confirm = true;
        if self.state != State::Confirmed {
            self.state = State::PeerEnded;
        }
        Received::PeerEnded
    }
}
