//! What a link sends.

use super::{CONFIRM_STREAM, END_STREAM, Link, MOST_SENDS, MOST_UNITS, Outgoing, Sent, State, due};
use crate::plain::spx::SpxHeader;
use std::mem;

impl Link {
    /// The packet to send at a moment, if there is one.
    pub fn poll(&mut self, now: u64) -> Option<Outgoing<'_>> {
        match self.state {
            State::Opening => return self.ask(now),
            State::Lost => return None,
            _ => {}
        }
        if mem::take(&mut self.owes_reply) {
            self.owes_ack = false;
            return Some(self.system(Sent::Reply, 0, now));
        }
        if mem::take(&mut self.owes_confirm) {
            self.owes_ack = false;
            return Some(self.system(Sent::Confirm, CONFIRM_STREAM, now));
        }
        if self.is_working() {
            if self.is_waiting() && self.room > 0 && self.out < MOST_UNITS {
                return Some(self.send_next(now));
            }
            let mut sent = self.queue.iter().take(usize::from(self.out));
            if let Some(place) = sent.position(|queued| due(queued.at, now)) {
                return self.send_again(place, now);
            }
        }
        if mem::take(&mut self.owes_ack) {
            return Some(self.system(Sent::Ack, 0, now));
        }
        self.probe(now)
    }

    fn ask(&mut self, now: u64) -> Option<Outgoing<'_>> {
        if self.asked_count != 0 && !due(self.asked_at, now) {
            return None;
        }
        if self.asked_count >= MOST_SENDS {
            self.state = State::Lost;
            return None;
        }
        self.asked_at = now;
        self.asked_count += 1;
        Some(self.system(Sent::Request, 0, now))
    }

    fn probe(&mut self, now: u64) -> Option<Outgoing<'_>> {
        let stuck = self.is_working() && self.is_waiting() && self.room == 0 && self.out == 0;
        if !stuck || !due(self.spoke, now) {
            return None;
        }
        if self.probes >= MOST_SENDS {
            self.state = State::Lost;
            return None;
        }
        self.probes += 1;
        Some(self.system(Sent::Probe, 0, now))
    }

    fn send_next(&mut self, now: u64) -> Outgoing<'_> {
        let (place, seq) = (usize::from(self.out), self.next);
        self.out += 1;
        self.next = self.next.wrapping_add(1);
        self.room -= 1;
        self.unit(Sent::Unit, place, seq, now)
    }

    fn send_again(&mut self, place: usize, now: u64) -> Option<Outgoing<'_>> {
        if self.queue[place].count >= MOST_SENDS {
            self.state = State::Lost;
            return None;
        }
        let seq = self.base().wrapping_add(place as u16);
        Some(self.unit(Sent::Again, place, seq, now))
    }

    fn header(&self) -> SpxHeader {
        SpxHeader {
            system: true,
            wants_ack: false,
            last: false,
            stream: 0,
            from_id: self.own,
            to_id: self.peer,
            seq: self.next,
            ack: self.expected,
            limit: self.expected.wrapping_add(self.free()).wrapping_sub(1),
        }
    }

    /// A packet without a unit. While the link opens, its peer is FFFF.
    fn system(&mut self, what: Sent, stream: u8, now: u64) -> Outgoing<'_> {
        self.spoke = now;
        let header = SpxHeader {
            wants_ack: matches!(what, Sent::Request | Sent::Probe),
            stream,
            ..self.header()
        };
        Outgoing {
            what,
            header,
            body: &[],
        }
    }

    fn unit(&mut self, what: Sent, place: usize, seq: u16, now: u64) -> Outgoing<'_> {
        self.owes_ack = false;
        self.spoke = now;
        let plain = self.header();
        let queued = &mut self.queue[place];
        queued.at = now;
        queued.count += 1;
        let unit = &queued.unit;
        let header = SpxHeader {
            system: false,
            wants_ack: true,
            last: unit.last && unit.stream != END_STREAM,
            stream: unit.stream,
            seq,
            ..plain
        };
        Outgoing {
            what,
            header,
            body: unit.body.as_slice(),
        }
    }
}
