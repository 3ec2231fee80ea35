//! One end of an SPX connection.

mod receiving;
mod sending;

use super::spx::{Fragment, SpxHeader};
use super::wire::{Address, Socket};
use std::collections::VecDeque;

const MOST_UNITS: u16 = 8192;
const MOST_SENDS: u8 = 10;
const RESEND_AFTER: u64 = 500;
const MOST_ROOM: u16 = 16383;
pub(super) const END_STREAM: u8 = 0xfe;
const CONFIRM_STREAM: u8 = 0xff;
pub(super) const NO_ID: u16 = 0xffff;

#[derive(Clone, Debug)]
pub struct Unit {
    pub stream: u8,
    pub last: bool,
    pub body: Fragment,
}

#[derive(Clone, Copy, Debug, PartialEq, Eq)]
pub enum State {
    Opening,
    Live,
    Ending,
    PeerEnded,
    Confirmed,
    Lost,
}

#[derive(Clone, Copy, Debug, PartialEq, Eq)]
pub enum Received {
    Joined,
    Kept,
    Repeat,
    Ahead,
    OverAllocation,
    System,
    PeerEnded,
    Confirmed,
    Stranger,
}

#[derive(Clone, Copy, Debug, PartialEq, Eq)]
pub enum Sent {
    Request,
    Reply,
    Confirm,
    Unit,
    Again,
    Ack,
    Probe,
}

#[derive(Clone, Copy, Debug, PartialEq, Eq)]
pub enum OfferFault {
    NotLive,
    Ended,
}

#[derive(Clone, Copy, Debug, PartialEq, Eq)]
pub struct Numbers {
    pub next: u16,
    pub out: u16,
    pub room: u16,
    pub expected: u16,
    pub held: u16,
    pub buffers: u16,
}

/// A packet to send, whose body is lent from the link.
#[derive(Clone, Copy, Debug)]
pub struct Outgoing<'a> {
    pub what: Sent,
    pub header: SpxHeader,
    pub body: &'a [u8],
}

/// A unit to send. Where it was sent, `at` is the moment of the last time.
#[derive(Debug)]
struct Queued {
    unit: Unit,
    at: u64,
    count: u8,
}

impl Queued {
    fn unsent(unit: Unit) -> Self {
        Queued {
            unit,
            at: 0,
            count: 0,
        }
    }
}

fn due(at: u64, now: u64) -> bool {
    now.checked_sub(at).is_some_and(|age| age >= RESEND_AFTER)
}

/// One end of a connection. The first `out` units of the queue are sent and not acknowledged. The
/// first `held` places of the ring are the units in order, after them are those ahead.
#[derive(Debug)]
pub struct Link {
    state: State,
    own: u16,
    peer: u16,
    local: Socket,
    remote: Address,
    queue: VecDeque<Queued>,
    out: u16,
    next: u16,
    room: u16,
    expected: u16,
    ring: VecDeque<Option<Unit>>,
    held: u16,
    buffers: u16,
    asked_at: u64,
    asked_count: u8,
    spoke: u64,
    probes: u8,
    owes_reply: bool,
    owes_confirm: bool,
    owes_ack: bool,
    end_queued: bool,
    peer_ended: bool,
    accepted: bool,
}

impl Link {
    pub fn dial(own: u16, local: Socket, remote: Address, buffers: u16, now: u64) -> Self {
        Link {
            state: State::Opening,
            own,
            peer: NO_ID,
            local,
            remote,
            queue: VecDeque::new(),
            out: 0,
            next: 0,
            room: 0,
            expected: 0,
            ring: VecDeque::with_capacity(buffers.into()),
            held: 0,
            buffers,
            asked_at: 0,
            asked_count: 0,
            spoke: now,
            probes: 0,
            owes_reply: false,
            owes_confirm: false,
            owes_ack: false,
            end_queued: false,
            peer_ended: false,
            accepted: false,
        }
    }

    pub fn accept(
        own: u16,
        local: Socket,
        remote: Address,
        request: &SpxHeader,
        buffers: u16,
        now: u64,
    ) -> Self {
        let mut link = Link {
            state: State::Live,
            peer: request.from_id,
            owes_reply: true,
            accepted: true,
            ..Link::dial(own, local, remote, buffers, now)
        };
        link.read_limit(request.limit);
        link
    }

    pub fn own(&self) -> u16 {
        self.own
    }

    pub fn state(&self) -> State {
        self.state
    }

    pub fn local(&self) -> Socket {
        self.local
    }

    pub fn remote(&self) -> Address {
        self.remote
    }

    /// Whether it was made by a request from this address and id.
    pub fn is_accepted_from(&self, from: Address, id: u16) -> bool {
        self.accepted && self.remote == from && self.peer == id
    }

    pub fn numbers(&self) -> Numbers {
        Numbers {
            next: self.next,
            out: self.out,
            room: self.room,
            expected: self.expected,
            held: self.held,
            buffers: self.buffers,
        }
    }

    fn free(&self) -> u16 {
        self.buffers - self.held
    }

    fn is_working(&self) -> bool {
        matches!(self.state, State::Live | State::Ending)
    }

    fn is_waiting(&self) -> bool {
        usize::from(self.out) < self.queue.len()
    }

    fn base(&self) -> u16 {
        self.next.wrapping_sub(self.out)
    }

    fn check_live(&self) -> Result<(), OfferFault> {
        match self.state {
            State::Opening => Err(OfferFault::NotLive),
            State::Live => Ok(()),
            _ => Err(OfferFault::Ended),
        }
    }

    /// Queues the units, all or none.
    pub fn offer(&mut self, units: Vec<Unit>) -> Result<(), OfferFault> {
        self.check_live()?;
        self.queue.extend(units.into_iter().map(Queued::unsent));
        Ok(())
    }

    /// Queues the end of the connection.
    pub fn end(&mut self) -> Result<(), OfferFault> {
        self.check_live()?;
        self.queue.push_back(Queued::unsent(Unit {
            stream: END_STREAM,
            last: false,
            body: Fragment::new(&[]),
        }));
        self.end_queued = true;
        self.state = State::Ending;
        Ok(())
    }

    pub fn peek(&self) -> Option<&Unit> {
        match self.ring.front() {
            Some(Some(unit)) if self.held > 0 => Some(unit),
            _ => None,
        }
    }

    pub fn take(&mut self) -> Option<Unit> {
        self.held = self.held.checked_sub(1)?;
        self.owes_ack |= self.is_working();
        self.ring.pop_front()?
    }

    pub fn owe_reply(&mut self) {
        self.owes_reply = true;
    }

    pub fn lose(&mut self) {
        self.state = State::Lost;
    }
}
