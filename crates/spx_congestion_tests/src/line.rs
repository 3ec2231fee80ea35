//! A simulated line between a paced sender and a listener, with a clock of its own.

use spx_congestion::{Pacer, SentKind};
use spx_link::Numbers;
use std::alloc::Global;
use std::collections::VecDeque;
use std::test::Fail;

/// How many buffers the listener has.
const BUFFERS: u64 = 8192;

/// The bytes of a unit and of an acknowledgement on the line, with the headers of IP and UDP.
const UNIT: u64 = 604;

const ACKNOWLEDGEMENT: u64 = 70;

/// The seeds of the two directions.
const SEEDS: [u64; 2] = [1, 2];

/// A millisecond in nanoseconds, in which the clock counts.
const MS: u64 = 1_000_000;

/// The properties of a line, the same in both directions.
#[derive(Clone, Copy)]
pub struct Terms {
    /// Kilobits a second.
    pub rate: u64,
    /// The round trip, in milliseconds.
    pub trip: u64,
    /// How many packets fit in the queue for the rate. One more is dropped.
    pub queue: usize,
    /// The last of every so many packets is lost. None is if 0.
    pub every: u64,
    /// How many of a thousand packets are lost at random, drawn from a seed.
    pub drawn: u64,
}

/// One direction of a line.
#[derive(Drop)]
struct Way {
    terms: Terms,
    count: u64,
    draws: u64,
    /// When the last packet has left the queue.
    free: u64,
    /// When the waiting packets leave the queue.
    waiting: VecDeque<u64>,
    /// The packets on their way, and when they arrive.
    coming: VecDeque<(u64, u64)>,
}

impl Way {
    fn new(alloc: Global, terms: Terms, seed: u64) -> Way {
        Way {
            terms,
            count: 0,
            draws: seed,
            free: 0,
            waiting: VecDeque::new(alloc),
            coming: VecDeque::new(alloc),
        }
    }

    /// Whether the next packet is lost (drawn by Marsaglia's xorshift).
    fn loses(&mut self) -> bool {
        self.count += 1;
        self.draws ^= self.draws << 13;
        self.draws ^= self.draws >> 7;
        self.draws ^= self.draws << 17;
        let every = self.terms.every;
        (every > 0 && self.count % every == 0) || self.draws % 1000 < self.terms.drawn
    }

    /// A packet of so many bytes enters the line.
    fn put(&mut self, now: u64, bytes: u64, what: u64) -> Result<(), Fail> {
        if self.loses() {
            return Ok(());
        }
        while self.waiting.front().is_some_and(|leaves| *leaves <= now) {
            self.waiting.pop_front();
        }
        if self.waiting.len() >= self.terms.queue {
            return Ok(());
        }
        self.free = self.free.max(now) + bytes * 8 * MS / self.terms.rate;
        self.waiting.push_back(self.free)?;
        self.coming
            .push_back((self.free + self.terms.trip * MS / 2, what))?;
        Ok(())
    }

    /// When the next packet leaves the line.
    fn next(&self) -> u64 {
        self.coming.front().map_or(u64::MAX, |it| it.0)
    }

    /// The packet that leaves the line at this time.
    fn take(&mut self, now: u64) -> Option<u64> {
        if self.next() != now {
            return None;
        }
        self.coming.pop_front().map(|it| it.1)
    }
}

/// A sender with an endless supply of units, a line, and a listener that takes each unit at once
/// and acknowledges each packet.
#[derive(Drop)]
pub struct Course {
    pacer: Pacer,
    there: Way,
    back: Way,
    /// The first outstanding unit, and the next new one.
    base: u64,
    next: u64,
    /// The unit that the listener waits for, and which of the following ones it has.
    expected: u64,
    came: Vec<bool>,
    /// How many units were sent, with retransmissions.
    sent: u64,
    now: u64,
    /// Whether the connection was given up.
    pub lost: bool,
}

impl Course {
    /// A connection that was requested at 0.
    pub fn new(alloc: Global, terms: Terms) -> Result<Course, Fail> {
        let mut course = Course {
            pacer: Pacer::new(alloc)?,
            there: Way::new(alloc, terms, SEEDS[0]),
            back: Way::new(alloc, terms, SEEDS[1]),
            base: 0,
            next: 0,
            expected: 0,
            came: vec![in alloc; false; 8192]?,
            sent: 0,
            now: terms.trip * MS,
            lost: false,
        };
        course.pacer.plan(course.numbers(), 0);
        course.pacer.gave(SentKind::Request, course.numbers(), 0);
        course
            .pacer
            .heard(course.numbers(), course.numbers(), true, terms.trip);
        Ok(course)
    }

    /// The numbers of the sender's link.
    fn numbers(&self) -> Numbers {
        let out = self.next - self.base;
        Numbers {
            next: (self.next % 65536) as u16,
            out: out as u16,
            room: (BUFFERS - out) as u16,
            expected: 0,
            held: 0,
            buffers: 64,
        }
    }

    /// Runs until a time, in milliseconds.
    pub fn run_till(&mut self, till: u64) -> Result<(), Fail> {
        while self.now < till * MS && !self.lost {
            self.poll()?;
            let due = self
                .pacer
                .next_due(self.now / MS)
                .map_or(u64::MAX, |due| due * MS);
            let next = due
                .max(self.now + 1)
                .min(self.there.next())
                .min(self.back.next());
            self.now = self.now.max(next);
            self.arrive()?;
            self.hear();
        }
        Ok(())
    }

    /// The sender's turn: polls until nothing is given.
    fn poll(&mut self) -> Result<(), Fail> {
        while self.poll_once()? {}
        Ok(())
    }

    /// One poll, which answers as a manual link does. Returns whether it gave anything.
    fn poll_once(&mut self) -> Result<bool, Fail> {
        let numbers = self.numbers();
        let plan = self.pacer.plan(numbers, self.now / MS);
        if self.pacer.has_given_up() {
            self.lost = true;
            return Ok(false);
        }
        if numbers.out < plan.window && numbers.room > 0 {
            self.there.put(self.now, UNIT, self.next)?;
            self.next += 1;
            self.sent += 1;
            self.pacer
                .gave(SentKind::Unit, self.numbers(), self.now / MS);
            return Ok(true);
        }
        let Some(place) = plan.again else {
            return Ok(false);
        };
        let position = self.base + u64::from(place);
        self.there.put(self.now, UNIT, position)?;
        self.sent += 1;
        self.pacer.gave(SentKind::Again, numbers, self.now / MS);
        Ok(true)
    }

    /// A unit arrives at the listener, which acknowledges it.
    fn arrive(&mut self) -> Result<(), Fail> {
        let Some(position) = self.there.take(self.now) else {
            return Ok(());
        };
        if position >= self.expected {
            self.came[(position % 8192) as usize] = true;
        }
        while self.came[(self.expected % 8192) as usize] {
            self.came[(self.expected % 8192) as usize] = false;
            self.expected += 1;
        }
        self.back.put(self.now, ACKNOWLEDGEMENT, self.expected)
    }

    /// An acknowledgement arrives at the sender.
    fn hear(&mut self) {
        let Some(expected) = self.back.take(self.now) else {
            return;
        };
        let before = self.numbers();
        self.base = self.base.max(expected);
        self.pacer
            .heard(before, self.numbers(), false, self.now / MS);
    }

    /// How many bytes a second the listener got, of 534 a unit.
    pub fn speed(&self) -> u64 {
        self.expected * 534 * 1000 / (self.now / MS)
    }

    /// How many units were sent for each hundred that were needed.
    pub fn sent_for_a_hundred(&self) -> u64 {
        self.sent * 100 / self.expected.max(1)
    }
}
