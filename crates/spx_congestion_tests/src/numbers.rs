//! The numbers of a link, and a pacer that is told of them.

use spx_congestion::{Pacer, Plan, SentKind};
use spx_link::Numbers;
use std::alloc::Global;
use std::test::Fail;

/// The numbers of a link whose first `base` units are acknowledged, and whose peer has 8,192
/// buffers.
pub fn numbers(base: u16, out: u16) -> Numbers {
    Numbers {
        next: base.wrapping_add(out),
        out,
        room: 8192 - out,
        expected: 0,
        held: 0,
        buffers: 64,
    }
}

/// A pacer, and the link state that it is told of.
#[derive(Drop)]
pub struct Paced {
    pub pacer: Pacer,
    base: u16,
    out: u16,
    ended: bool,
}

impl Paced {
    /// A link that dialed at 0, and was answered after so many milliseconds.
    pub fn joined(alloc: Global, trip: u64) -> Result<Paced, Fail> {
        let mut pacer = Pacer::new(alloc)?;
        pacer.plan(numbers(0, 0), 0);
        pacer.gave(SentKind::Request, numbers(0, 0), 0);
        pacer.heard(numbers(0, 0), numbers(0, 0), true, trip);
        Ok(Paced {
            pacer,
            base: 0,
            out: 0,
            ended: false,
        })
    }

    pub fn plan(&mut self, now: u64) -> Plan {
        self.pacer.plan(numbers(self.base, self.out), now)
    }

    /// The link gives so many units, or none after the end.
    pub fn send(&mut self, count: u16, now: u64) {
        let given = if self.ended { 0 } else { count };
        for _ in 0..given {
            self.out += 1;
            self.pacer
                .gave(SentKind::Unit, numbers(self.base, self.out), now);
        }
    }

    /// The link gives as many units as the plan allows.
    pub fn fill(&mut self, now: u64) {
        let more = self.plan(now).window.saturating_sub(self.out);
        self.send(more, now);
    }

    /// How many units are outstanding.
    pub fn out(&self) -> u16 {
        self.out
    }

    /// The link gives the end.
    pub fn send_end(&mut self, now: u64) {
        self.ended = true;
        self.out += 1;
        self.pacer
            .gave(SentKind::End, numbers(self.base, self.out), now);
    }

    /// The link sends a unit again.
    pub fn send_again(&mut self, now: u64) {
        self.pacer
            .gave(SentKind::Again, numbers(self.base, self.out), now);
    }

    /// So many units are acknowledged.
    pub fn acknowledge(&mut self, count: u16, now: u64) {
        let before = numbers(self.base, self.out);
        self.base += count;
        self.out -= count;
        self.pacer
            .heard(before, numbers(self.base, self.out), false, now);
    }

    /// So many duplicates of the last acknowledgement are received.
    pub fn double(&mut self, count: u16, now: u64) {
        for _ in 0..count {
            let same = numbers(self.base, self.out);
            self.pacer.heard(same, same, false, now);
        }
    }
}

/// A plan that allows so many outstanding units.
pub fn window(window: u16) -> Plan {
    Plan {
        window,
        again: None,
    }
}

/// A plan that asks for the unit at a place.
pub fn again(place: u16) -> Plan {
    Plan {
        window: 0,
        again: Some(place),
    }
}
