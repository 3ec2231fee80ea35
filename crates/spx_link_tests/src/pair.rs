//! Two ends of a connection, and rounds. In a round, each end reads everything that the other gives
//! at that time, and its user takes all that it holds.

use crate::end::{HERE, one_unit, there};
use ipx_wire::SpxHeader;
use spx_link::{Link, Received, Sent, State};
use std::alloc::Global;
use std::process::Abort;
use std::test::Fail;

/// How often a link sends a unit or a probe before it gives up.
const MAX_SENDS: u8 = 10;

/// A packet on its way. The body of a unit is one byte.
#[derive(Clone, Copy)]
pub struct Parcel {
    header: SpxHeader,
    body: [u8; 1],
    size: usize,
}

/// One end with its counts: the units offered, its end among them, and the units taken; how often
/// each unit was sent; and the probes sent since a packet was read.
#[derive(Drop)]
pub struct Side {
    link: Link,
    buffers: u16,
    offered: u16,
    taken: u16,
    sends: Vec<u8>,
    probes: u8,
    ended: bool,
}

impl Side {
    fn new(alloc: Global, link: Link) -> Side {
        let buffers = link.numbers().buffers;
        Side {
            link,
            buffers,
            offered: 0,
            taken: 0,
            sends: Vec::new(alloc),
            probes: 0,
            ended: false,
        }
    }

    /// The packet that it gives.
    pub fn poll(&mut self, now: u64) -> Option<Parcel> {
        let packet = self.link.poll(now)?;
        let mut parcel = Parcel {
            header: packet.header,
            body: [0],
            size: packet.body.len(),
        };
        if let [byte] = packet.body {
            parcel.body = [*byte];
        }
        match packet.what {
            Sent::Unit | Sent::Again => self.sends[usize::from(parcel.header.seq)] += 1,
            Sent::Probe => self.probes += 1,
            _ => {}
        }
        Some(parcel)
    }

    pub fn receive(&mut self, parcel: &Parcel) {
        let body = &parcel.body[..parcel.size];
        if self.link.receive(&parcel.header, body, 0) != Received::Stranger {
            self.probes = 0;
        }
    }

    /// Queues a unit, if it is live.
    pub fn offer(&mut self, alloc: Global) -> Result<(), Fail> {
        if self.link.state() != State::Live {
            return Ok(());
        }
        let byte = self.offered.to_le_bytes()[0];
        self.link.offer(alloc, one_unit(alloc, byte)?)?;
        self.sends.push(0)?;
        self.offered += 1;
        Ok(())
    }

    /// Queues its end, if it is live.
    pub fn end(&mut self, alloc: Global) -> Result<(), Fail> {
        if self.link.state() != State::Live {
            return Ok(());
        }
        self.link.end(alloc)?;
        self.sends.push(0)?;
        self.offered += 1;
        self.ended = true;
        Ok(())
    }

    /// Takes a unit, which must be the next one of its peer.
    pub fn take(&mut self, rt: &impl Abort) -> bool {
        let Some(unit) = self.link.take() else {
            return false;
        };
        if unit.stream == 0 {
            assert_eq!(rt;
                unit.body.as_slice().first(),
                self.taken.to_le_bytes().first()
            );
        }
        self.taken += 1;
        true
    }

    pub fn state(&self) -> State {
        self.link.state()
    }

    /// How many units it took.
    pub fn taken(&self) -> u16 {
        self.taken
    }

    /// How many units it has queued and not sent.
    pub fn waiting(&self) -> u16 {
        self.offered - self.link.numbers().next
    }

    /// Whether an outstanding unit, or probes, were sent ten times.
    fn has_given_up(&self) -> bool {
        let numbers = self.link.numbers();
        let mut outstanding = numbers.next - numbers.out..numbers.next;
        self.probes >= MAX_SENDS
            || outstanding.any(|number| self.sends[usize::from(number)] >= MAX_SENDS)
    }
}

/// Two ends that are joined, with these buffers.
pub fn pair(rt: &impl Abort, alloc: Global, one: u16, two: u16) -> Result<(Side, Side), Fail> {
    let mut a = Side::new(alloc, Link::dial(alloc, 1, HERE, there(), one, 0)?);
    let request = a.poll(0).map(|parcel| parcel.header);
    assert!(rt; request.is_some());
    let header = request.unwrap_or(crate::end::REQUEST);
    let link = Link::accept(alloc, 2, HERE, there(), &header, two, 0)?;
    let mut b = Side::new(alloc, link);
    convey(&mut b, &mut a, 0);
    assert_eq!(rt; (a.state(), b.state()), (State::Live, State::Live));
    Ok((a, b))
}

/// Everything that one end gives at this time is read by the other.
pub fn convey(from: &mut Side, to: &mut Side, now: u64) {
    while let Some(parcel) = from.poll(now) {
        to.receive(&parcel);
    }
}

/// Takes all that an end holds.
pub fn take_all(rt: &impl Abort, side: &mut Side) {
    while side.take(rt) {}
}

/// A round at this time.
pub fn round(rt: &impl Abort, a: &mut Side, b: &mut Side, now: u64) {
    convey(a, b, now);
    take_all(rt, b);
    convey(b, a, now);
    take_all(rt, a);
}

/// How many rounds are enough for what the first has to send.
pub fn rounds_for(a: &Side, b: &Side) -> u16 {
    3 + a.waiting().div_ceil(b.buffers)
}

/// The first still sends, the second is live, and neither has given up.
pub fn can_go_on(a: &Side, b: &Side) -> bool {
    matches!(a.state(), State::Live | State::Ending)
        && b.state() == State::Live
        && !a.has_given_up()
        && !b.has_given_up()
}

/// All units of the first are acknowledged and taken. Its end is confirmed, if it was queued.
pub fn is_delivered(a: &Side, b: &Side) -> bool {
    let states = if a.ended {
        (State::Confirmed, State::PeerEnded)
    } else {
        (State::Live, State::Live)
    };
    a.waiting() == 0
        && a.link.numbers().out == 0
        && b.taken == a.offered
        && (a.state(), b.state()) == states
}
