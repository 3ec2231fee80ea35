//! Rounds without loss between a paced sender and its peer, as `theory_processes` has them: how many
//! they need, what is too soon, and courses that lose packets before, drawn from a seed.

use ipx_wire::{Address, Fragment, Network, Node, Socket, SpxHeader};
use spx_congestion::{Pacer, SentKind};
use spx_link::{Link, Received, State, Unit};
use std::alloc::Global;
use std::process::Abort;
use std::test::Fail;

/// No wait for an acknowledgement is longer, in milliseconds.
const MINUTE: u64 = 60_000;

/// How many courses are drawn, and how many steps each has, of up to 200 ms.
const COURSES: u64 = 60;

const STEPS: u64 = 24;

const STEP: u64 = 200;

const HERE: Socket = Socket(0x4001);

/// A request for a connection.
const REQUEST: SpxHeader = SpxHeader {
    system: true,
    wants_ack: true,
    last: false,
    stream: 0,
    from_id: 1,
    to_id: 0xffff,
    seq: 0,
    ack: 0,
    limit: 7,
};

/// A packet on its way. The body of a unit is one byte.
#[derive(Clone, Copy)]
struct Parcel {
    header: SpxHeader,
    body: [u8; 1],
    size: usize,
}

/// One end: how many units it queued, its end among them, and how many it took. The first has a
/// pacer.
#[derive(Drop)]
struct Side {
    link: Link,
    pacer: Option<Pacer>,
    offered: u16,
    taken: u16,
    ended: bool,
}

impl Side {
    fn new(link: Link, pacer: Option<Pacer>) -> Side {
        Side {
            link,
            pacer,
            offered: 0,
            taken: 0,
            ended: false,
        }
    }

    /// The pacer plans, and sets the link.
    fn plan(&mut self, now: u64) {
        let Some(pacer) = &mut self.pacer else {
            return;
        };
        let plan = pacer.plan(self.link.numbers(), now);
        self.link.pace(plan.window, true);
        if let Some(place) = plan.again {
            self.link.again(place);
        }
        if pacer.has_given_up() {
            self.link.lose();
        }
    }

    /// The packet that it gives, after a plan.
    fn poll(&mut self, now: u64) -> Option<Parcel> {
        self.plan(now);
        let packet = self.link.poll(now)?;
        let mut parcel = Parcel {
            header: packet.header,
            body: [0],
            size: packet.body.len(),
        };
        if let [byte] = packet.body {
            parcel.body = [*byte];
        }
        let gave = SentKind::of(packet.what, packet.header.stream);
        if let Some(pacer) = &mut self.pacer {
            pacer.gave(gave, self.link.numbers(), now);
        }
        Some(parcel)
    }

    fn receive(&mut self, parcel: &Parcel, now: u64) {
        let before = self.link.numbers();
        let body = &parcel.body[..parcel.size];
        let received = self.link.receive(&parcel.header, body, now);
        if received == Received::Stranger {
            return;
        }
        if let Some(pacer) = &mut self.pacer {
            let joined = received == Received::Joined;
            pacer.heard(before, self.link.numbers(), joined, now);
        }
    }

    /// Queues a unit, if it is live.
    fn offer(&mut self, alloc: Global) -> Result<(), Fail> {
        if self.link.state() != State::Live {
            return Ok(());
        }
        let mut body = Fragment::new();
        body.push(self.offered.to_le_bytes()[0]);
        let mut units = Vec::new(alloc);
        units.push(Unit {
            stream: 0,
            last: true,
            body,
        })?;
        self.link.offer(alloc, units)?;
        self.offered += 1;
        Ok(())
    }

    /// Queues its end, if it is live.
    fn end(&mut self, alloc: Global) -> Result<(), Fail> {
        if self.link.state() != State::Live {
            return Ok(());
        }
        self.link.end(alloc)?;
        self.offered += 1;
        self.ended = true;
        Ok(())
    }

    /// Takes all that it holds, which must be the next units of its peer.
    fn take_all(&mut self, rt: &impl Abort) {
        while let Some(unit) = self.link.take() {
            if unit.stream == 0 {
                let byte = unit.body.as_slice().first();
                assert_eq!(rt; byte, self.taken.to_le_bytes().first());
            }
            self.taken += 1;
        }
    }

    /// How many units it has queued, outstanding or not. Its numbers do not wrap here.
    fn queued(&self) -> u16 {
        let numbers = self.link.numbers();
        self.offered - (numbers.next - numbers.out)
    }
}

/// A paced link and its peer, joined, with these buffers.
fn pair(rt: &impl Abort, alloc: Global, one: u16, two: u16) -> Result<(Side, Side), Fail> {
    let far = Address {
        network: Network(0x11),
        node: Node([0, 0, 0x7f, 0, 0, 4]),
        socket: Socket(0x4002),
    };
    let dialed = Link::dial(alloc, 1, HERE, far, one, 0)?;
    let mut a = Side::new(dialed, Some(Pacer::new(alloc)?));
    let request = a.poll(0);
    assert!(rt; request.is_some());
    if let Some(parcel) = request {
        let mut b = Side::new(
            Link::accept(alloc, 2, HERE, far, &parcel.header, two, 0)?,
            None,
        );
        convey(&mut b, &mut a, 0);
        assert_eq!(rt;
            (a.link.state(), b.link.state()),
            (State::Live, State::Live)
        );
        return Ok((a, b));
    }
    rt.abort()
}

/// Everything that one end gives at this time is read by the other.
fn convey(from: &mut Side, to: &mut Side, now: u64) {
    while let Some(parcel) = from.poll(now) {
        to.receive(&parcel, now);
    }
}

/// Everything that one end gives at this time is lost.
fn lose(from: &mut Side, now: u64) {
    while from.poll(now).is_some() {}
}

/// A round at this time.
fn round(rt: &impl Abort, a: &mut Side, b: &mut Side, now: u64) {
    convey(a, b, now);
    b.take_all(rt);
    convey(b, a, now);
    a.take_all(rt);
}

/// All units of the first are acknowledged and taken. Its end is confirmed, if it was queued.
fn is_delivered(a: &Side, b: &Side) -> bool {
    let states = if a.ended {
        (State::Confirmed, State::PeerEnded)
    } else {
        (State::Live, State::Live)
    };
    a.queued() == 0 && b.taken == a.offered && (a.link.state(), b.link.state()) == states
}

/// The first acknowledges what it held, in two rounds. In the third it probes, and in the fourth
/// the unit arrives: three rounds, and one for the unit.
#[test]
fn needs_all_rounds(rt: HostRuntime) -> Result<(), Fail> {
    let alloc = rt.alloc();
    let (mut a, mut b) = pair(&rt, alloc, 5, 1)?;
    a.offer(alloc)?;
    a.offer(alloc)?;
    convey(&mut a, &mut b, 0);
    b.offer(alloc)?;
    convey(&mut b, &mut a, 0);
    b.take_all(&rt);
    lose(&mut b, 0);
    assert_eq!(rt; (a.queued(), a.link.numbers().out, b.taken), (1, 0, 1));
    for now in [500, 1000, 1500] {
        round(&rt, &mut a, &mut b, now);
        assert_eq!(rt; (a.queued(), b.taken), (1, 1), "at {now}");
    }
    round(&rt, &mut a, &mut b, 2000);
    assert!(rt; is_delivered(&a, &b));
    Ok(())
}

/// A unit was lost. Rounds before the wait is over bring nothing, and the one after it does.
#[test]
fn rounds_before_the_wait_is_over(rt: HostRuntime) -> Result<(), Fail> {
    let alloc = rt.alloc();
    let (mut a, mut b) = pair(&rt, alloc, 8, 8)?;
    a.offer(alloc)?;
    lose(&mut a, 0);
    for now in [50, 100, 150, 199] {
        round(&rt, &mut a, &mut b, now);
        assert_eq!(rt; (a.queued(), b.taken), (1, 0), "at {now}");
    }
    round(&rt, &mut a, &mut b, MINUTE);
    assert!(rt; is_delivered(&a, &b));
    Ok(())
}

/// The next number that is drawn, below a bound (Knuth's generator of MMIX).
fn draw(state: &mut u64, bound: u64) -> u64 {
    *state = state
        .wrapping_mul(6_364_136_223_846_793_005)
        .wrapping_add(1_442_695_040_888_963_407);
    (*state >> 33) % bound
}

/// Of what one end gives at this time half is lost.
fn convey_some(from: &mut Side, to: &mut Side, now: u64, state: &mut u64) {
    while let Some(parcel) = from.poll(now) {
        if draw(state, 2) == 0 {
            to.receive(&parcel, now);
        }
    }
}

/// Units are queued, sent, lost and taken, for less than five seconds.
fn course(
    rt: &impl Abort,
    alloc: Global,
    a: &mut Side,
    b: &mut Side,
    state: &mut u64,
) -> Result<u64, Fail> {
    let mut now = 0;
    for _ in 0..STEPS {
        now += draw(state, STEP);
        match draw(state, 6) {
            0 | 1 => a.offer(alloc)?,
            2 => b.offer(alloc)?,
            3 => b.take_all(rt),
            4 => convey_some(a, b, now, state),
            _ => convey_some(b, a, now, state),
        }
    }
    if draw(state, 2) == 0 {
        a.end(alloc)?;
    }
    Ok(now)
}

/// After each course so many rounds a minute apart deliver everything.
#[test]
fn rounds_after_losses(rt: HostRuntime) -> Result<(), Fail> {
    let alloc = rt.alloc();
    let mut most = 0;
    for seed in 0..COURSES {
        let mut state = seed;
        let buffers = 1 + draw(&mut state, 6) as u16;
        let (mut a, mut b) = pair(&rt, alloc, 8, buffers)?;
        let mut now = course(&rt, alloc, &mut a, &mut b, &mut state)?;
        let queued = a.queued();
        for _ in 0..3 + queued {
            now += MINUTE;
            round(&rt, &mut a, &mut b, now);
        }
        assert!(rt; is_delivered(&a, &b), "seed {seed}");
        most = most.max(queued);
    }
    assert!(rt; most > 5);
    Ok(())
}
