//! Pairs of links after random loss, duplication, delay and reordering, drawn from a seed. The
//! number of rounds that is claimed to be enough is enough.

use crate::pair::{Parcel, Side, can_go_on, is_delivered, pair, round, rounds_for};
use std::alloc::Global;
use std::process::Abort;
use std::test::Fail;

/// The seed of the random numbers: not 0.
const SEED: u64 = 1;

/// How many pairs are tried.
const PAIRS: u16 = 10_000;

/// A random number generator (Marsaglia's xorshift).
#[derive(Drop)]
struct Dice {
    state: u64,
}

impl Dice {
    fn below(&mut self, count: u64) -> u64 {
        self.state ^= self.state << 13;
        self.state ^= self.state >> 7;
        self.state ^= self.state << 17;
        self.state % count
    }
}

/// Two links, and the packets on their way between them.
#[derive(Drop)]
struct Course {
    a: Side,
    b: Side,
    to_a: Vec<Parcel>,
    to_b: Vec<Parcel>,
    now: u64,
    /// How many of a hundred packets are lost.
    loss: u64,
}

/// A packet of one end is lost, or is on its way once or twice.
fn give(dice: &mut Dice, course: &mut Course, first: bool) -> Result<(), Fail> {
    let (from, way) = if first {
        (&mut course.a, &mut course.to_b)
    } else {
        (&mut course.b, &mut course.to_a)
    };
    let Some(parcel) = from.poll(course.now) else {
        return Ok(());
    };
    if dice.below(100) < course.loss {
        return Ok(());
    }
    way.push(parcel)?;
    if dice.below(5) == 0 {
        way.push(parcel)?;
    }
    Ok(())
}

/// Delivers some packet that is on its way.
fn deliver(dice: &mut Dice, course: &mut Course, first: bool) {
    let (to, way) = if first {
        (&mut course.a, &mut course.to_a)
    } else {
        (&mut course.b, &mut course.to_b)
    };
    if way.is_empty() {
        return;
    }
    let place = dice.below(way.len() as u64) as usize;
    let parcel = way.swap_remove(place);
    to.receive(&parcel);
}

/// One random action of one of the two.
fn happen(
    rt: &impl Abort,
    alloc: Global,
    dice: &mut Dice,
    course: &mut Course,
) -> Result<(), Fail> {
    let first = dice.below(2) == 0;
    let what = dice.below(200);
    match what {
        0..=69 => return give(dice, course, first),
        70..=119 => deliver(dice, course, first),
        120..=139 => course.now += dice.below(700),
        _ => {
            let side = if first { &mut course.a } else { &mut course.b };
            return ask(rt, alloc, side, what);
        }
    }
    Ok(())
}

/// What a user asks of an end.
fn ask(rt: &impl Abort, alloc: Global, side: &mut Side, what: u64) -> Result<(), Fail> {
    match what {
        140..=169 => side.offer(alloc),
        170..=197 => {
            side.take(rt);
            Ok(())
        }
        _ => side.end(alloc),
    }
}

/// A pair after up to 60 random actions. What is still on its way never arrives.
fn drawn(rt: &impl Abort, alloc: Global, dice: &mut Dice) -> Result<Course, Fail> {
    let sizes = [1, 1, 2, 3, 5, 8];
    let one = sizes[dice.below(6) as usize];
    let two = sizes[dice.below(6) as usize];
    let (a, b) = pair(rt, alloc, one, two)?;
    let mut course = Course {
        a,
        b,
        to_a: Vec::new(alloc),
        to_b: Vec::new(alloc),
        now: 0,
        loss: dice.below(90),
    };
    for _ in 0..dice.below(60) {
        happen(rt, alloc, dice, &mut course)?;
    }
    Ok(course)
}

/// Counts over the pairs that were tried.
#[derive(Drop)]
struct Tally {
    pairs: u16,
    /// The most rounds that any pair needed.
    most: u16,
    /// How many pairs needed all the rounds that are claimed to be enough.
    needed_all: u16,
}

/// Whether everything is delivered that should be: of the first, or of both.
fn is_through(a: &Side, b: &Side, both: bool) -> bool {
    is_delivered(a, b) && (!both || is_delivered(b, a))
}

/// One more round than is claimed to be enough: then everything is delivered.
fn go_through(rt: &impl Abort, totals: &mut Tally, a: &mut Side, b: &mut Side, now: u64) {
    let both = can_go_on(b, a);
    let back = if both { rounds_for(b, a) } else { 0 };
    let enough = rounds_for(a, b).max(back);
    let mut needed = 0;
    for turn in 1..=enough + 1 {
        if !is_through(a, b, both) {
            needed = turn;
        }
        round(rt, a, b, now + 500 * u64::from(turn));
    }
    let pair = totals.pairs;
    assert!(rt;
        needed <= enough,
        "pair {pair} of seed {SEED}: {needed} rounds of {enough}"
    );
    assert!(rt;
        is_through(a, b, both),
        "pair {pair} of seed {SEED}: after {enough} rounds"
    );
    totals.pairs += 1;
    totals.most = totals.most.max(needed);
    if needed == enough {
        totals.needed_all += 1;
    }
}

#[test]
fn drawn_pairs_come_through(rt: HostRuntime) -> Result<(), Fail> {
    let mut dice = Dice { state: SEED };
    let mut totals = Tally {
        pairs: 0,
        most: 0,
        needed_all: 0,
    };
    while totals.pairs < PAIRS {
        let mut course = drawn(&rt, rt.alloc(), &mut dice)?;
        let now = course.now;
        if can_go_on(&course.a, &course.b) {
            go_through(&rt, &mut totals, &mut course.a, &mut course.b, now);
        } else if can_go_on(&course.b, &course.a) {
            go_through(&rt, &mut totals, &mut course.b, &mut course.a, now);
        }
    }
    let Tally {
        pairs,
        most,
        needed_all,
    } = totals;
    println!(rt;
        "seed {SEED}: {pairs} pairs, {most} rounds at most, {needed_all} needed all that are enough"
    )?;
    Ok(())
}
