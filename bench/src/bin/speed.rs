//! How many calls a second both sides make: the proved router and links, and the plain ones.
//!
//! An argument narrows the rows to those whose names have it.

use ipx_bench::rows::{
    Row, Singles, Timed, all, check_answers, check_hosts, check_links, check_row, singles,
};
use std::time::{Duration, Instant};

/// How long the calls of one repetition take at least (and no less than what comes before them),
/// how long the repetitions of a row, and how often all rows are gone through. Many short
/// repetitions, some of them much later than others, find a moment at which nothing else runs.
const REPETITION: Duration = Duration::from_millis(2);
const ROW: Duration = Duration::from_millis(600);
const TIMES: u32 = 4;

/// How often a loop is timed at first, where how many rounds it makes is found out.
const TIMES_AT_FIRST: u32 = 5;

/// How many rounds have their calls timed one by one, in which offers grow old more than once, and
/// how often those rounds are gone through anew.
const SINGLE_ROUNDS: u32 = 7;
const SINGLE_TIMES: u32 = 20;

type Loop = dyn Fn(u32) -> u64;

fn time(calls: &Loop, rounds: u32) -> Duration {
    let start = Instant::now();
    std::hint::black_box(calls(std::hint::black_box(rounds)));
    start.elapsed()
}

/// The shortest of a few times, since what else runs lengthens one or another.
fn shortest(calls: &Loop, rounds: u32) -> Duration {
    (0..TIMES_AT_FIRST).map(|_| time(calls, rounds)).min().unwrap_or(Duration::ZERO)
}

/// One side of a row: its rounds, and the shortest times of a loop of no rounds, which only makes
/// the router or the pair of links, and of all rounds.
struct Side<'a> {
    calls: &'a Loop,
    rounds: u32,
    none: Duration,
    all: Duration,
}

impl<'a> Side<'a> {
    fn new(calls: &'a Loop) -> Self {
        let mut rounds = 1;
        let none = shortest(calls, 0);
        let least = REPETITION.max(none);
        let mut all = shortest(calls, rounds);
        while all.saturating_sub(none) < least {
            rounds *= 2;
            all = shortest(calls, rounds);
        }
        Side {
            calls,
            rounds,
            none,
            all,
        }
    }

    fn repeat(&mut self) {
        self.none = self.none.min(time(self.calls, 0));
        self.all = self.all.min(time(self.calls, self.rounds));
    }

    /// Seconds a round.
    fn seconds(&self) -> f64 {
        self.all.saturating_sub(self.none).as_secs_f64() / f64::from(self.rounds)
    }
}

fn in_words(rate: f64) -> String {
    match rate {
        r if r >= 1e6 => format!("{:.2} M", r / 1e6),
        r if r >= 1e3 => format!("{:.2} k", r / 1e3),
        r => format!("{r:.2}  "),
    }
}

/// Runs both sides of a row in turn.
fn repeat_both(ours: &mut Side, theirs: &mut Side) {
    let start = Instant::now();
    while start.elapsed() < ROW {
        ours.repeat();
        theirs.repeat();
    }
}

/// Goes through all rows.
fn repeat_all(sides: &mut [(Side, Side)]) {
    for (ours, theirs) in sides {
        repeat_both(ours, theirs);
    }
}

fn print(row: &Row, ours: &Side, theirs: &Side) {
    let calls = f64::from(row.calls);
    let (ours, theirs) = (ours.seconds() / calls, theirs.seconds() / calls);
    println!(
        "{:<44} {:>12} {:>12} {:>12.1} {:>12.1} {:>8.3}",
        row.name,
        in_words(1.0 / ours),
        in_words(1.0 / theirs),
        ours * 1e9,
        theirs * 1e9,
        theirs / ours
    );
}

/// Puts the shorter one of two times of each call.
fn shorten(least: &mut [u64], calls: &Timed) {
    for (least, time) in least.iter_mut().zip(calls(SINGLE_ROUNDS).1) {
        *least = time.min(*least);
    }
}

/// Prints the longest call of both sides, which run in turn, and whose answers are to be the same.
/// Of each call the shortest time counts, since what else runs lengthens one call or another.
fn print_longest(row: &Singles) {
    let (digest, mut ours) = (row.ours)(SINGLE_ROUNDS);
    let (other, mut theirs) = (row.theirs)(SINGLE_ROUNDS);
    assert!(digest == other, "the digests differ: {}", row.name);
    for _ in 1..SINGLE_TIMES {
        shorten(&mut ours, &row.ours);
        shorten(&mut theirs, &row.theirs);
    }
    let longest = |times: &[u64]| times.iter().max().copied().unwrap_or(0) as f64 / 1e3;
    println!(
        "{:<44} {:>10.1} {:>12.1}",
        row.name,
        longest(&ours),
        longest(&theirs)
    );
}

/// Prints every row, or those whose names have the word that is given.
fn main() {
    let word = std::env::args().nth(1).unwrap_or_default();
    let mut rows = all();
    rows.retain(|row| row.name.contains(&word));
    check_answers();
    if rows.iter().any(|row| row.name.starts_with("SPX")) {
        check_links();
    }
    if rows.iter().any(|row| row.name.starts_with("messages")) {
        check_hosts();
    }
    println!();
    rows.iter().for_each(check_row);
    let mut sides = rows
        .iter()
        .map(|row| (Side::new(&*row.ours), Side::new(&*row.theirs)))
        .collect::<Vec<_>>();
    (0..TIMES).for_each(|_| repeat_all(&mut sides));
    println!(
        "{:<44} {:>12} {:>12} {:>12} {:>12} {:>8}",
        "calls a second", "ours", "plain Rust", "ours ns", "plain ns", "ratio"
    );
    for (row, (ours, theirs)) in rows.iter().zip(&sides) {
        print(row, ours, theirs);
    }
    println!(
        "\n{:<44} {:>10} {:>12}",
        "the longest call", "ours us", "plain us"
    );
    let singles = singles();
    let chosen = singles.iter().filter(|row| row.name.contains(&word));
    chosen.for_each(print_longest);
}
