//! What is drawn from a seed, and counts of what happened.

use spx_messages::Message;
use std::alloc::Global;
use std::process::Abort;
use std::test::Fail;

/// How long a text is whose parts are the bodies of messages.
const TEXT: usize = 1024;

/// A random number generator (Marsaglia's xorshift).
#[derive(Drop)]
pub struct Dice {
    /// Not 0.
    pub state: u64,
}

impl Dice {
    pub fn below(&mut self, count: u64) -> u64 {
        self.state ^= self.state << 13;
        self.state ^= self.state >> 7;
        self.state ^= self.state << 17;
        self.state % count
    }

    /// Whether something happens that happens so many times in a hundred.
    pub fn happens(&mut self, percent: u64) -> bool {
        self.below(100) < percent
    }

    /// A place in a list of this length, which is not 0.
    pub fn place(&mut self, length: usize) -> usize {
        self.below(length as u64) as usize
    }
}

/// What happened in all courses.
#[derive(Clone, Copy, Default)]
pub struct Counts {
    pub lost: u64,
    pub doubled: u64,
    pub late: u64,
    pub reordered: u64,
    pub restarts: u64,
    pub joined: u64,
    pub taken: u64,
    pub empty: u64,
    pub long: u64,
    pub routed: u64,
    pub whole: u64,
    pub ended: u64,
}

/// What all courses share.
#[derive(Drop)]
pub struct Draws {
    pub dice: Dice,
    pub text: Vec<u8>,
    pub counts: Counts,
    pub run: u32,
}

/// A text of random bytes.
pub fn new_text(alloc: Global, dice: &mut Dice) -> Result<Vec<u8>, Fail> {
    let mut text = Vec::new(alloc);
    for _ in 0..TEXT {
        text.push(dice.below(256) as u8)?;
    }
    Ok(text)
}

/// How many bytes a message has: none, a few, those of one unit, or those of two.
fn draw_length(dice: &mut Dice) -> usize {
    match dice.below(24) {
        0..=2 => 0,
        3..=21 => 1 + dice.place(6),
        _ => 534 + dice.place(100),
    }
}

/// A message with a part of a text.
pub fn new_message(alloc: Global, dice: &mut Dice, text: &[u8]) -> Result<Message, Fail> {
    let length = draw_length(dice);
    let start = dice.place(text.len() - length);
    let stream = dice.below(0xfe) as u8;
    let body = Vec::from_slice(alloc, &text[start..start + length])?;
    Ok(Message { stream, body })
}

/// Each thing happened this often, or more often.
pub fn check_counts(rt: &impl Abort, counts: &Counts) {
    let bounds = [
        ("datagrams lost", counts.lost, 3_000),
        ("heard again", counts.doubled, 2_500),
        ("late", counts.late, 800),
        ("out of order", counts.reordered, 500),
        ("routers that began again", counts.restarts, 40),
        ("ends joined", counts.joined, 8_000),
        ("messages taken", counts.taken, 4_000),
        ("of no bytes", counts.empty, 500),
        ("of two units", counts.long, 150),
        ("over routers", counts.routed, 200),
        ("ends whose end is acknowledged", counts.whole, 400),
        ("ends that took the end", counts.ended, 700),
    ];
    for (what, count, least) in bounds {
        assert!(rt; count >= least, "{what}: {count} and not {least}");
    }
}
