//! Scripts of calls of a pair of links.
//!
//! A script is made while a plain pair plays it, so that packets which were sent can be handed over
//! later, again, altered or never.

mod making;
mod met;

pub use making::{bytes, scripts};
pub use met::Met;

use crate::pairs::{LAST_STREAM, LEAD, Pair, play};
use crate::plain::link::State;
use crate::plain::spx::{MOST_DATA, ROOM};

/// A script of events of one size for a new pair with so many buffers, and what the plain pair
/// answers.
pub struct Script {
    pub events: Vec<u8>,
    pub size: usize,
    pub buffers: u16,
    pub answers: Vec<u8>,
    pub met: Met,
    pair: Pair,
    now: u64,
    /// The packets of the near end and of the far one, and how many of them came or were lost.
    wires: [Vec<Vec<u8>>; 2],
    passed: [usize; 2],
}

/// How bytes that are offered become units: of which size, on which stream, and with the mark or
/// without.
#[derive(Clone, Copy, Default)]
struct Cut {
    size: usize,
    stream: u8,
    last: bool,
}

impl Cut {
    /// Units of a size on stream 0, without the mark.
    fn units(size: usize) -> Self {
        Cut {
            size,
            ..Cut::default()
        }
    }
}

const NEAR: usize = 0;
const FAR: usize = 1;

/// Numbers by a fixed rule, which differ from seed to seed.
struct Chance(u64);

impl Chance {
    fn below(&mut self, bound: usize) -> usize {
        self.0 ^= self.0 << 13;
        self.0 ^= self.0 >> 7;
        self.0 ^= self.0 << 17;
        (self.0.wrapping_mul(0x2545_f491_4f6c_dd1d) >> 33) as usize % bound
    }
}

impl Script {
    /// A script whose packets take at most so many bytes.
    fn new(room: usize, buffers: u16) -> Self {
        Script {
            events: Vec::new(),
            size: LEAD + room,
            buffers,
            answers: Vec::new(),
            met: Met::default(),
            pair: Pair::new(buffers).expect("a pair of links"),
            now: 0,
            wires: [Vec::new(), Vec::new()],
            passed: [0; 2],
        }
    }

    /// Adds an event, plays it, and gives what was answered.
    fn call(&mut self, call: u8, end: usize, bytes: &[u8], cut: Cut) -> Vec<u8> {
        let start = self.events.len();
        self.events.extend([call, end as u8]);
        self.events.extend(self.now.to_be_bytes());
        self.events.extend((bytes.len() as u16).to_be_bytes());
        self.events.extend((cut.size as u16).to_be_bytes());
        self.events.extend([cut.stream, u8::from(cut.last)]);
        self.events.extend(bytes);
        self.events.resize(start + self.size, 0);
        let mut answer = Vec::new();
        play(&mut self.pair, &self.events[start..], &mut answer).expect("a link at each end");
        self.met.states[usize::from(answer[answer.len() - 13])] += 1;
        self.answers.extend(&answer);
        answer
    }

    /// Whether a packet was sent.
    fn poll(&mut self, end: usize) -> bool {
        let answer = self.call(b'P', end, &[], Cut::default());
        if answer[0] == 0 {
            return false;
        }
        self.met.sent[usize::from(answer[1])] += 1;
        self.wires[end].push(answer[10..answer.len() - 13].to_vec());
        true
    }

    fn hand_over(&mut self, to: usize, packet: &[u8]) {
        let answer = self.call(b'D', to, packet, Cut::default());
        self.met.received[usize::from(answer[0])] += 1;
    }

    /// Hands over the next packet for an end, if there is one.
    fn hand_over_next(&mut self, to: usize) {
        let from = 1 - to;
        if let Some(packet) = self.wires[from].get(self.passed[from]).cloned() {
            self.passed[from] += 1;
            self.hand_over(to, &packet);
        }
    }

    /// Hands over the last packet of the other end, altered and then as it is.
    fn hand_over_both(&mut self, to: usize, alter: &impl Fn(&mut Vec<u8>)) {
        let packet = self.wires[1 - to].last().cloned().unwrap_or_default();
        let mut other = packet.clone();
        alter(&mut other);
        self.hand_over(to, &other);
        self.hand_over(to, &packet);
    }

    fn offer(&mut self, end: usize, bytes: &[u8], cut: Cut) {
        let answer = self.call(b'O', end, bytes, cut);
        self.met.offered[usize::from(answer[0])] += 1;
    }

    /// Asks for the end of the connection.
    fn end(&mut self, end: usize) {
        let answer = self.call(b'E', end, &[], Cut::default());
        self.met.offered[usize::from(answer[0])] += 1;
    }

    /// Whether a unit was there.
    fn take(&mut self, end: usize) -> bool {
        let answer = self.call(b'T', end, &[], Cut::default());
        let [is_there, stream, mark, ..] = answer[..] else {
            return false;
        };
        if is_there == 1 {
            self.met.add_unit(stream, mark);
        }
        is_there == 1
    }

    /// Whether units were there.
    fn take_all(&mut self, end: usize) -> bool {
        let mut came = false;
        while self.take(end) {
            came = true;
        }
        came
    }

    fn poll_all(&mut self, end: usize) {
        while self.poll(end) {}
    }

    fn carry_all(&mut self, from: usize) {
        while self.poll(from) {
            self.hand_over_next(1 - from);
        }
    }

    /// Offers bytes to the near end, so many by each call.
    fn offer_each(&mut self, bytes: &[u8], count: usize, cut: Cut) {
        for part in bytes.chunks(count) {
            self.offer(NEAR, part, cut);
        }
    }

    /// Carries packets to and fro, and takes what came. Whether something came.
    fn turn(&mut self) -> bool {
        self.carry_all(NEAR);
        let came = self.take_all(FAR);
        self.carry_all(FAR);
        came
    }

    /// The calls of the timed loop, but that units are offered one by one.
    fn pass(&mut self, bytes: &[u8], cut: Cut, offered: usize) {
        self.carry_all(FAR);
        for part in bytes.chunks(cut.size * offered) {
            self.offer_each(part, cut.size, cut);
            self.turn_while_units_come();
        }
    }

    fn turn_while_units_come(&mut self) {
        while self.turn() {}
    }

    /// A packet of another end, in a byte or in its length not as it was sent.
    fn hand_over_altered(&mut self, to: usize, chance: &mut Chance) {
        let from = 1 - to;
        let mut packet = match self.wires[from].last() {
            Some(packet) => packet.clone(),
            None => return,
        };
        match chance.below(8) {
            0 => packet.truncate(chance.below(packet.len())),
            1 => packet.resize(self.size - LEAD, 0),
            _ => packet[chance.below(12)] ^= 1 << chance.below(8),
        }
        self.hand_over(to, &packet);
    }

    fn offer_some(&mut self, end: usize, chance: &mut Chance) {
        let count = chance.below((self.size - LEAD).min(ROOM));
        let bytes = (0..count)
            .map(|_| chance.below(256) as u8)
            .collect::<Vec<_>>();
        let most = MOST_DATA.min(self.size - LEAD - 12);
        let cut = Cut {
            size: (1 + chance.below(most)).max(count / 8),
            stream: [0, 1, 0x7f, LAST_STREAM][chance.below(4)],
            last: chance.below(3) == 0,
        };
        self.offer(end, &bytes, cut);
    }

    /// A call by chance, over wires that lose, repeat and alter packets.
    fn step(&mut self, end: usize, chance: &mut Chance) {
        match chance.below(400) {
            0..130 => _ = self.poll(end),
            130..240 => self.hand_over_next(end),
            240..270 => {
                let most = self.wires[end].len();
                self.passed[end] = most.min(self.passed[end] + 1);
            }
            270..290 if !self.wires[1 - end].is_empty() => {
                let packets = &self.wires[1 - end];
                let packet = packets[chance.below(packets.len())].clone();
                self.hand_over(end, &packet);
            }
            270..300 => self.hand_over_altered(end, chance),
            300..320 => self.offer_some(end, chance),
            320..360 => _ = self.take(end),
            360..380 => self.now += chance.below(300) as u64,
            380..394 => self.now += 500,
            394 => self.now = self.now.saturating_sub(chance.below(2000) as u64),
            395 | 396 => _ = self.call(b'R', end, &[], Cut::default()),
            397 | 398 => self.end(end),
            _ if chance.below(8) == 0 => _ = self.call(b'L', end, &[], Cut::default()),
            _ => {}
        }
    }

    fn disturb(&mut self, steps: usize, chance: &mut Chance) {
        for _ in 0..steps {
            let end = chance.below(2);
            self.step(end, chance);
        }
    }

    /// Time passes and nobody answers, until the near end gives the connection up.
    fn wait_in_vain(&mut self) {
        for _ in 0..24 {
            self.now += 250;
            self.poll(NEAR);
        }
        let state = self.pair.near.link().map(|link| link.state());
        assert_eq!(state, Some(State::Lost), "the near end did not give up");
    }
}
