//! A course of hosts and routers: what their networks do to datagrams, and what users do.

use crate::drawn_sites::fill;
use crate::draws::{Counts, Dice, Draws, new_message};
use crate::processes::Process;
use crate::sites::{Letter, Site};
use std::alloc::Global;
use std::process::Abort;
use std::test::Fail;

/// A datagram is late if it arrives so many calls after it was given, or more.
const LATE: u32 = 10;

/// A letter on its way.
#[derive(Clone, Copy)]
struct Parcel {
    letter: Letter,
    /// The call that gave it.
    call: u32,
    was_heard: bool,
    was_overtaken: bool,
}

/// A site, and what its networks do to datagrams: how many of a hundred they lose, repeat, or take
/// out of turn.
#[derive(Drop)]
pub struct Course {
    pub site: Site,
    parcels: Vec<Parcel>,
    letters: Vec<Letter>,
    loss: u64,
    again: u64,
    shuffle: u64,
    /// How many calls were made.
    pub call: u32,
    /// How many connections users may still ask for.
    dials: u64,
}

impl Course {
    pub fn new(alloc: Global) -> Result<Course, Fail> {
        Ok(Course {
            site: Site::new(alloc)?,
            parcels: Vec::new(alloc),
            letters: Vec::new(alloc),
            loss: 0,
            again: 0,
            shuffle: 0,
            call: 0,
            dials: 0,
        })
    }

    /// Another site, in which nothing happened.
    pub fn begin(&mut self, alloc: Global, dice: &mut Dice, is_long: bool) -> Result<(), Fail> {
        self.site.clear();
        fill(alloc, dice, &mut self.site, !is_long)?;
        self.parcels.clear();
        self.loss = dice.below(25);
        self.again = dice.below(25);
        self.shuffle = dice.below(100);
        self.call = 0;
        self.dials = if is_long {
            1 + dice.below(4)
        } else {
            1 + dice.below(2)
        };
        Ok(())
    }
}

/// What the networks do, and what processes hear and give.
impl Course {
    /// The clock of a process advances, or is set back.
    fn tick(&mut self, dice: &mut Dice, process: usize) {
        let now = &mut self.site.processes[process].now;
        *now = match dice.below(40) {
            0 => now.saturating_sub(dice.below(1_000)),
            1..=3 => *now + 500 + dice.below(500),
            _ => *now + dice.below(20),
        };
    }

    fn some_process(&self, dice: &mut Dice) -> usize {
        dice.place(self.site.processes.len())
    }

    /// A process that may have something to give.
    fn some_awake(&self, dice: &mut Dice) -> Option<usize> {
        let count = self.site.processes.len();
        let first = dice.place(count);
        for place in first..first + count {
            if self.site.processes[place % count].is_awake {
                return Some(place % count);
            }
        }
        None
    }

    /// Time passes for some process.
    fn wait(&mut self, dice: &mut Dice) {
        let number = self.some_process(dice);
        let process = &mut self.site.processes[number];
        process.now += 100 + dice.below(500);
        process.is_awake = !process.is_over;
    }

    /// Some process gives a datagram, if it has one.
    pub fn give(&mut self, alloc: Global, draws: &mut Draws) -> Result<(), Fail> {
        let Some(from) = self.some_awake(&mut draws.dice) else {
            self.wait(&mut draws.dice);
            return Ok(());
        };
        self.tick(&mut draws.dice, from);
        let Some(number) = self.site.give(alloc, from)? else {
            return Ok(());
        };
        self.site.address(number, &mut self.letters)?;
        if draws.dice.happens(2) {
            // Whoever is on its network may hear it.
            let other = self.some_process(&mut draws.dice);
            if let Some(letter) = self.site.letter_to(number, other) {
                self.letters.push(letter)?;
            }
        }
        while let Some(letter) = self.letters.pop() {
            self.post(draws, letter)?;
        }
        Ok(())
    }

    /// A letter is lost, or on its way.
    fn post(&mut self, draws: &mut Draws, letter: Letter) -> Result<(), Fail> {
        if draws.dice.happens(self.loss) {
            draws.counts.lost += 1;
            return Ok(());
        }
        self.parcels.push(Parcel {
            letter,
            call: self.call,
            was_heard: false,
            was_overtaken: false,
        })?;
        Ok(())
    }

    /// The first parcel arrives, or another one. It may arrive again later.
    pub fn deliver(&mut self, alloc: Global, draws: &mut Draws) -> Result<(), Fail> {
        if self.parcels.is_empty() {
            return self.give(alloc, draws);
        }
        let other = draws.dice.place(self.parcels.len());
        let place = if draws.dice.happens(self.shuffle) {
            other
        } else {
            0
        };
        self.overtake(place);
        let mut parcel = self.parcels.remove(place);
        self.count_arrival(&mut draws.counts, &parcel);
        self.tick(&mut draws.dice, parcel.letter.to);
        self.site.deliver(alloc, parcel.letter)?;
        if draws.dice.happens(self.again) {
            parcel.was_heard = true;
            self.parcels.push(parcel)?;
        }
        Ok(())
    }

    /// Marks what was given earlier by the same process to the same one.
    fn overtake(&mut self, place: usize) {
        let parcel = self.parcels[place];
        if parcel.was_heard {
            return;
        }
        let from = self.site.mail[parcel.letter.number].from;
        for earlier in self.parcels[..place].iter_mut() {
            let is_from = self.site.mail[earlier.letter.number].from == from;
            if is_from && earlier.letter.to == parcel.letter.to && !earlier.was_heard {
                earlier.was_overtaken = true;
            }
        }
    }

    fn count_arrival(&self, counts: &mut Counts, parcel: &Parcel) {
        if self.site.processes[parcel.letter.to].is_over {
            return;
        }
        if parcel.was_heard {
            counts.doubled += 1;
        } else if parcel.was_overtaken {
            counts.reordered += 1;
        }
        if self.call - parcel.call >= LATE {
            counts.late += 1;
        }
    }

    /// A process ends, a router begins again and knows nothing, or a clock leaps.
    pub fn befall(&mut self, alloc: Global, draws: &mut Draws) -> Result<(), Fail> {
        let number = self.some_process(&mut draws.dice);
        let process = &mut self.site.processes[number];
        match draws.dice.below(12) {
            0 => {
                process.is_over = true;
                process.is_awake = false;
            }
            1..=4 if !process.is_host() => {
                let now = process.now;
                *process = Process::router(alloc, process.ports.clone()?)?;
                process.now = now;
                draws.counts.restarts += 1;
            }
            _ => process.now += draws.dice.below(70_000),
        }
        Ok(())
    }
}

/// What users do.
impl Course {
    fn dial(&mut self, alloc: Global, draws: &mut Draws) -> Result<(), Fail> {
        let from = self.some_process(&mut draws.dice);
        let to = self.some_process(&mut draws.dice);
        let (caller, called) = (&self.site.processes[from], &self.site.processes[to]);
        if from != to && caller.is_host() && called.is_host() && !caller.is_over {
            self.tick(&mut draws.dice, from);
            let buffers = 1 + draws.dice.below(8) as u16;
            self.site.dial(alloc, from, to, buffers)?;
            self.dials -= 1;
        }
        Ok(())
    }

    /// A user of some connection acts. While it is not open, mostly the network goes on.
    pub fn act(&mut self, rt: &impl Abort, alloc: Global, draws: &mut Draws) -> Result<(), Fail> {
        let count = self.site.connections.len();
        if self.dials > 0 && (count == 0 || draws.dice.below(8) == 0) {
            return self.dial(alloc, draws);
        }
        let who = draws.dice.place(count.max(1));
        let Some(connection) = self.site.connections.get(who) else {
            return self.deliver(alloc, draws);
        };
        let is_over = connection.released || self.site.processes[connection.host].is_over;
        if is_over || connection.partner.is_none() && draws.dice.happens(90) {
            return self.deliver(alloc, draws);
        }
        match draws.dice.below(20) {
            0..=7 => self.send(alloc, draws, who),
            8..=15 => self.take(rt, alloc, draws, who),
            16 | 17 => {
                self.site.close(alloc, who);
                Ok(())
            }
            18 => self.release(rt, alloc, draws, who),
            _ => self.pace(draws, who),
        }
    }

    /// Hands some messages in, if the connection is open.
    fn send(&mut self, alloc: Global, draws: &mut Draws, who: usize) -> Result<(), Fail> {
        for _ in 0..1 + draws.dice.below(3) {
            let message = new_message(alloc, &mut draws.dice, &draws.text)?;
            self.site.send(alloc, who, message)?;
        }
        Ok(())
    }

    /// Takes some units.
    fn take(
        &mut self,
        rt: &impl Abort,
        alloc: Global,
        draws: &mut Draws,
        who: usize,
    ) -> Result<(), Fail> {
        let mut left = 1 + draws.dice.below(4);
        while left > 0 && self.site.take(alloc, who)? {
            self.check_last(rt, draws, who);
            left -= 1;
        }
        Ok(())
    }

    /// Releases a connection that is over, and rarely another one.
    fn release(
        &mut self,
        rt: &impl Abort,
        alloc: Global,
        draws: &mut Draws,
        who: usize,
    ) -> Result<(), Fail> {
        let is_over = self.site.connections[who].ended || self.site.is_all_acked(who);
        if is_over || draws.dice.happens(10) {
            self.check_whole(rt, alloc, draws, who)?;
            if let Some(peer) = self.site.peer(who) {
                self.check_whole(rt, alloc, draws, peer)?;
            }
            self.site.release(who)?;
        }
        Ok(())
    }

    fn pace(&mut self, draws: &mut Draws, who: usize) -> Result<(), Fail> {
        let connection = &self.site.connections[who];
        let window = 1 + draws.dice.below(4) as u16;
        let manual = draws.dice.happens(30);
        if let Some(endpoint) = self.site.processes[connection.host].endpoint() {
            endpoint.pace(connection.id, window, manual)?;
            endpoint.again(connection.id, 0)?;
        }
        Ok(())
    }
}
