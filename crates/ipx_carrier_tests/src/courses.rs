//! Hosts and routers that run each by itself, over networks that lose, double, delay and reorder
//! datagrams, drawn from a seed. What the users of a connection took is a prefix of what those of
//! its peer handed in. If an end sees all acknowledged, its end too, its peer took exactly that or
//! holds it whole. If an end took its peer's end, it took everything.

use crate::connections::{first_wrong, is_last_right};
use crate::course::Course;
use crate::draws::{Counts, Dice, Draws, check_counts, new_text};
use std::alloc::Global;
use std::process::Abort;
use std::test::Fail;

/// The seed of the random numbers: not 0.
const SEED: u64 = 1;

/// How many courses are tried.
const RUNS: u32 = 10_000;

/// One of so many courses is long: it has 200 to 400 calls. The others have 20 to 28.
const LONG: u32 = 60;

/// What must hold.
impl Course {
    /// What was taken last, also if it was the end.
    pub fn check_last(&self, rt: &impl Abort, draws: &mut Draws, who: usize) {
        let run = draws.run;
        let taker = &self.site.connections[who];
        if taker.taken.is_empty() && !taker.ended {
            return;
        }
        let peer = self.site.peer(who);
        assert!(rt;
            peer.is_some(),
            "run {run} of seed {SEED}: {who} took from nobody"
        );
        let Some(peer) = peer else {
            return;
        };
        let giver = &self.site.connections[peer];
        assert!(rt;
            is_last_right(&giver.given, &taker.taken),
            "run {run} of seed {SEED}: {who} took no prefix"
        );
        assert!(rt;
            !taker.ended || giver.closed && giver.given.len() == taker.taken.len(),
            "run {run} of seed {SEED}: {who} took the end and not everything"
        );
    }

    /// If all is acknowledged that a connection handed in, and its end, its peer took exactly that
    /// or holds it. The peer then takes what it holds.
    pub fn check_whole(
        &mut self,
        rt: &impl Abort,
        alloc: Global,
        draws: &mut Draws,
        who: usize,
    ) -> Result<(), Fail> {
        if !self.site.is_all_acked(who) {
            return Ok(());
        }
        let run = draws.run;
        let peer = self.site.peer(who);
        assert!(rt;
            peer.is_some(),
            "run {run} of seed {SEED}: {who} has no peer"
        );
        let Some(peer) = peer else {
            return Ok(());
        };
        if self.site.connections[peer].released {
            return Ok(());
        }
        while self.site.take(alloc, peer)? {}
        self.check_last(rt, draws, peer);
        let (giver, taker) = (&self.site.connections[who], &self.site.connections[peer]);
        assert!(rt;
            giver.given.len() == taker.taken.len(),
            "run {run} of seed {SEED}: {who} is acknowledged and not whole at {peer}"
        );
        Ok(())
    }

    /// What a connection holds at the end of a course is taken too.
    fn take_all(
        &mut self,
        rt: &impl Abort,
        alloc: Global,
        draws: &mut Draws,
        who: usize,
    ) -> Result<(), Fail> {
        while !self.site.connections[who].released && self.site.take(alloc, who)? {
            self.check_last(rt, draws, who);
        }
        Ok(())
    }

    /// All that was taken at a connection.
    fn check_taken(&self, rt: &impl Abort, draws: &mut Draws, who: usize) {
        let run = draws.run;
        let taker = &self.site.connections[who];
        let Some(peer) = self.site.peer(who) else {
            assert!(rt;
                taker.taken.is_empty() && !taker.ended,
                "run {run} of seed {SEED}: {who} took from nobody"
            );
            return;
        };
        let giver = &self.site.connections[peer];
        assert!(rt;
            first_wrong(&giver.given, &taker.taken).is_none(),
            "run {run} of seed {SEED}: {who} took no prefix"
        );
        self.count(&mut draws.counts, who, peer);
    }

    /// All connections, at the end.
    fn check_all(&mut self, rt: &impl Abort, alloc: Global, draws: &mut Draws) -> Result<(), Fail> {
        for who in 0..self.site.connections.len() {
            self.check_whole(rt, alloc, draws, who)?;
            self.take_all(rt, alloc, draws, who)?;
            self.check_taken(rt, draws, who);
        }
        Ok(())
    }

    /// Counts what a connection took from its peer.
    fn count(&self, counts: &mut Counts, who: usize, peer: usize) {
        let (giver, taker) = (&self.site.connections[peer], &self.site.connections[who]);
        let count = taker.taken.len() as u64;
        let networks = (
            self.site.processes[giver.host].ports[0].network,
            self.site.processes[taker.host].ports[0].network,
        );
        counts.joined += 1;
        counts.taken += count;
        counts.empty += taker.taken.iter().filter(|it| it.body.is_empty()).count() as u64;
        counts.long += taker.taken.iter().filter(|it| it.body.len() > 534).count() as u64;
        counts.routed += if networks.0 == networks.1 { 0 } else { count };
        counts.whole += u64::from(self.site.is_all_acked(who));
        counts.ended += u64::from(taker.ended);
    }
}

/// A course. What is on its way then never arrives.
fn run_course(
    rt: &impl Abort,
    alloc: Global,
    draws: &mut Draws,
    course: &mut Course,
) -> Result<(), Fail> {
    let is_long = draws.run % LONG == 0;
    course.begin(alloc, &mut draws.dice, is_long)?;
    let calls = if is_long {
        200 + draws.dice.below(201)
    } else {
        20 + draws.dice.below(9)
    };
    for _ in 0..calls {
        course.call += 1;
        match draws.dice.below(100) {
            0..=39 => course.deliver(alloc, draws)?,
            40..=69 => course.give(alloc, draws)?,
            70..=98 => course.act(rt, alloc, draws)?,
            _ => course.befall(alloc, draws)?,
        }
    }
    course.check_all(rt, alloc, draws)
}

#[test]
fn drawn_courses_hand_on(rt: HostRuntime) -> Result<(), Fail> {
    let alloc = rt.alloc();
    let mut dice = Dice { state: SEED };
    let text = new_text(alloc, &mut dice)?;
    let mut draws = Draws {
        dice,
        text,
        counts: Counts::default(),
        run: 0,
    };
    let mut course = Course::new(alloc)?;
    while draws.run < RUNS {
        run_course(&rt, alloc, &mut draws, &mut course)?;
        draws.run += 1;
    }
    check_counts(&rt, &draws.counts);
    Ok(())
}
