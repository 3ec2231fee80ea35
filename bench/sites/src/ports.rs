//! Packets a second through routers of more ports, and of ports with more peers.

use crate::area::Area;
use crate::or_say;
use crate::way::{SILENCE, Way, plain_loop};
use crate::world::World;
use std::io;
use std::sync::atomic::{AtomicU64, Ordering};
use std::thread;
use std::time::{Duration, Instant};

/// How many packets of a way are on their way at once: fewer than a socket's room holds.
const WINDOW: u64 = 64;
/// How many packets of one way go before the next one has its turn.
const TURN: usize = 16;
/// Many short repetitions, of which the best counts: one of them finds a moment at which nothing
/// else runs.
const REPETITION: Duration = Duration::from_millis(50);
const TIMES: usize = 20;

/// What one way sends, and how much came.
struct Flow<'a> {
    way: &'a Way,
    by: &'a str,
    bytes: Vec<u8>,
    port: u16,
    sent: u64,
    lost: u64,
    last: u64,
    moved: Instant,
}

impl Flow<'_> {
    /// Sends packets so far as the window has place. It answers whether there was any.
    fn turn(&mut self, came: u64) -> io::Result<bool> {
        if came != self.last {
            self.last = came;
            self.moved = Instant::now();
        } else if self.moved.elapsed() > SILENCE {
            self.lost = self.sent.saturating_sub(came);
            self.moved = Instant::now();
        }
        let on_the_way = self.sent.saturating_sub(self.lost + came);
        let free = WINDOW.saturating_sub(on_the_way);
        let count = free.min(TURN as u64);
        for _ in 0..count {
            self.way.sender.send_to(&self.bytes, (self.by, self.port))?;
        }
        self.sent += count;
        Ok(count > 0)
    }
}

/// Counts what comes at the ends of all ways until a moment.
fn count(ways: &[Way], came: &[AtomicU64], end: Instant) -> io::Result<()> {
    let mut room = [0; 1536];
    while Instant::now() < end {
        let mut is_idle = true;
        for (way, came) in ways.iter().zip(came) {
            for _ in 0..TURN {
                let Ok(count) = way.receiver.recv(&mut room) else {
                    break;
                };
                if Way::is_least(&room[..count]) {
                    came.fetch_add(1, Ordering::Release);
                    is_idle = false;
                }
            }
        }
        if is_idle {
            thread::yield_now();
        }
    }
    Ok(())
}

/// Sends packets on all ways in turn until a moment.
fn pour(flows: &mut [Flow], came: &[AtomicU64], end: Instant) -> io::Result<()> {
    while Instant::now() < end {
        let mut is_idle = true;
        for (flow, came) in flows.iter_mut().zip(came) {
            is_idle &= !flow.turn(came.load(Ordering::Acquire))?;
        }
        if is_idle {
            thread::yield_now();
        }
    }
    Ok(())
}

/// Packets a second over some ways, each by an address.
fn rate(world: &World, ways: &[Way], by: &[String]) -> io::Result<f64> {
    let came = ways.iter().map(|_| AtomicU64::new(0)).collect::<Vec<_>>();
    let start = Instant::now();
    let end = start + REPETITION;
    let mut flows = ways
        .iter()
        .zip(by)
        .map(|(way, by)| Flow {
            way,
            by,
            bytes: way.least(),
            port: world.port,
            sent: 0,
            lost: 0,
            last: 0,
            moved: start,
        })
        .collect::<Vec<_>>();
    thread::scope(|scope| {
        let counted = scope.spawn(|| count(ways, &came, end));
        pour(&mut flows, &came, end)?;
        counted.join().expect("the counting thread ends")
    })?;
    let came = came
        .iter()
        .map(|came| came.load(Ordering::Acquire))
        .sum::<u64>();
    Ok(came as f64 / start.elapsed().as_secs_f64())
}

/// Prints the row of a router and of the plain loop, with so many pairs of ports between which
/// packets pass.
fn print_row(world: &World, area: &Area, pairs: u8) -> io::Result<()> {
    let _router = world.router(&format!("ports-{}", area.number), &area.all())?;
    let _plain = plain_loop(world, area, 2)?;
    let ways = (0..pairs)
        .map(|pair| Way::new(world, area, 2 * pair + 1, 2 * pair + 2))
        .collect::<io::Result<Vec<_>>>()?;
    let by = (0..pairs)
        .map(|pair| area.router(2 * pair + 1))
        .collect::<Vec<_>>();
    let plain_by = [area.plain(1)];
    ways.iter()
        .zip(&by)
        .try_for_each(|(way, by)| way.wait(by))?;
    ways[0].wait(&plain_by[0])?;
    ways.iter()
        .try_for_each(|way| way.receiver.set_nonblocking(true))?;
    let (mut ours, mut plain) = (0.0_f64, 0.0_f64);
    for _ in 0..TIMES {
        ours = ours.max(rate(world, &ways, &by)?);
        plain = plain.max(rate(world, &ways[..1], &plain_by)?);
    }
    let name = match (area.hosts, pairs) {
        (1, 1) => format!("{} ports, one pair", area.ports),
        (1, _) => format!("{} ports, {pairs} pairs", area.ports),
        (hosts, _) => format!("{} ports of {hosts} peers, one pair", area.ports),
    };
    println!(
        "{name:<36} {:>11.1} {:>11.1} {:>11.2} {:>11.2} {:>8.3}",
        ours / 1e3,
        plain / 1e3,
        1e6 / ours,
        1e6 / plain,
        ours / plain
    );
    Ok(())
}

/// Prints a row for each number of ports, of pairs and of peers.
pub fn print(world: &World) {
    println!(
        "{:<36} {:>11} {:>11} {:>11} {:>11} {:>8}",
        "30 bytes, ports and peers", "ours, k", "plain, k", "ours us", "plain us", "ratio"
    );
    let rows = [
        (2, 1, 1),
        (4, 1, 1),
        (8, 1, 1),
        (16, 1, 1),
        (4, 1, 2),
        (8, 1, 4),
        (16, 1, 8),
        (2, 16, 1),
        (2, 64, 1),
    ];
    for (number, (ports, hosts, pairs)) in (31..).zip(rows) {
        let area = Area {
            number,
            ports,
            hosts,
        };
        or_say("ports and peers", print_row(world, &area, pairs));
    }
}
