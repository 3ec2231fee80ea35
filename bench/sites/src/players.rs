//! Broadcasts from one client of ipxnet to another, through `ipx route` and through the server of
//! DOSBox: how long one is on its way, and how many come of so many a second.

use crate::client::{Client, SIZE};
use crate::game::Game;
use crate::or_say;
use crate::times::{HEADS, Spread};
use crate::world::World;
use std::io;
use std::sync::atomic::{AtomicBool, Ordering};
use std::thread;
use std::time::{Duration, Instant};

/// How many go one at a time.
const PACKETS: u32 = 2000;
/// The shortest time between two of them, and how much longer it is at most: the times are spread
/// evenly, so that they do not fall into step with a server that looks at its socket by the clock.
const PAUSE: Duration = Duration::from_millis(4);
const MORE_NANOS: u64 = 8_000_000;
/// The golden section of a whole of 2^32, by which such times are spread.
const GOLDEN: u32 = 2_654_435_769;

/// Broadcasts a second, and how often and how long they are sent by each server.
const RATES: [u32; 6] = [500, 1000, 2000, 4000, 8000, 16_000];
const TURNS: usize = 2;
const TURN: Duration = Duration::from_secs(5);
/// A sender that was held back sends as many at once at most, and leaves out the others.
const AT_ONCE: u32 = 16;

/// The time before the broadcast of a number.
fn pause(number: u32) -> Duration {
    let part = u64::from(number.wrapping_mul(GOLDEN));
    PAUSE + Duration::from_nanos((part * MORE_NANOS) >> 32)
}

/// How long the broadcast of a number is on its way, or nothing where it is lost.
fn time(game: &Game, number: u32) -> io::Result<Option<Duration>> {
    thread::sleep(pause(number));
    let start = Instant::now();
    game.sender.send(number)?;
    Ok(game.taker.get(number)?.then(|| start.elapsed()))
}

/// Prints a row for each server, by which broadcasts pass in turn. It answers the last number.
fn print_times(games: &[Game; 2]) -> io::Result<u32> {
    let mut times = [Vec::new(), Vec::new()];
    for number in 1..=PACKETS {
        for (game, times) in games.iter().zip(&mut times) {
            times.extend(time(game, number)?);
        }
    }
    println!("{:<36}{HEADS} {:>9}", "one broadcast at a time", "lost");
    for (game, times) in games.iter().zip(times) {
        let lost = PACKETS as usize - times.len();
        println!("{:<36}{} {lost:>9}", game.name, Spread::new(times));
    }
    Ok(PACKETS)
}

/// What became of the broadcasts of one rate at one server.
#[derive(Default)]
struct Counts {
    sent: u64,
    came: u64,
    lost_by_taker: u64,
    ran: u64,
    nanos: u128,
}

/// Sends broadcasts at a rate for a turn, from a number on, and answers how many.
fn send(client: &Client, rate: u32, first: u32) -> io::Result<u32> {
    let step = Duration::from_secs(1) / rate;
    let start = Instant::now();
    let (mut due, mut sent) = (start, 0);
    while start.elapsed() < TURN {
        thread::sleep(due.saturating_duration_since(Instant::now()));
        due = (due + step).max(Instant::now() - step * AT_ONCE);
        client.send(first + sent)?;
        sent += 1;
    }
    Ok(sent)
}

/// Takes what comes until nothing is sent and nothing comes any more, and answers its numbers.
fn take(client: &Client, is_over: &AtomicBool) -> io::Result<Vec<u32>> {
    let mut numbers = Vec::new();
    loop {
        // What was sent last gets the whole time of silence.
        let was_over = is_over.load(Ordering::Acquire);
        match client.next()? {
            Some(number) => numbers.push(number),
            None if was_over => return Ok(numbers),
            None => {}
        }
    }
}

/// How many of the broadcasts from a number on came, each counted once.
fn count(mut numbers: Vec<u32>, first: u32) -> u64 {
    numbers.sort_unstable();
    numbers.dedup();
    numbers.iter().filter(|number| **number >= first).count() as u64
}

/// Sends broadcasts at a rate for a turn, from a number on. It answers how many, and which came.
fn pass(game: &Game, rate: u32, first: u32) -> io::Result<(u32, Vec<u32>)> {
    let is_over = AtomicBool::new(false);
    thread::scope(|scope| {
        let taken = scope.spawn(|| take(&game.taker, &is_over));
        let listener = game.listener.as_ref();
        let heard = listener.map(|client| scope.spawn(|| take(client, &is_over)));
        let sent = send(&game.sender, rate, first);
        is_over.store(true, Ordering::Release);
        let came = taken.join().expect("the taking thread ends")?;
        if let Some(heard) = heard {
            heard.join().expect("the listening thread ends")?;
        }
        Ok((sent?, came))
    })
}

/// One turn of a rate at a server, with the numbers from one on. It answers the next number.
fn turn(game: &Game, rate: u32, first: u32, counts: &mut Counts) -> io::Result<u32> {
    game.hello()?;
    let (lost, taken) = (game.taker.lost()?, game.server.taken()?);
    let start = Instant::now();
    let (sent, came) = pass(game, rate, first)?;
    counts.sent += u64::from(sent);
    counts.came += count(came, first);
    counts.lost_by_taker += game.taker.lost()? - lost;
    counts.ran += game.server.taken()?.ran - taken.ran;
    counts.nanos += start.elapsed().as_nanos();
    Ok(first + sent)
}

/// Prints a row for each rate and server, which have their turns one after another.
fn print_rates(games: &[Game; 2], last: u32) -> io::Result<()> {
    println!(
        "{:<36} {:>9} {:>9} {:>9} {:>9} {:>9}",
        format!("broadcasts of {SIZE} bytes"),
        "share",
        "sent",
        "came",
        "by host",
        "ran %"
    );
    let mut next = last + 1;
    for rate in RATES {
        let mut counts = [Counts::default(), Counts::default()];
        for _ in 0..TURNS {
            for (game, counts) in games.iter().zip(&mut counts) {
                next = turn(game, rate, next, counts)?;
            }
        }
        for (game, counts) in games.iter().zip(counts) {
            println!(
                "{:<36} {:>9.4} {:>9} {:>9} {:>9} {:>9.1}",
                format!("{rate} a second, {}", game.name),
                counts.came as f64 / counts.sent as f64,
                counts.sent,
                counts.came,
                counts.lost_by_taker,
                100.0 * counts.ran as f64 / counts.nanos as f64
            );
        }
    }
    Ok(())
}

/// Both servers, when broadcasts pass by each.
fn print_rows(world: &World) -> io::Result<()> {
    let games = [Game::ours(world)?, Game::dosbox(world)?];
    let last = print_times(&games)?;
    println!();
    print_rates(&games, last)
}

/// Prints two rows of times, and two for each rate.
pub fn print(world: &World) {
    or_say("players", print_rows(world));
}
