//! How much memory a router of sixteen ports took at most.

use crate::busy::{other_hosts, watch};
use crate::or_say;
use crate::sixteen::{PATIENCE, PORTS, Sixteen};
use crate::tables::{RESPONSES, query_for_all};
use crate::world::{Process, World};
use std::fs;
use std::io;
use std::thread;
use std::time::{Duration, Instant};

/// How often all ports ask for all services.
const TIMES: u64 = 10;
/// As many queries for everything as there are ports are answered once a second.
const PAUSE: Duration = Duration::from_millis(1100);

/// Megabytes of memory of a process at most so far.
pub fn most(process: &Process) -> io::Result<f64> {
    let status = fs::read_to_string(format!("/proc/{}/status", process.0.id()))?;
    let kilobytes = status
        .lines()
        .find_map(|line| line.strip_prefix("VmHWM:")?.strip_suffix("kB"))
        .unwrap_or_default();
    let kilobytes = kilobytes.trim().parse::<f64>().map_err(io::Error::other)?;
    Ok(kilobytes * 1024.0 / 1e6)
}

/// The hosts at all ports but the one that told ask for all services, and are answered.
fn ask(world: &World, full: &Sixteen) -> io::Result<u64> {
    for (host, port) in full.hosts.iter().zip(1..).skip(1) {
        let query = query_for_all(full.area.place(port, 1, 0x4003));
        host.send_to(&query, (full.area.router(port), world.port))?;
    }
    let end = Instant::now() + PAUSE;
    let (answers, _) = watch(world, &full.area, other_hosts(full), PATIENCE)?;
    thread::sleep(end.saturating_duration_since(Instant::now()));
    Ok(answers)
}

/// How much a router took once it was asked so often.
fn asked(world: &World, full: &Sixteen) -> io::Result<f64> {
    let answers = (0..TIMES)
        .map(|_| ask(world, full))
        .sum::<io::Result<u64>>()?;
    let all = TIMES * u64::from(RESPONSES) * u64::from(PORTS - 2);
    if answers < all {
        return Err(io::Error::other(format!(
            "{answers} answers came, fewer than {all}"
        )));
    }
    most(&full.router)
}

/// Prints a row of what a router took.
fn row(name: &str, most: io::Result<f64>) {
    if let Some(megabytes) = or_say(name, most) {
        println!("{name:<36} {megabytes:>11.2}");
    }
}

/// The memory of a router as it is now.
pub fn print_head() {
    println!(
        "{:<36} {:>11}",
        "a router of 16 ports, memory", "MB at most"
    );
}

/// Prints a row of a router as it is now.
pub fn print_row(name: &str, router: &Process) {
    row(name, most(router));
}

/// Has a router whose tables are full asked by all ports, and prints the row of that.
pub fn print_asked(world: &World, full: &Sixteen) {
    row("told ten times more, to who asks", asked(world, full));
}
