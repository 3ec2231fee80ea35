//! One packet at a time through a router that has nothing else to do.

use crate::area::Area;
use crate::or_say;
use crate::times::{HEADS, Spread};
use crate::way::{Way, plain_loop};
use crate::world::World;
use std::io;
use std::thread;
use std::time::{Duration, Instant};

const PACKETS: u32 = 5000;
/// Between two packets, in which all who wait go to sleep.
const PAUSE: Duration = Duration::from_micros(200);

/// How long the packet of a number is on its way, or nothing where it is lost.
fn time(way: &Way, by: &str, number: u32) -> io::Result<Option<Duration>> {
    thread::sleep(PAUSE);
    let start = Instant::now();
    way.send(by, number)?;
    Ok(way.get(number)?.then(|| start.elapsed()))
}

/// Prints the rows of a router of so many ports and of the plain loop, by which packets pass in
/// turn.
fn print_rows(world: &World, number: u8, ports: u8) -> io::Result<()> {
    let area = Area {
        number,
        ports,
        hosts: 1,
    };
    let _router = world.router(&format!("alone-{ports}"), &area.all())?;
    let _plain = plain_loop(world, &area, 2)?;
    let way = Way::new(world, &area, 1, 2)?;
    let (ours, plain) = (area.router(1), area.plain(1));
    way.wait(&ours)?;
    way.wait(&plain)?;
    let mut times = [Vec::new(), Vec::new()];
    for packet in 1..=PACKETS {
        times[0].extend(time(&way, &ours, packet)?);
        times[1].extend(time(&way, &plain, packet)?);
    }
    let names = [
        format!("a router of {ports} ports"),
        "the plain loop".into(),
    ];
    for (name, times) in names.iter().zip(times) {
        let lost = PACKETS as usize - times.len();
        println!("{name:<36}{} {lost:>9}", Spread::new(times));
    }
    Ok(())
}

/// Prints two rows for each number of ports.
pub fn print(world: &World) {
    println!("{:<36}{HEADS} {:>9}", "one packet at a time", "lost");
    for (number, ports) in [(1, 2), (2, 16)] {
        or_say("one packet at a time", print_rows(world, number, ports));
    }
}
