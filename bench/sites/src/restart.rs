//! A router that starts beside a neighbour whose tables are full.

use crate::area::Area;
use crate::asker::Asker;
use crate::or_say;
use crate::sixteen::Sixteen;
use crate::sockets::lost;
use crate::world::{Port, World};
use std::io;
use std::net::UdpSocket;
use std::thread;
use std::time::{Duration, Instant};

const TIMES: usize = 3;
const PATIENCE: Duration = Duration::from_secs(40);
/// A neighbour answers a node that asks for everything eight times, and once more a second.
const PAUSE: Duration = Duration::from_secs(2);
/// The port at which the neighbour has the one that starts as its peer.
const JOIN: u8 = 3;

/// One start: how long it takes until all is known, and how many datagrams found no room.
fn start(world: &World, full: &Sixteen, own: &Area, host: &UdpSocket) -> io::Result<(f64, u64)> {
    let address = full.area.host(JOIN, 1);
    let join = Port::new(full.area.network(JOIN), &address, [full.area.router(JOIN)]);
    let start = Instant::now();
    let _router = world.router("restarted", &[join, own.port(1)])?;
    let asker = Asker::new(
        host,
        own.place(1, 1, 0),
        (own.router(1), world.port),
        full.area.network(JOIN),
    )?;
    let known = asker.wait_for_all(start + PATIENCE)?;
    Ok((
        known.duration_since(start).as_secs_f64() * 1e3,
        lost(&[address], world.port)?,
    ))
}

fn print_rows(world: &World, number: u8) -> io::Result<()> {
    let mut full = Sixteen::start(world, number)?;
    full.fill()?;
    // The one that starts has the address of this host.
    full.hosts.remove(usize::from(JOIN) - 1);
    let own = Area {
        number: number + 1,
        ports: 1,
        hosts: 1,
    };
    let host = UdpSocket::bind((own.host(1, 1), world.port))?;
    for _ in 0..TIMES {
        let (milliseconds, lost) = start(world, &full, &own, &host)?;
        println!(
            "{:<36} {milliseconds:>11.1} {lost:>11}",
            "until it knows all"
        );
        thread::sleep(PAUSE);
    }
    Ok(())
}

/// Prints a row for each start.
pub fn print(world: &World) {
    println!(
        "{:<36} {:>11} {:>11}",
        "a router starts, its neighbour full", "ms", "lost"
    );
    or_say("a router starts", print_rows(world, 21));
}
