//! Packets and frames a second through one process.

use crate::Port;
use crate::load::{Load, RECEIVER, SENDER, STATIONS};
use crate::or_say;
use crate::world::{Process, World};
use std::io;
use std::net::UdpSocket;
use std::sync::atomic::{AtomicU64, Ordering};
use std::thread;
use std::time::{Duration, Instant};

/// The bytes of packets, and of packets in frames: the last are the longest that one can have.
const SIZES: [usize; 3] = [30, 576, 1500];
const FRAMED_SIZES: [usize; 3] = [30, 576, 1497];
/// How many packets are on their way at once: fewer than a socket's room holds.
const WINDOW: u64 = 64;
/// A repetition, and how often both sides are gone through in turn.
const REPETITION: Duration = Duration::from_millis(400);
const TIMES: usize = 6;
/// After this silence what is on its way is given up as lost.
const SILENCE: Duration = Duration::from_millis(20);

/// Counts what comes of a load until the moment.
fn count(socket: &UdpSocket, load: &Load, end: Instant, received: &AtomicU64) -> io::Result<()> {
    let mut room = [0; 1536];
    socket.set_read_timeout(Some(SILENCE))?;
    while Instant::now() < end {
        if let Ok((count, _)) = socket.recv_from(&mut room)
            && load.is_come_as(&room[..count])
        {
            received.fetch_add(1, Ordering::Release);
        }
    }
    Ok(())
}

/// Sends packets until the moment, with at most a window of them on their way. It answers how many
/// were lost.
fn pour(
    socket: &UdpSocket,
    to: (&str, u16),
    bytes: &[u8],
    end: Instant,
    received: &AtomicU64,
) -> io::Result<u64> {
    let (mut sent, mut lost, mut last) = (0_u64, 0, 0);
    let mut moved = Instant::now();
    while Instant::now() < end {
        let came = received.load(Ordering::Acquire);
        if came != last {
            last = came;
            moved = Instant::now();
        }
        // What was given up may come after all.
        if sent.saturating_sub(lost + came) < WINDOW {
            socket.send_to(bytes, to)?;
            sent += 1;
        } else if moved.elapsed() > SILENCE {
            lost = sent.saturating_sub(came);
            moved = Instant::now();
        } else {
            thread::yield_now();
        }
    }
    Ok(lost)
}

/// Packets a second, in at one address and out to the receiver.
fn rate(world: &World, ends: &Ends, by: &str, load: &Load) -> io::Result<f64> {
    let received = AtomicU64::new(0);
    let start = Instant::now();
    let end = start + REPETITION;
    thread::scope(|scope| {
        let counted = scope.spawn(|| count(&ends.receiver, load, end, &received));
        pour(&ends.sender, (by, world.port), &load.bytes, end, &received)?;
        counted.join().expect("the counting thread ends")
    })?;
    Ok(received.load(Ordering::Acquire) as f64 / start.elapsed().as_secs_f64())
}

/// The sockets of both hosts.
struct Ends {
    sender: UdpSocket,
    receiver: UdpSocket,
}

/// The ports of a router between the hosts.
fn ports() -> [Port; 2] {
    [
        Port::new(0x11, "127.0.2.1", [SENDER]),
        Port::new(0x22, "127.0.2.2", [RECEIVER]),
    ]
}

/// The same ports, each on a wire of frames.
fn wires() -> [Port; 2] {
    let [one, other] = ports();
    [one.on_wire(STATIONS[0]), other.on_wire(STATIONS[1])]
}

/// Both processes: a router of these ports, and the plain loop, when the load passes by each.
fn start(world: &World, ports: &[Port], load: &Load) -> io::Result<(Process, Process, Ends)> {
    let router = world.router("one", ports)?;
    let port = world.port.to_string();
    let me = std::env::current_exe()?;
    let plain = world.start(&me, &["floor", "127.0.2.3", "127.0.2.4", RECEIVER, &port])?;
    let ends = Ends {
        sender: UdpSocket::bind((SENDER, world.port))?,
        receiver: UdpSocket::bind((RECEIVER, world.port))?,
    };
    for by in ["127.0.2.1", "127.0.2.3"] {
        while_silent(world, &ends, by, load)?;
    }
    Ok((router, plain, ends))
}

/// Waits until the load passes, for five seconds at most.
fn while_silent(world: &World, ends: &Ends, by: &str, load: &Load) -> io::Result<()> {
    let end = Instant::now() + Duration::from_secs(5);
    while Instant::now() < end {
        if rate(world, ends, by, load)? > 0.0 {
            return Ok(());
        }
    }
    Err(io::Error::new(
        io::ErrorKind::TimedOut,
        format!("nothing passes by {by}"),
    ))
}

/// The best rates of both sides, which run in turn.
fn both(world: &World, ends: &Ends, load: &Load) -> io::Result<(f64, f64)> {
    let (mut ours, mut plain) = (0.0_f64, 0.0_f64);
    for _ in 0..TIMES {
        ours = ours.max(rate(world, ends, "127.0.2.1", load)?);
        plain = plain.max(rate(world, ends, "127.0.2.3", load)?);
    }
    Ok((ours, plain))
}

fn print_rows(world: &World, ports: &[Port], loads: &[Load; 3]) -> io::Result<()> {
    let (_router, _plain, ends) = start(world, ports, &loads[0])?;
    for load in loads {
        let (ours, plain) = both(world, &ends, load)?;
        println!(
            "{:<36} {:>12.1} {:>12.1} {:>12.2} {:>12.2} {:>8.3}",
            load.name,
            ours / 1e3,
            plain / 1e3,
            1e6 / ours,
            1e6 / plain,
            ours / plain
        );
    }
    Ok(())
}

/// Prints a row for each size, of packets and of frames.
pub fn print(world: &World) {
    println!(
        "{:<36} {:>12} {:>12} {:>12} {:>12} {:>8}",
        "packets a second, by processes", "ours, k", "plain, k", "ours us", "plain us", "ratio"
    );
    let packets = SIZES.map(Load::packet);
    or_say("packets a second", print_rows(world, &ports(), &packets));
    let frames = FRAMED_SIZES.map(Load::frame);
    or_say("frames a second", print_rows(world, &wires(), &frames));
}
