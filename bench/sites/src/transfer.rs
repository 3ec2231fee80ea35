//! A transfer from `ipx send` to `ipx listen`.

use crate::ipx::node;
use crate::or_say;
use crate::world::{Host, Process, World};
use crate::{far_host, near_host, sites};
use std::io::{self, Read, Write};
use std::process::ChildStdout;
use std::thread;
use std::time::{Duration, Instant};

/// The bytes of a transfer, of which the first round says how many there are to be.
const LEAST: usize = 4_000_000;
const MOST: usize = 200_000_000;
const SECONDS: f64 = 3.0;
const TIMES: usize = 3;

/// Where a transfer goes from and to.
struct Way<'a> {
    listener: &'a str,
    sender: &'a str,
    network: &'a str,
    node: String,
}

fn hex(bytes: &[u8]) -> String {
    bytes.iter().map(|byte| format!("{byte:02x}")).collect()
}

/// Bytes that do not repeat within a megabyte.
fn data(count: usize) -> Vec<u8> {
    let mut state = 1_u32;
    let block = (0..1_000_003).map(|_| {
        state = state.wrapping_mul(1_664_525).wrapping_add(1_013_904_223);
        (state >> 24) as u8
    });
    block
        .collect::<Vec<_>>()
        .into_iter()
        .cycle()
        .take(count)
        .collect()
}

/// Reads what a listener writes: the moments of its first byte and of its last, and whether it is
/// what was sent.
fn read(mut out: ChildStdout, sent: &[u8]) -> io::Result<(Instant, Instant, bool)> {
    let mut room = vec![0; 1 << 16];
    let (mut at, mut same, mut first) = (0, true, None);
    while at < sent.len() {
        let count = out.read(&mut room)?;
        if count == 0 {
            break;
        }
        first.get_or_insert_with(Instant::now);
        same = same && sent[at..].starts_with(&room[..count]);
        at += count;
    }
    let first = first.unwrap_or_else(Instant::now);
    Ok((first, Instant::now(), same && at == sent.len()))
}

/// Gives a sender its input, and answers whether it ended with status 0.
fn give(sender: &mut Process, sent: &[u8]) -> io::Result<bool> {
    let mut input = sender.0.stdin.take().ok_or(io::ErrorKind::BrokenPipe)?;
    let written = input.write_all(sent);
    drop(input);
    Ok(sender.0.wait()?.success() && written.is_ok())
}

/// Megabytes a second of one transfer, from the first byte that comes to the last one.
fn rate(world: &World, way: &Way, sent: &[u8]) -> io::Result<f64> {
    let mut listener = world.start(&world.program, &["listen", way.listener, "--once"])?;
    thread::sleep(Duration::from_millis(100));
    let words = ["send", way.sender, way.network, &way.node, "4002"];
    let mut sender = world.start(&world.program, &words)?;
    let out = listener.0.stdout.take().ok_or(io::ErrorKind::BrokenPipe)?;
    let (first, last, same) = thread::scope(|scope| {
        let came = scope.spawn(|| read(out, sent));
        if !give(&mut sender, sent)? {
            listener.0.kill()?;
        }
        came.join().expect("the reading thread ends")
    })?;
    if !same {
        return Err(io::Error::other("what was sent did not arrive"));
    }
    Ok(sent.len() as f64 / last.duration_since(first).as_secs_f64() / 1e6)
}

/// The best rate of several transfers that take some seconds each.
fn best(world: &World, way: &Way) -> io::Result<(f64, usize)> {
    let first = rate(world, way, &data(LEAST))?;
    let count = ((first * 1e6 * SECONDS) as usize).clamp(LEAST, MOST);
    let sent = data(count);
    let mut best = 0.0_f64;
    for _ in 0..TIMES {
        best = best.max(rate(world, way, &sent)?);
    }
    Ok((best, count))
}

fn row(name: &str, measured: Option<(f64, usize)>) {
    if let Some((rate, count)) = measured {
        println!("{name:<36} {rate:>12.2} {:>12.1}", count as f64 / 1e6);
    }
}

/// From host to host on one network.
fn direct(world: &World, buffers: u16) -> io::Result<(f64, usize)> {
    let listener = Host {
        network: "00000033",
        address: "127.0.2.6",
        router: "127.0.2.5",
        peers: &["127.0.2.7"],
        buffers,
    };
    let sender = Host {
        address: "127.0.2.7",
        peers: &[],
        ..listener
    };
    let way = Way {
        listener: &world.host(&listener)?,
        sender: &world.host(&sender)?,
        network: "00000033",
        node: hex(&node("127.0.2.6")),
    };
    best(world, &way)
}

/// From a host of one site to one of the other, over both routers.
fn routed(world: &World, buffers: u16) -> io::Result<(f64, usize)> {
    let routers = sites().map(|(name, ports)| world.router(name, &ports));
    let _routers = routers.into_iter().collect::<io::Result<Vec<_>>>()?;
    thread::sleep(Duration::from_secs(4));
    let way = Way {
        listener: &world.host(&far_host(buffers))?,
        sender: &world.host(&near_host(buffers))?,
        network: "00000022",
        node: hex(&node("127.0.2.30")),
    };
    best(world, &way)
}

/// Prints a row for each way and number of buffers.
pub fn print(world: &World) {
    println!(
        "{:<36} {:>12} {:>12}",
        "a transfer, by processes", "MB a second", "MB"
    );
    for buffers in [64, 96] {
        let name = format!("host to host, {buffers} buffers");
        row(&name, or_say(&name, direct(world, buffers)));
        let name = format!("over two routers, {buffers} buffers");
        row(&name, or_say(&name, routed(world, buffers)));
    }
}
