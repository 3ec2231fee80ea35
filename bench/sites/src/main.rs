//! The program `ipx` as processes over the loopback: packets and frames a second through a router,
//! beside a plain loop of `recv_from` and `send_to`; a transfer, from host to host and over two
//! routers; and of routers of up to sixteen ports how long a packet is on its way, idle and while
//! tables change, what they take that have nothing to do, their memory, and how long one that
//! starts knows less than its neighbour; and broadcasts of players, beside DOSBox's own server.
//!
//! Its first argument is the program. After it, words narrow what is measured: `packets`,
//! `transfers`, `tables`, `ports`, `players`, which needs the program dosbox; and `old` adds to
//! `tables` a last row, three minutes later, as what fills them grows old. It takes some seven
//! minutes, and leaves no process behind.

mod alone;
mod area;
mod asker;
mod busy;
mod client;
mod floor;
mod game;
mod idle;
mod ipx;
mod load;
mod memory;
mod packets;
mod players;
mod ports;
mod restart;
mod sixteen;
mod sockets;
mod stream;
mod tables;
mod times;
mod transfer;
mod way;
mod world;

use busy::Span;
use idle::Quiet;
use std::path::PathBuf;
use world::{Host, Port, World};

/// The words that narrow what is measured, and the one that adds to it.
const PARTS: [&str; 5] = ["packets", "transfers", "tables", "ports", "players"];
const OLD: &str = "old";

/// Runs a row's measurement, or says why there is none.
fn or_say<T>(what: &str, measured: std::io::Result<T>) -> Option<T> {
    match measured {
        Ok(row) => Some(row),
        Err(error) => {
            println!("{what}: not measured: {error}");
            None
        }
    }
}

fn main() {
    let words = std::env::args().skip(1).collect::<Vec<_>>();
    if words.first().is_some_and(|word| word == "floor") {
        floor::forward(&words[1..]).expect("the plain loop runs");
        return;
    }
    let (program, parts) = words
        .split_first()
        .expect("the first argument is the program ipx");
    let unknown = parts
        .iter()
        .find(|part| !PARTS.contains(&part.as_str()) && *part != OLD);
    assert_eq!(unknown, None, "the words are {PARTS:?} and {OLD}");
    let world = World::new(PathBuf::from(program)).expect("a folder, and a free port of UDP");
    print(&world, parts);
}

/// Prints the parts that are asked for, and all where none is.
fn print(world: &World, parts: &[String]) {
    let is_old = parts.iter().any(|part| part == OLD);
    let has = |name| parts.iter().all(|part| part == OLD) || parts.iter().any(|part| part == name);
    if has("packets") {
        packets::print(world);
        println!();
    }
    if has("transfers") {
        transfer::print(world);
        println!();
    }
    let quiet = if has("tables") {
        print_tables(world)
    } else {
        None
    };
    let quiet = quiet.filter(|_| is_old);
    if has("ports") {
        ports::print(world);
        println!();
    }
    if has("players") {
        players::print(world);
        println!();
    }
    if let Some((quiet, told)) = quiet {
        busy::print_head();
        busy::print_ageing(&quiet.full, told);
    }
}

/// What comes of tables, and of having nothing to do. While some processes have nothing to do, others
/// are measured. It answers those, which go on, and from when to when tables were filled.
fn print_tables(world: &World) -> Option<(Quiet, Span)> {
    let quiet = or_say("what has nothing to do", Quiet::start(world))?;
    alone::print(world);
    println!();
    // Some seconds behind the start, or what fills tables would grow old as it is told again.
    let told = or_say("full tables", quiet.full.fill())?;
    memory::print_head();
    memory::print_row("empty", &quiet.empty.router);
    memory::print_row("1,024 networks, 4,096 services", &quiet.full.router);
    println!();
    restart::print(world);
    println!();
    quiet.print();
    println!();
    busy::print(world);
    busy::print_telling(world, &quiet.full);
    println!();
    memory::print_head();
    memory::print_row("told to 15 ports once", &quiet.full.router);
    memory::print_asked(world, &quiet.full);
    println!();
    Some((quiet, told))
}

/// The routers of two sites and the network between them: the hosts 127.0.2.20 of network 11 and
/// 127.0.2.30 of network 22.
pub fn sites() -> [(&'static str, [Port; 2]); 2] {
    [
        (
            "r1",
            [
                Port::new(0x11, "127.0.2.1", ["127.0.2.20"]),
                Port::new(0x1, "127.0.2.2", ["127.0.2.3"]),
            ],
        ),
        (
            "r2",
            [
                Port::new(0x1, "127.0.2.3", ["127.0.2.2"]),
                Port::new(0x22, "127.0.2.4", ["127.0.2.30"]),
            ],
        ),
    ]
}

/// The host of network 11.
pub fn near_host(buffers: u16) -> Host<'static> {
    Host {
        network: "00000011",
        address: "127.0.2.20",
        router: "127.0.2.1",
        peers: &[],
        buffers,
    }
}

/// The host of network 22.
pub fn far_host(buffers: u16) -> Host<'static> {
    Host {
        network: "00000022",
        address: "127.0.2.30",
        router: "127.0.2.4",
        peers: &[],
        buffers,
    }
}
