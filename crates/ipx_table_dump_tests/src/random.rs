//! After each of 200 random advertisements the text is that of a plain list of the last ones.

use crate::fixture::{PORT, route};
use ipx_table_dump::tables_to_text;
use ipx_tables::{Source, route_table, service_table};
use ipx_wire::{Network, Node};
use std::alloc::{AllocError, Global};
use std::test::Fail;

/// The last advertisement of a network by a neighbour.
#[derive(Clone, Copy)]
struct Word {
    network: u32,
    port: u8,
    node: u8,
    hops: u16,
    ticks: u16,
    heard: u64,
}

impl Word {
    fn is_of(&self, network: u32, port: u8, node: u8) -> bool {
        self.network == network && self.port == port && self.node == node
    }

    fn counts(&self, now: u64) -> bool {
        now - self.heard < 180_000
    }

    /// By ticks, hops, port and node.
    fn rank(&self) -> (u16, u16, u8, u8) {
        (self.ticks, self.hops, self.port, self.node)
    }

    fn line(&self, alloc: Global, best: bool, now: u64) -> Result<String, AllocError> {
        let (network, port, node) = (self.network, self.port, self.node);
        let (hops, ticks) = (self.hops, self.ticks);
        let seconds = (now - self.heard) / 1000;
        let end = if best { "" } else { " spare" };
        format!(in alloc;
            "{network:08x} port {port} next 00007f0000{node:02x} \
            hops {hops} ticks {ticks} heard {seconds}{end}\n"
        )
    }
}

/// A random number below `most`.
fn draw(seed: &mut u32, most: u32) -> u32 {
    *seed = seed.wrapping_mul(1_664_525).wrapping_add(1_013_904_223);
    (*seed >> 16) % most
}

/// Appends the line of an offer. It is marked as best unless another offer of its network that
/// counts is better.
fn put_line(
    alloc: Global,
    lines: &mut String,
    said: &[Word],
    word: &Word,
    now: u64,
) -> Result<(), AllocError> {
    let mut best = true;
    for other in said {
        if other.network == word.network && other.counts(now) && other.rank() < word.rank() {
            best = false;
        }
    }
    let line = word.line(alloc, best, now)?;
    lines.push_str(&line)
}

/// The lines of networks, and how many there are.
fn network_lines(alloc: Global, said: &[Word], now: u64) -> Result<(String, usize), AllocError> {
    let mut lines = String::new(alloc);
    let mut count: usize = 0;
    for place in 0..72u32 {
        let (network, port, node) = (place / 12, (place / 4 % 3) as u8, (place % 4) as u8);
        for word in said {
            if word.is_of(network, port, node) && word.counts(now) {
                put_line(alloc, &mut lines, said, word, now)?;
                count += 1;
            }
        }
    }
    Ok((lines, count))
}

/// The lines of neighbours, and how many there are.
fn neighbour_lines(alloc: Global, said: &[Word], now: u64) -> Result<(String, usize), AllocError> {
    let mut lines = String::new(alloc);
    let mut count: usize = 0;
    for place in 0..12u8 {
        let (port, node) = (place / 4, place % 4);
        let mut networks: usize = 0;
        let mut heard = 0;
        for word in said {
            if word.port == port && word.node == node && word.counts(now) {
                networks += 1;
                heard = heard.max(word.heard);
            }
        }
        if networks > 0 {
            let seconds = (now - heard) / 1000;
            let line = format!(in alloc;
                "port {port} 00007f0000{node:02x} networks {networks} \
                services 0 heard {seconds}\n"
            )?;
            lines.push_str(&line)?;
            count += 1;
        }
    }
    Ok((lines, count))
}

fn wanted_text(alloc: Global, said: &[Word], now: u64) -> Result<String, AllocError> {
    let (networks, known) = network_lines(alloc, said, now)?;
    let (neighbours, advertisers) = neighbour_lines(alloc, said, now)?;
    let all = known + 1;
    format!(in alloc;
        "networks {all}\n00000001 own port 1 cost 6\n{networks}services 0\n\
        neighbours {advertisers}\n{neighbours}"
    )
}

/// A random advertisement at a time: one of six networks, by one of twelve neighbours.
fn draw_word(seed: &mut u32, heard: u64) -> Word {
    Word {
        network: draw(seed, 6),
        port: draw(seed, 3) as u8,
        node: draw(seed, 4) as u8,
        hops: draw(seed, 17) as u16,
        ticks: draw(seed, 9) as u16,
        heard,
    }
}

#[test]
fn random_hearings(rt: HostRuntime) -> Result<(), Fail> {
    let alloc = rt.alloc();
    let (mut routes, services) = (route_table(alloc), service_table(alloc));
    let mut said: Vec<Word> = Vec::new(alloc);
    let mut seed: u32 = 41;
    let mut now: u64 = 0;
    for _ in 0..200u32 {
        now += u64::from(draw(&mut seed, 8_000));
        let word = draw_word(&mut seed, now);
        let source = Source {
            port: word.port,
            neighbour: Node([0, 0, 0x7f, 0, 0, word.node]),
        };
        let metric = route(word.ticks, word.hops);
        routes.hear(alloc, Network(word.network), source, metric, now)?;
        said.retain(|other| !other.is_of(word.network, word.port, word.node));
        if word.hops < 16 {
            said.push(word)?;
        }
        let text = tables_to_text(alloc, &[PORT], &routes, &services, now)?;
        let wanted = wanted_text(alloc, &said, now)?;
        assert_eq!(rt; text.as_str(), wanted.as_str());
    }
    Ok(())
}
