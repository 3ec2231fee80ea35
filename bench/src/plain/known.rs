//! What a router knows, as a text.

use super::offers::{Offer, Source};
use super::router::Router;
use super::wire::Node;
use std::collections::BTreeMap;
use std::fmt::Write;

/// How many networks and services a neighbour told, and when the last of them.
type Tellers = BTreeMap<Source, (usize, usize, u64)>;

fn hex(node: Node) -> String {
    node.0.iter().map(|byte| format!("{byte:02x}")).collect()
}

/// The name of a service, as it is printed.
fn shown(name: &[u8]) -> String {
    let bytes = name.split(|byte| *byte == 0).next().unwrap_or(&[]);
    if bytes.is_empty() {
        return "-".to_owned();
    }
    let mut text = String::new();
    for byte in bytes {
        match byte {
            b'\\' => text.push_str("\\x5c"),
            0x21..=0x7e => text.push(char::from(*byte)),
            _ => drop(write!(text, "\\x{byte:02x}")),
        }
    }
    text
}

fn by(source: Source) -> String {
    format!("port {} next {}", source.port, hex(source.neighbour))
}

fn end<M>(offer: &Offer<M>, best: bool, now: u64) -> String {
    let seconds = now.saturating_sub(offer.heard) / 1000;
    format!(" heard {seconds}{}", if best { "" } else { " spare" })
}

/// Notes that a neighbour told something, and answers what it told.
fn note<'a, M>(tellers: &'a mut Tellers, offer: &Offer<M>) -> &'a mut (usize, usize, u64) {
    let teller = tellers.entry(offer.source).or_default();
    teller.2 = teller.2.max(offer.heard);
    teller
}

impl Router {
    fn networks(&self, tellers: &mut Tellers, now: u64) -> String {
        let standing = self.routes.standing(now);
        let mut text = format!("networks {}\n", self.ports.len() + standing.len());
        for (number, port) in self.ports.iter().enumerate() {
            let (network, cost) = (port.network.0, port.cost);
            let _ = writeln!(text, "{network:08x} own port {} cost {cost}", number + 1);
        }
        for (key, offer, best) in &standing {
            note(tellers, offer).0 += 1;
            let (by, end, metric) = (by(offer.source), end(offer, *best, now), offer.metric);
            let (hops, ticks) = (metric.hops, metric.ticks);
            let _ = writeln!(text, "{:08x} {by} hops {hops} ticks {ticks}{end}", key.0);
        }
        text
    }

    fn services(&self, tellers: &mut Tellers, now: u64) -> String {
        let standing = self.services.standing(now);
        let mut text = format!("services {}\n", standing.len());
        for (key, offer, best) in &standing {
            note(tellers, offer).1 += 1;
            let (name, at, hops) = (shown(&key.name), offer.metric.at, offer.metric.hops);
            let (node, by, end) = (hex(at.node), by(offer.source), end(offer, *best, now));
            let (kind, network, socket) = (key.kind, at.network.0, at.socket.0);
            let place = format!("{network:08x} {node} {socket:04x}");
            let _ = writeln!(text, "{kind:04x} {name} at {place} {by} hops {hops}{end}");
        }
        text
    }

    /// All of it at a moment.
    pub fn text(&self, now: u64) -> String {
        let mut tellers = Tellers::new();
        let mut text = self.networks(&mut tellers, now);
        text.push_str(&self.services(&mut tellers, now));
        let _ = writeln!(text, "neighbours {}", tellers.len());
        for (source, (networks, services, heard)) in &tellers {
            let (port, node) = (source.port, hex(source.neighbour));
            let seconds = now.saturating_sub(*heard) / 1000;
            let _ = write!(text, "port {port} {node} networks {networks}");
            let _ = writeln!(text, " services {services} heard {seconds}");
        }
        text
    }
}
