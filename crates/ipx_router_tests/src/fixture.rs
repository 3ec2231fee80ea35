//! The router of the tests, and its answers as text.

ghost use Rattle.std.specs.Prelude.{◌≡◌};

use ipx_router::{NewFault, Outcome, Port, Reply, Router};
use ipx_wire::{Network, Node, OutOfMemory};
use std::alloc::Global;
use std::test::Fail;

fn node(last: u8) -> Node {
    Node([0, 0, 0x7f, 0, 0, last])
}

/// A port with a node 00007f0000xx.
pub fn port(network: u32, last: u8, cost: u16) -> Port
    ensures { result.network.0 ≡ network }
{
    Port {
        network: Network(network),
        node: node(last),
        cost,
    }
}

/// The router with ports on networks 11, 22 and 33.
pub fn three_ports(alloc: Global) -> Result<Router, NewFault> {
    let Ok(ports) = vec![in alloc; port(0x11, 1, 1), port(0x22, 2, 2), port(0x33, 6, 1)] else {
        return Err(NewFault::OutOfMemory);
    };
    Router::new(alloc, ports)
}

/// What the router answers to a packet in hex. If the text is no hex or the port does not exist,
/// that is reported as out of memory.
pub fn answer(
    alloc: Global,
    router: &mut Router,
    number: u8,
    text: &str,
    now: u64,
) -> Result<Outcome, OutOfMemory> {
    let Ok(bytes) = hex::decode(alloc, text.as_bytes()) else {
        return Err(OutOfMemory);
    };
    if number == 0 || number as usize > router.ports().len() {
        return Err(OutOfMemory);
    }
    router.receive(alloc, number, &bytes, now)
}

/// A packet as text: port, next node and bytes in hex, a line.
pub fn line_of(alloc: Global, reply: &Reply) -> Result<String, Fail> {
    let number = reply.port;
    let next = hex::encode(alloc, reply.next.0)?;
    let bytes = hex::encode(alloc, reply.bytes.as_slice())?;
    Ok(format!(in alloc; "{number} {next} {bytes}\n")?)
}

/// Packets as text, a line each.
pub fn text_of(alloc: Global, replies: &[Reply]) -> Result<String, Fail> {
    let mut text = String::new(alloc);
    for reply in replies {
        text.push_str(&line_of(alloc, reply)?)?;
    }
    Ok(text)
}

/// The text of the packets that answer a packet, or no text.
pub fn replies_to(
    alloc: Global,
    router: &mut Router,
    number: u8,
    text: &str,
) -> Result<String, Fail> {
    match answer(alloc, router, number, text, 0)? {
        Outcome::Replies(replies) => text_of(alloc, &replies),
        _ => Ok(String::from_str(alloc, "no replies")?),
    }
}

/// The packet that is forwarded, as text, or no text.
pub fn onward_text(alloc: Global, outcome: &Outcome) -> Result<String, Fail> {
    match outcome {
        Outcome::Forward(reply) => line_of(alloc, reply),
        _ => Ok(String::new(alloc)),
    }
}

/// What the router advertises, as text.
pub fn told_text(alloc: Global, router: &mut Router, now: u64) -> Result<String, Fail> {
    text_of(alloc, &router.tell(alloc, now)?)
}

/// Whether the router learns so many entries of a packet on port 2.
pub fn hears(alloc: Global, router: &mut Router, text: &str, count: usize) -> Result<bool, Fail> {
    match answer(alloc, router, 2, text, 0)? {
        Outcome::Heard(heard) => Ok(heard as usize == count),
        _ => Ok(false),
    }
}

/// The length of each packet that answers a packet. An answer that is no reply counts as one packet
/// of 0.
pub fn lengths(
    alloc: Global,
    router: &mut Router,
    number: u8,
    text: &str,
) -> Result<Vec<usize>, Fail> {
    match answer(alloc, router, number, text, 0)? {
        Outcome::Replies(replies) => {
            let lengths = replies
                .iter()
                .map(|reply| reply.bytes.len())
                .collect::<Vec<usize>>(alloc)?;
            Ok(lengths)
        }
        _ => Ok(vec![in alloc; 0; 1]?),
    }
}

/// Network 44, 1 hop, 3 ticks, from node 00007f000009 of network 22.
pub const NETWORK_44: &str =
    "ffff0028000100000022ffffffffffff04530000002200007f000009045300020000004400010003";

/// A packet from network 11 to network 44.
pub const TO_NETWORK_44: &str = "ffff001e00000000004400007f00000540000000001100007f0000034001";
