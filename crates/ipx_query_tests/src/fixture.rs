//! A host at node 00007f000009, socket 4003, of network 11, and two routers there.

use ipx_carrier::Core;
use ipx_query::{QueryCore, TableQuery};
use ipx_wire::{Address, Network, Node, OutOfMemory, Socket};
use std::alloc::Global;
use std::test::Fail;

pub const OWN: Address = Address {
    network: Network(0x11),
    node: Node([0, 0, 0x7f, 0, 0, 9]),
    socket: Socket(0x4003),
};

pub const FIRST: Node = Node([0, 0, 0x7f, 0, 0, 1]);

pub const SECOND: Node = Node([0, 0, 0x7f, 0, 0, 2]);

/// The host, which asks both routers.
pub fn host(alloc: Global, question: TableQuery) -> Result<QueryCore, OutOfMemory> {
    QueryCore::new(alloc, OWN, question, &[FIRST, SECOND])
}

/// What the host gives at a given time, in hex, after the last byte of the node that it is sent to.
pub fn given(alloc: Global, core: &mut QueryCore, now: u64) -> Result<Option<String>, Fail> {
    let mut room = [0; 1536];
    let Some((port, node, count)) = core.next(alloc, now, &mut room)? else {
        return Ok(None);
    };
    let text = hex::encode(alloc, &room[..count])?;
    let last = node.0[5];
    Ok(Some(format!(in alloc; "{port} {last} {text}")?))
}

/// The host gives this text at a given time, or nothing if the text is empty.
pub fn gives(alloc: Global, core: &mut QueryCore, now: u64, wanted: &str) -> Result<bool, Fail> {
    match given(alloc, core, now)? {
        None => Ok(wanted.is_empty()),
        Some(text) => Ok(text.as_str() == wanted),
    }
}

/// The host asks both routers at time 0.
pub fn asked(alloc: Global, question: TableQuery) -> Result<QueryCore, Fail> {
    let mut core = host(alloc, question)?;
    given(alloc, &mut core, 0)?;
    given(alloc, &mut core, 0)?;
    Ok(core)
}

/// The host receives a packet in hex at a given time.
pub fn hear(alloc: Global, core: &mut QueryCore, text: &str, now: u64) -> Result<(), Fail> {
    let bytes = hex::decode(alloc, text)?;
    core.hear(alloc, 0, &bytes, now)?;
    Ok(())
}

/// A RIP response from the first router to the host, of `count` routes: to the network 01000000 and
/// the next ones, by 1 hop and 2 ticks.
pub fn routes_from(alloc: Global, first: u16, count: u16) -> Result<Vec<u8>, Fail> {
    let head = "ffff0000000100000011000000000000400300000011000000000000045300020000";
    let mut bytes = hex::decode(alloc, &head[..64])?;
    bytes[2..4].copy_from_slice(&(32 + 8 * count).to_be_bytes());
    bytes[10..16].copy_from_slice(&OWN.node.0);
    bytes[22..28].copy_from_slice(&FIRST.0);
    for place in first..first + count {
        for byte in [1, 0, (place >> 8) as u8, (place & 0xff) as u8, 0, 1, 0, 2] {
            bytes.push(byte)?;
        }
    }
    Ok(bytes)
}
