//! Calls of a device and of a router's cores if memory is refused. Run them with each request
//! refused.

use crate::refused::{core_at_last, device_at_last, priority_core_at_last};
use ipx_carrier::{Core, Datagrams, DeviceFault, MemoryDatagrams};
use ipx_wire::{Node, OutOfMemory};
use std::alloc::Global;
use std::process::Abort;
use std::test::Fail;

/// A packet from network 11 to node 00007f000005 of network 22, which is forwarded by port 1.
const ONWARD: &[u8] = b"ffff001e00000000002200007f00000540000000001100007f0000034001";

/// A request for all routes from node 00007f000003 of network 11, which is answered.
const REQUEST: &[u8] =
    b"ffff0028000100000011ffffffffffff04530000001100007f00000304530001ffffffffffffffff";

/// Bytes in hex, decoded once more if memory was refused.
fn bytes_at_last(alloc: Global, text: &[u8]) -> Result<Vec<u8>, Fail> {
    match hex::decode(alloc, text) {
        Ok(bytes) => Ok(bytes),
        Err(_) => Ok(hex::decode(alloc, text)?),
    }
}

fn put(alloc: Global, device: &mut MemoryDatagrams) -> Result<(), OutOfMemory> {
    if device.ports() == 0 {
        return Ok(());
    }
    device.put(alloc, 0, b"abc")
}

/// Asks port 0 for a datagram.
fn ask(device: &mut MemoryDatagrams, room: &mut [u8]) -> Result<Option<usize>, DeviceFault> {
    if device.ports() == 0 || device.failures() > 1000 {
        return Ok(None);
    }
    device.receive(0, room)
}

/// The same, once more if memory was refused.
fn ask_at_last(
    device: &mut MemoryDatagrams,
    room: &mut [u8],
) -> Result<Option<usize>, DeviceFault> {
    match ask(device, room) {
        Ok(count) => Ok(count),
        Err(_) => ask(device, room),
    }
}

/// What is not put does not wait, and what is put waits once.
#[test]
fn refused_put(rt: HostRuntime) -> Result<(), Fail> {
    let alloc = rt.alloc();
    let mut device = device_at_last(alloc)?;
    let mut room = [0; 16];
    if put(alloc, &mut device).is_err() {
        assert!(rt; ask(&mut device, &mut room)? == None);
        put(alloc, &mut device)?;
    }
    assert!(rt; ask_at_last(&mut device, &mut room)? == Some(3));
    assert!(rt; room[..3] == b"abc"[..]);
    assert!(rt; ask_at_last(&mut device, &mut room)? == None);
    Ok(())
}

fn hear<C: Core>(alloc: Global, core: &mut C, bytes: &[u8]) -> Result<(), OutOfMemory> {
    if core.ports() == 0 {
        return Ok(());
    }
    core.hear(alloc, 0, bytes, 0)
}

/// The next packet: its port, its node and its length.
fn next<C: Core>(alloc: Global, core: &mut C) -> Result<Option<(usize, Node, usize)>, OutOfMemory> {
    let mut room = [0; 1536];
    core.next(alloc, 0, &mut room)
}

/// The same, asked once more if memory was refused.
fn next_at_last<C: Core>(
    alloc: Global,
    core: &mut C,
) -> Result<Option<(usize, Node, usize)>, OutOfMemory> {
    match next(alloc, core) {
        Ok(given) => Ok(given),
        Err(_) => next(alloc, core),
    }
}

/// What a core sends for these bytes: this packet, or none if memory was refused. The core then
/// receives the bytes once more, after it gave the first packet of its own. The packet leaves after
/// this many other packets of its own.
fn comes_of<C: Core + Drop>(
    alloc: Global,
    mut core: C,
    text: &[u8],
    packet: (usize, Node, usize),
    others: u32,
) -> Result<bool, Fail> {
    let bytes = bytes_at_last(alloc, text)?;
    if hear(alloc, &mut core, &bytes).is_ok() {
        return Ok(next_at_last(alloc, &mut core)? == Some(packet));
    }
    // The first of the six packets of its own, which asks for all routes on port 0.
    let first = next(alloc, &mut core)?;
    hear(alloc, &mut core, &bytes)?;
    let mut last = None;
    for _ in 0..=others {
        last = next(alloc, &mut core)?;
    }
    Ok(first == Some((0, Node::BROADCAST, 40)) && last == Some(packet))
}

/// The packet that is forwarded, and the one that answers the request.
const FORWARDED: (usize, Node, usize) = (1, Node([0, 0, 0x7f, 0, 0, 5]), 30);

const ANSWER: (usize, Node, usize) = (0, Node([0, 0, 0x7f, 0, 0, 3]), 40);

/// It waits after the five other packets of the start.
#[test]
fn refused_hear_of_a_packet_to_be_forwarded(rt: HostRuntime) -> Result<(), Fail> {
    let core = core_at_last(rt.alloc())?;
    assert!(rt; comes_of(rt.alloc(), core, ONWARD, FORWARDED, 5)?);
    Ok(())
}

#[test]
fn refused_hear_of_a_request_that_is_answered(rt: HostRuntime) -> Result<(), Fail> {
    let core = core_at_last(rt.alloc())?;
    assert!(rt; comes_of(rt.alloc(), core, REQUEST, ANSWER, 5)?);
    Ok(())
}

/// It waits after none of them.
#[test]
fn refused_hear_of_a_packet_to_be_forwarded_first(rt: HostRuntime) -> Result<(), Fail> {
    let core = priority_core_at_last(rt.alloc())?;
    assert!(rt; comes_of(rt.alloc(), core, ONWARD, FORWARDED, 0)?);
    Ok(())
}

#[test]
fn refused_hear_of_a_request_by_priority(rt: HostRuntime) -> Result<(), Fail> {
    let core = priority_core_at_last(rt.alloc())?;
    assert!(rt; comes_of(rt.alloc(), core, REQUEST, ANSWER, 5)?);
    Ok(())
}

/// If memory runs out for the packets of the start, a forwarded packet still leaves.
fn leaves_after_refused<C: Core>(rt: &impl Abort, alloc: Global, core: &mut C) -> Result<(), Fail> {
    let bytes = bytes_at_last(alloc, ONWARD)?;
    if hear(alloc, core, &bytes).is_err() {
        hear(alloc, core, &bytes)?;
    }
    assert!(rt; next_at_last(alloc, core)? == Some(FORWARDED));
    Ok(())
}

#[test]
fn refused_next_after_what_is_forwarded(rt: HostRuntime) -> Result<(), Fail> {
    let mut core = core_at_last(rt.alloc())?;
    leaves_after_refused(&rt, rt.alloc(), &mut core)
}

#[test]
fn refused_next_after_what_is_forwarded_first(rt: HostRuntime) -> Result<(), Fail> {
    let mut core = priority_core_at_last(rt.alloc())?;
    leaves_after_refused(&rt, rt.alloc(), &mut core)
}
