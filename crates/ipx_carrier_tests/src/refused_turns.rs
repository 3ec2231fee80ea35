//! A turn of each of two routers if memory is refused. It checks the packets up to there, which
//! fault it is, and what the core still sends in its next turn. Run it with each request refused.
//!
//! The first router has ports on networks 11 and 22, the second on 22 and 33. The second receives
//! the request for routes that the first one sends.

use crate::fixture::{next_ports, one_peer_each, one_turn, two_ports};
use crate::refused::device_at_last;
use crate::turns::SIX;
use ipx_carrier::{Datagrams, MemoryDatagrams, RouterCore, RunFault, SentDatagram};
use ipx_wire::OutOfMemory;
use std::alloc::Global;
use std::test::Fail;

/// What the second router sends. The route to network 33 answers the request. Then it asks and
/// advertises on each port, as the first one does.
const SEVEN: [&str; 7] = [
    "0 2 ffff002800010000002200007f00000204530000002200007f000004045300020000003300010001",
    "0 9 ffff0028000100000022ffffffffffff04530000002200007f00000404530001ffffffffffffffff",
    "0 9 ffff0022000400000022ffffffffffff04520000002200007f00000404520001ffff",
    "1 8 ffff0028000100000033ffffffffffff04530000003300007f00000604530001ffffffffffffffff",
    "1 8 ffff0022000400000033ffffffffffff04520000003300007f00000604520001ffff",
    "0 9 ffff0028000100000022ffffffffffff04530000002200007f000004045300020000003300010001",
    "1 8 ffff0028000100000033ffffffffffff04530000003300007f000006045300020000002200010001",
];

/// What may be lost of the packets of a core if out of memory: the position of the first one lost,
/// and how many. That is what it was about to queue. An advertisement that the router refuses is
/// not lost: it is still due.
const LOST_BY_FIRST: [(usize, usize); 3] = [(0, 0), (0, 4), (4, 2)];

const LOST_BY_SECOND: [(usize, usize); 4] = [(0, 0), (0, 1), (1, 4), (5, 2)];

/// A router with its device and the peers of its ports.
#[derive(Drop)]
struct Member {
    core: RouterCore,
    device: MemoryDatagrams,
    peers: Vec<Vec<[u8; 4]>>,
}

/// An expected datagram: the port, the last byte of the address, and the bytes.
#[derive(Drop)]
struct Wanted {
    port: u8,
    last: u8,
    bytes: Vec<u8>,
}

fn new_member(alloc: Global, core: RouterCore) -> Result<Member, OutOfMemory> {
    Ok(Member {
        core,
        device: device_at_last(alloc)?,
        peers: match one_peer_each(alloc) {
            Ok(peers) => peers,
            Err(_) => one_peer_each(alloc)?,
        },
    })
}

/// The first router, made once more if memory was refused.
fn first_at_last(alloc: Global) -> Result<Member, OutOfMemory> {
    match two_ports(alloc) {
        Ok(core) => new_member(alloc, core),
        Err(_) => new_member(alloc, two_ports(alloc)?),
    }
}

/// The second router, made once more if memory was refused.
fn second_at_last(alloc: Global) -> Result<Member, OutOfMemory> {
    match next_ports(alloc) {
        Ok(core) => new_member(alloc, core),
        Err(_) => new_member(alloc, next_ports(alloc)?),
    }
}

/// The datagram that a text describes: a port, a blank, the last byte of an address, a blank, and
/// bytes in hex.
fn wanted_of(alloc: Global, text: &str) -> Result<Wanted, Fail> {
    let text = text.as_bytes();
    let digits = text.get(4..).unwrap_or(&[]);
    let bytes = match hex::decode(alloc, digits) {
        Ok(bytes) => bytes,
        Err(_) => hex::decode(alloc, digits)?,
    };
    let port = text.first().map_or(9, |digit| digit.wrapping_sub(b'0'));
    let last = text.get(2).map_or(9, |digit| digit.wrapping_sub(b'0'));
    Ok(Wanted { port, last, bytes })
}

fn add_wanted(alloc: Global, all: &mut Vec<Wanted>, text: &str) -> Result<(), Fail> {
    let one = wanted_of(alloc, text)?;
    if all.len() < all.capacity() {
        all.push(one)?;
    }
    Ok(())
}

fn room_at_last(alloc: Global) -> Result<Vec<Wanted>, Fail> {
    match Vec::with_capacity(alloc, 7) {
        Ok(room) => Ok(room),
        Err(_) => Ok(Vec::with_capacity(alloc, 7)?),
    }
}

/// The datagrams that these texts describe.
fn all_wanted(alloc: Global, texts: &[&str]) -> Result<Vec<Wanted>, Fail> {
    let mut all = room_at_last(alloc)?;
    for text in texts {
        add_wanted(alloc, &mut all, *text)?;
    }
    Ok(all)
}

fn is_awaited(sent: &SentDatagram, wanted: &Wanted) -> bool {
    let here = sent.port == wanted.port as usize && sent.to == [127, 0, 0, wanted.last];
    here && sent.bytes.as_slice() == wanted.bytes.as_slice()
}

/// Whether the datagrams are the expected ones, without `count` of them from position `from`.
fn are_all_but(sent: &[SentDatagram], wanted: &[Wanted], from: usize, count: usize) -> bool {
    let mut rest = sent.iter();
    for (place, one) in wanted.iter().enumerate() {
        let is_left_out = place >= from && place - from < count;
        if !is_left_out
            && !rest
                .next()
                .is_some_and(|datagram| is_awaited(datagram, one))
        {
            return false;
        }
    }
    rest.next().is_none()
}

fn turn(alloc: Global, member: &mut Member) -> Result<(), RunFault> {
    let report = one_turn(alloc, &mut member.core, &mut member.device, &member.peers)?;
    if report.turns == 1 {
        Ok(())
    } else {
        Err(RunFault::Device)
    }
}

/// Whether the device failed once. Then only the datagram that it was to send is lost, or the one
/// that it was to receive still waits.
fn lost_one(alloc: Global, member: &mut Member, wanted: &[Wanted]) -> Result<bool, Fail> {
    let before = member.device.sent().len();
    let failed = member.device.failures() == 1;
    turn(alloc, member)?;
    let sent = member.device.sent();
    let all = before == 0 && are_all_but(sent, wanted, 0, 0);
    Ok(failed && (all || are_all_but(sent, wanted, before, 1)))
}

/// Whether the core ran out of memory: nothing was sent, the device did not fail, and what is lost
/// is one of these.
fn lost_some(
    alloc: Global,
    member: &mut Member,
    wanted: &[Wanted],
    lost: &[(usize, usize)],
) -> Result<bool, Fail> {
    let quiet = member.device.sent().is_empty() && member.device.failures() == 0;
    turn(alloc, member)?;
    let sent = member.device.sent();
    let known = lost
        .iter()
        .any(|(from, count)| are_all_but(sent, wanted, *from, *count));
    Ok(quiet && known)
}

/// Whether a member continues correctly after a fault.
fn goes_on(
    alloc: Global,
    member: &mut Member,
    fault: RunFault,
    wanted: &[Wanted],
    lost: &[(usize, usize)],
) -> Result<bool, Fail> {
    match fault {
        RunFault::Device => lost_one(alloc, member, wanted),
        RunFault::OutOfMemory => lost_some(alloc, member, wanted, lost),
    }
}

/// Takes a turn, and another one if memory was refused.
fn is_by_the_rules(
    alloc: Global,
    member: &mut Member,
    wanted: &[Wanted],
    lost: &[(usize, usize)],
) -> Result<bool, Fail> {
    match turn(alloc, member) {
        Ok(()) => Ok(are_all_but(member.device.sent(), wanted, 0, 0)),
        Err(fault) => goes_on(alloc, member, fault, wanted, lost),
    }
}

/// Puts the request for routes that the first router sends on network 22 to the second one.
fn put_request(alloc: Global, second: &mut Member) -> Result<(), Fail> {
    let request = wanted_of(alloc, SIX[2])?;
    if second.device.ports() != 2 {
        return Ok(());
    }
    if second.device.put(alloc, 0, &request.bytes).is_err() {
        second.device.put(alloc, 0, &request.bytes)?;
    }
    Ok(())
}

#[test]
fn refused_turns_of_two_routers(rt: HostRuntime) -> Result<(), Fail> {
    let alloc = rt.alloc();
    let mut first = first_at_last(alloc)?;
    let mut second = second_at_last(alloc)?;
    let six = all_wanted(alloc, &SIX)?;
    let seven = all_wanted(alloc, &SEVEN)?;
    assert!(rt; is_by_the_rules(alloc, &mut first, &six, &LOST_BY_FIRST)?);
    put_request(alloc, &mut second)?;
    assert!(rt; is_by_the_rules(alloc, &mut second, &seven, &LOST_BY_SECOND)?);
    Ok(())
}
