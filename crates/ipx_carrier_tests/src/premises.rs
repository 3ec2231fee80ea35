//! What each premise of the theorem on separate hosts and routers is for. Without it, an end hands
//! out what its peer never handed in, and the peer sees all acknowledged.

use crate::connections::first_wrong;
use crate::processes::{Process, port};
use crate::sites::Site;
use ipx_wire::{Network, Node};
use spx_messages::{Message, Taken};
use std::alloc::Global;
use std::process::Abort;
use std::test::Fail;

/// The caller on network 11, the router, and the called host on network 22.
const CALLER: usize = 0;

const ROUTER: usize = 1;

const CALLED: usize = 2;

/// A unit with number 0002 and the byte `x`, as if from connection 0001 of the caller.
const FORGED_UNIT: &[u8] =
    b"ffff002b00050000002200007f00003040000000001100007f000010400150000001000100020000000778";

fn new_caller(alloc: Global) -> Result<Process, Fail> {
    let router = port(0x11, ROUTER, 0);
    Process::host(alloc, port(0x11, CALLER, 0), router.node, 8)
}

fn new_called(alloc: Global) -> Result<Process, Fail> {
    let router = port(0x22, ROUTER, 1);
    Process::host(alloc, port(0x22, CALLED, 0), router.node, 8)
}

/// Two hosts with a router between them.
fn routed(alloc: Global) -> Result<Site, Fail> {
    let mut site = Site::new(alloc)?;
    site.processes.push(new_caller(alloc)?)?;
    let ports = vec![in alloc; port(0x11, ROUTER, 0), port(0x22, ROUTER, 1)]?;
    site.processes.push(Process::router(alloc, ports)?)?;
    site.processes.push(new_called(alloc)?)?;
    site.settle(alloc)?;
    Ok(site)
}

/// A connection over which everything passes.
fn dial(alloc: Global, site: &mut Site, from: usize, to: usize) -> Result<usize, Fail> {
    let who = site.dial(alloc, from, to, 8)?;
    site.settle(alloc)?;
    Ok(who)
}

/// Hands in a message of one byte.
fn send(rt: &impl Abort, alloc: Global, site: &mut Site, who: usize, byte: u8) -> Result<(), Fail> {
    let body = vec![in alloc; byte]?;
    assert!(rt; site.send(alloc, who, Message { stream: 0, body })?);
    Ok(())
}

/// Hands in messages of one byte each, and all that is given arrives.
fn pass(
    rt: &impl Abort,
    alloc: Global,
    site: &mut Site,
    who: usize,
    bytes: &[u8],
) -> Result<(), Fail> {
    for byte in bytes {
        send(rt, alloc, site, who, *byte)?;
    }
    site.settle(alloc)
}

/// The caller closes, and all that is given arrives. Then everything is acknowledged, and the other
/// end takes all that it holds, and the end.
fn finish(
    rt: &impl Abort,
    alloc: Global,
    site: &mut Site,
    caller: usize,
    called: usize,
) -> Result<(), Fail> {
    site.close(alloc, caller);
    site.settle(alloc)?;
    assert!(rt; site.is_all_acked(caller));
    while site.take(alloc, called)? {}
    assert!(rt; site.connections[called].ended);
    Ok(())
}

/// The bytes of messages of one byte each.
fn text_of(alloc: Global, messages: &[Message]) -> Result<String, Fail> {
    let mut text = String::new(alloc);
    for message in messages {
        for byte in &message.body {
            text.push(char::from(*byte))?;
        }
    }
    Ok(text)
}

/// What was handed in at one connection and taken at another, and the first wrong place.
fn compare(
    rt: &impl Abort,
    alloc: Global,
    site: &Site,
    ends: (usize, usize),
    texts: (&str, &str),
) -> Result<Option<usize>, Fail> {
    let (giver, taker) = (&site.connections[ends.0], &site.connections[ends.1]);
    assert_eq!(rt; text_of(alloc, &giver.given)?.as_str(), texts.0);
    assert_eq!(rt; text_of(alloc, &taker.taken)?.as_str(), texts.1);
    Ok(first_wrong(&giver.given, &taker.taken))
}

/// `c` is handed in after `a` and `b` arrived, and after a forged unit with its number.
fn forged(
    rt: &impl Abort,
    alloc: Global,
    is_forged: bool,
    taken: &str,
) -> Result<Option<usize>, Fail> {
    let mut site = routed(alloc)?;
    let who = dial(alloc, &mut site, CALLER, CALLED)?;
    pass(rt, alloc, &mut site, who, b"ab")?;
    if is_forged {
        site.inject(alloc, CALLED, &hex::decode(alloc, FORGED_UNIT)?)?;
    }
    pass(rt, alloc, &mut site, who, b"c")?;
    finish(rt, alloc, &mut site, who, who + 1)?;
    compare(rt, alloc, &site, (who, who + 1), ("abc", taken))
}

/// The forged `x` is taken in the place of `c`, which then counts as repeated.
#[test]
fn a_forged_unit_is_handed_out(rt: HostRuntime) -> Result<(), Fail> {
    let alloc = rt.alloc();
    assert_eq!(rt; forged(&rt, alloc, false, "abc")?, None);
    assert_eq!(rt; forged(&rt, alloc, true, "abx")?, Some(2));
    Ok(())
}

/// The first datagram that a process gave with this last byte.
fn datagram_with(site: &Site, from: usize, byte: u8) -> Option<usize> {
    (0..site.mail.len()).find(|number| {
        let is_from = site.mail[*number].from == Some(from);
        is_from && site.bytes_of(*number).last() == Some(&byte)
    })
}

/// A process hears a datagram once more that was given to it, or to one at its address.
fn hear_again(
    rt: &impl Abort,
    alloc: Global,
    site: &mut Site,
    number: Option<usize>,
    to: usize,
) -> Result<(), Fail> {
    let letter = number.and_then(|number| site.letter_to(number, to));
    assert!(rt; letter.is_some());
    match letter {
        Some(letter) => site.deliver(alloc, letter),
        None => Ok(()),
    }
}

/// Both hosts start again, and their next connection has the same ids. Between its first unit and
/// its second the packet with the old second unit may arrive.
fn reused(
    rt: &impl Abort,
    alloc: Global,
    is_alive: bool,
    taken: &str,
) -> Result<Option<usize>, Fail> {
    let mut site = routed(alloc)?;
    let who = dial(alloc, &mut site, CALLER, CALLED)?;
    pass(rt, alloc, &mut site, who, b"ab")?;
    let old = datagram_with(&site, ROUTER, b'b');
    site.restart(CALLER, new_caller(alloc)?);
    site.restart(CALLED, new_called(alloc)?);
    let who = dial(alloc, &mut site, CALLER, CALLED)?;
    assert_eq!(rt; (who, site.peer(who)), (2, Some(3)));
    pass(rt, alloc, &mut site, who, b"c")?;
    if is_alive {
        hear_again(rt, alloc, &mut site, old, CALLED)?;
    }
    pass(rt, alloc, &mut site, who, b"de")?;
    finish(rt, alloc, &mut site, who, who + 1)?;
    compare(rt, alloc, &site, (who, who + 1), ("cde", taken))
}

/// The old `b` is taken in the place of `d`, which then counts as repeated.
#[test]
fn an_old_unit_of_reused_ids_is_handed_out(rt: HostRuntime) -> Result<(), Fail> {
    let alloc = rt.alloc();
    assert_eq!(rt; reused(&rt, alloc, false, "cde")?, None);
    assert_eq!(rt; reused(&rt, alloc, true, "cbe")?, Some(1));
    Ok(())
}

/// Only the caller starts again. The called host takes its request for the old one that came again,
/// and its first two units for those that it has.
#[test]
fn a_restarted_caller_is_taken_for_the_old_one(rt: HostRuntime) -> Result<(), Fail> {
    let alloc = rt.alloc();
    let mut site = routed(alloc)?;
    let old = dial(alloc, &mut site, CALLER, CALLED)?;
    pass(&rt, alloc, &mut site, old, b"ab")?;
    site.restart(CALLER, new_caller(alloc)?);
    let who = dial(alloc, &mut site, CALLER, CALLED)?;
    pass(&rt, alloc, &mut site, who, b"cde")?;
    finish(&rt, alloc, &mut site, who, old + 1)?;
    let wrong = compare(&rt, alloc, &site, (who, old + 1), ("cde", "abe"))?;
    assert_eq!(rt; wrong, Some(0));
    Ok(())
}

/// A message that makes this many units.
fn message_of(alloc: Global, units: usize) -> Result<Message, Fail> {
    let mut body = Vec::new(alloc);
    body.resize(534 * units, 0)?;
    Ok(Message { stream: 0, body })
}

/// A message goes from host 0 to host 1, by connection 0001 of each. Its packets are not kept.
fn pass_on(rt: &impl Abort, alloc: Global, site: &mut Site, message: &Message) -> Result<(), Fail> {
    let kept = site.mail.len();
    if let Some(endpoint) = site.processes[0].endpoint() {
        endpoint.send(alloc, 1, message)?;
    }
    site.settle(alloc)?;
    site.mail.truncate(kept);
    let mut length = 0;
    if let Some(endpoint) = site.processes[1].endpoint() {
        let mut taken = endpoint.take(alloc, 1)?;
        while matches!(&taken, Taken::Part) {
            taken = endpoint.take(alloc, 1)?;
        }
        if let Taken::Whole(whole) = &taken {
            length = whole.body.len();
        }
    }
    assert_eq!(rt; length, message.body.len());
    Ok(())
}

/// 65,535 units go from host 0 to host 1: 537 messages of 122 units, and one of 21.
fn pass_units(rt: &impl Abort, alloc: Global, site: &mut Site) -> Result<(), Fail> {
    let long = message_of(alloc, 122)?;
    for _ in 0..537_u32 {
        pass_on(rt, alloc, site, &long)?;
    }
    pass_on(rt, alloc, site, &message_of(alloc, 21)?)
}

/// `x` is unit 0000, and after 65,536 units 0000 is expected again. So the packet with `x`, which
/// arrives once more, is taken in the place of `y`.
#[test]
fn a_unit_kept_for_65536_units_is_handed_out(rt: HostRuntime) -> Result<(), Fail> {
    let alloc = rt.alloc();
    let mut site = Site::new(alloc)?;
    for number in 0..2 {
        let at = port(0x11, number, 0);
        site.processes
            .push(Process::host(alloc, at, at.node, 128)?)?;
    }
    let who = dial(alloc, &mut site, 0, 1)?;
    pass(&rt, alloc, &mut site, who, b"x")?;
    assert!(rt; site.take(alloc, who + 1)?);
    let first = datagram_with(&site, 0, b'x');
    pass_units(&rt, alloc, &mut site)?;
    hear_again(&rt, alloc, &mut site, first, 1)?;
    pass(&rt, alloc, &mut site, who, b"y")?;
    finish(&rt, alloc, &mut site, who, who + 1)?;
    let wrong = compare(&rt, alloc, &site, (who, who + 1), ("xy", "xx"))?;
    assert_eq!(rt; wrong, Some(1));
    Ok(())
}
