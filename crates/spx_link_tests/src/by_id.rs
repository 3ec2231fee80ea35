//! The links of a host, by their ids, also when memory is refused.

use crate::end::{HERE, one_unit, system, there, unit, unit_again};
use ipx_wire::Socket;
use spx_link::{Links, LinksFault, OfferFault, Received, Sent, State};
use std::alloc::Global;
use std::process::Abort;
use std::test::Fail;

/// A new link that requests a connection.
fn dial(alloc: Global, links: &mut Links) -> Result<u16, LinksFault> {
    links.dial(alloc, HERE, there(), 8, 0)
}

/// A new link for a request.
fn accept(alloc: Global, links: &mut Links) -> Result<u16, LinksFault> {
    links.accept(alloc, HERE, there(), &system(0, 7), 8, 0)
}

#[test]
fn sixteen_links(rt: HostRuntime) -> Result<(), Fail> {
    let alloc = rt.alloc();
    let mut links = Links::new(alloc);
    for id in 1..17u16 {
        assert_eq!(rt; dial(alloc, &mut links)?, id);
    }
    assert_eq!(rt; dial(alloc, &mut links), Err(LinksFault::TooMany));
    assert!(rt; links.release(3));
    assert!(rt; !links.release(3));
    assert_eq!(rt; dial(alloc, &mut links)?, 0x0011);
    Ok(())
}

/// One link that dialed, with id 1, and one that was accepted, with id 2.
fn both_kinds(rt: &impl Abort, alloc: Global) -> Result<Links, Fail> {
    let mut links = Links::new(alloc);
    assert_eq!(rt; dial(alloc, &mut links)?, 1);
    assert_eq!(rt; accept(alloc, &mut links)?, 2);
    Ok(links)
}

#[test]
fn found_by_id(rt: HostRuntime) -> Result<(), Fail> {
    let links = both_kinds(&rt, rt.alloc())?;
    assert_eq!(rt;
        [links.after(0), links.after(1), links.after(2)],
        [Some(1), Some(2), None]
    );
    assert_eq!(rt; links.accepted(there(), 1), Some(2));
    assert_eq!(rt; links.accepted(there(), 2), None);
    assert_eq!(rt; links.find(HERE, there(), 1), Some(1));
    assert_eq!(rt; links.find(Socket(0x5000), there(), 1), None);
    assert_eq!(rt; links.find(HERE, there(), 3), None);
    let ends = links.get(2).map(|link| (link.local(), link.remote()));
    assert_eq!(rt; ends, Some((HERE, there())));
    Ok(())
}

/// What a link sends.
fn sent(links: &mut Links, id: u16) -> Option<Sent> {
    links.get(id)?;
    Some(links.poll(id, 0)?.what)
}

fn state(links: &Links, id: u16) -> Option<State> {
    Some(links.get(id)?.state())
}

/// The stream of the unit that a link gives.
fn taken(links: &mut Links, id: u16) -> Option<u8> {
    links.get(id)?;
    Some(links.take(id)?.stream)
}

#[test]
fn units_by_id(rt: HostRuntime) -> Result<(), Fail> {
    let alloc = rt.alloc();
    let mut links = Links::new(alloc);
    dial(alloc, &mut links)?;
    assert_eq!(rt; sent(&mut links, 1), Some(Sent::Request));
    joins(&rt, &mut links);
    queues_an_end(&rt, alloc, &mut links)?;
    keeps_a_unit(&rt, &mut links);
    Ok(())
}

fn joins(rt: &impl Abort, links: &mut Links) {
    assert!(rt; links.get(1).is_some());
    let joined = links.receive(1, &system(0, 7), &[], 0);
    assert_eq!(rt; joined, Received::Joined);
}

fn queues_an_end(rt: &impl Abort, alloc: Global, links: &mut Links) -> Result<(), Fail> {
    assert!(rt; links.get(1).is_some());
    links.offer(alloc, 1, one_unit(alloc, 0x61)?)?;
    assert!(rt; links.get(1).is_some());
    links.end(alloc, 1)?;
    Ok(())
}

fn keeps_a_unit(rt: &impl Abort, links: &mut Links) {
    assert!(rt; links.get(1).is_some());
    let kept = links.receive(1, &unit(0, 0), b"a", 0);
    assert_eq!(rt; kept, Received::Kept);
    assert_eq!(rt; taken(links, 1), Some(0));
}

/// One link must reply once more, and another is given up.
#[test]
fn given_up_by_id(rt: HostRuntime) -> Result<(), Fail> {
    let mut links = both_kinds(&rt, rt.alloc())?;
    for _ in 0..2 {
        assert_eq!(rt; sent(&mut links, 2), Some(Sent::Reply));
        assert!(rt; links.get(2).is_some());
        links.owe_reply(2);
    }
    assert!(rt; links.get(1).is_some());
    links.lose(1);
    assert_eq!(rt; state(&links, 1), Some(State::Lost));
    assert_eq!(rt; state(&links, 2), Some(State::Live));
    Ok(())
}

/// A new link that dials, tried again if memory is refused. The refused call made no link.
fn dial_at_last(rt: &impl Abort, alloc: Global, links: &mut Links, last: u16) -> Result<(), Fail> {
    if dial(alloc, links).is_err() {
        assert_eq!(rt; links.after(last), None);
        dial(alloc, links)?;
    }
    assert_eq!(rt; links.after(last), Some(last.wrapping_add(1)));
    Ok(())
}

/// A new link that is accepted, tried again if memory is refused. The refused call made no link.
fn accept_at_last(
    rt: &impl Abort,
    alloc: Global,
    links: &mut Links,
    last: u16,
) -> Result<(), Fail> {
    if accept(alloc, links).is_err() {
        assert_eq!(rt; links.after(last), None);
        accept(alloc, links)?;
    }
    assert_eq!(rt; links.after(last), Some(last.wrapping_add(1)));
    Ok(())
}

/// If memory is refused once, no link is made, and the same call succeeds the next time. Run it
/// with each allocation refused.
#[test]
fn refused_links(rt: HostRuntime) -> Result<(), Fail> {
    let alloc = rt.alloc();
    let mut links = Links::new(alloc);
    dial_at_last(&rt, alloc, &mut links, 0)?;
    for last in 1..8u16 {
        accept_at_last(&rt, alloc, &mut links, last)?;
    }
    Ok(())
}

/// The calls by id that need memory. If one is refused, its link and the other are unchanged, and
/// the same call succeeds the next time. Run it with each allocation refused.
#[test]
fn refused_memory_by_id(rt: HostRuntime) -> Result<(), Fail> {
    let alloc = rt.alloc();
    let mut links = Links::new(alloc);
    dial_at_last(&rt, alloc, &mut links, 0)?;
    dial_at_last(&rt, alloc, &mut links, 1)?;
    joins(&rt, &mut links);
    for _ in 0..5 {
        offers_at_last(&rt, alloc, &mut links)?;
    }
    ends_at_last(&rt, alloc, &mut links)?;
    assert_eq!(rt; state(&links, 1), Some(State::Ending));
    assert_eq!(rt; state(&links, 2), Some(State::Opening));
    Ok(())
}

fn offers_at_last(rt: &impl Abort, alloc: Global, links: &mut Links) -> Result<(), Fail> {
    assert!(rt; links.get(1).is_some());
    if links.offer(alloc, 1, unit_again(alloc)?) == Err(OfferFault::OutOfMemory) {
        assert!(rt; links.get(1).is_some());
        links.offer(alloc, 1, unit_again(alloc)?)?;
    }
    Ok(())
}

fn ends_at_last(rt: &impl Abort, alloc: Global, links: &mut Links) -> Result<(), Fail> {
    assert!(rt; links.get(1).is_some());
    if links.end(alloc, 1) == Err(OfferFault::OutOfMemory) {
        assert_eq!(rt; state(links, 1), Some(State::Live));
        assert!(rt; links.get(1).is_some());
        links.end(alloc, 1)?;
    }
    Ok(())
}
