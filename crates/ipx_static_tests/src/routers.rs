//! A router with ports on networks 11 and 22. It has a static route to network AA through port 1,
//! and a static service there.

ghost use Rattle.std.specs.Prelude.{◌≡◌};

use crate::fixture::{NEXT, ask, backup, silent};
use ipx_carrier::Core;
use ipx_metrics::MeteredRouter;
use ipx_router::{Port, Router};
use ipx_static::{RestartDiscovery, WithStatics};
use ipx_tables::{ServiceKey, Source};
use ipx_wire::{Network, Node, OutOfMemory};
use std::alloc::Global;
use std::test::Fail;

const AFTER: Network = Network(0xaa);

pub fn port(network: u32, last: u8) -> Port
    ensures { result.network.0 ≡ network }
{
    Port {
        network: Network(network),
        node: Node([0, 0, 0x7f, 0, 0, last]),
        cost: 1,
    }
}

/// The router, with its static neighbour, or one without entries.
pub fn router(alloc: Global, speaks: u32) -> Result<WithStatics<MeteredRouter>, OutOfMemory> {
    let Ok(router) = Router::new(alloc, vec![in alloc; port(0x11, 1), port(0x22, 2)]?) else {
        return Err(OutOfMemory);
    };
    let neighbour = silent(alloc, 1, speaks, speaks)?;
    WithStatics::new(alloc, MeteredRouter::new(alloc, router)?, &[neighbour])
}

/// The packets that the router gives at a given time, one a line: the device's port, then the bytes
/// in hex.
fn given(alloc: Global, core: &mut WithStatics<MeteredRouter>, now: u64) -> Result<String, Fail> {
    let mut room = [0; 1536];
    let mut text = String::new(alloc);
    for _ in 0..64_u32 {
        let Some((port, _, count)) = core.next(alloc, now, &mut room)? else {
            return Ok(text);
        };
        let bytes = hex::encode(alloc, &room[..count])?;
        text.push_str(&format!(in alloc; "{port} {bytes}\n")?)?;
    }
    Ok(text)
}

/// How many hops AA is away, and through which source.
pub fn way(core: &WithStatics<MeteredRouter>, now: u64) -> Option<(Source, u16)> {
    let best = core.core().router().routes().best(&AFTER, now)?;
    Some((best.0, best.1.hops))
}

pub fn has_service(core: &WithStatics<MeteredRouter>, now: u64) -> bool {
    let key = ServiceKey {
        kind: backup().kind,
        name: backup().name,
    };
    let services = core.core().router().services();
    services.best(&key, now).is_some()
}

pub fn statics() -> Option<(Source, u16)> {
    Some((
        Source {
            port: 1,
            neighbour: NEXT,
        },
        1,
    ))
}

/// The route is advertised with the first packets, one hop more and with the cost of that port,
/// only on the other port; so is the service.
#[test]
fn told_on_at_once(rt: HostRuntime) -> Result<(), Fail> {
    let alloc = rt.alloc();
    let mut core = router(alloc, 1)?;
    let text = given(alloc, &mut core, 0)?;
    let (own, behind) = ("0000001100010001", "000000aa00020007");
    let (kind, name) = ("0640", "4241434b5550");
    assert!(rt; text.contains(&format!(in alloc; "0002{own}{behind}\n")?));
    assert!(rt; text.contains(&format!(in alloc; "0002{kind}{name}")?));
    let first = text.lines().filter(|line| line.starts_with("0 "));
    assert_eq!(rt; first.count(), 3);
    Ok(())
}

/// If the router is asked each ten seconds, the route stays for ten minutes. It expires three
/// minutes after the last advertisement.
#[test]
fn stands_and_goes(rt: HostRuntime) -> Result<(), Fail> {
    let alloc = rt.alloc();
    let mut core = router(alloc, 1)?;
    for place in 0..61_u64 {
        ask(alloc, &mut core, place * 10_000)?;
        assert!(rt; way(&core, place * 10_000) == statics());
        assert!(rt; has_service(&core, place * 10_000));
    }
    assert!(rt; way(&core, 779_999) == statics() && has_service(&core, 779_999));
    assert!(rt; way(&core, 780_000) == None && !has_service(&core, 780_000));
    Ok(())
}

/// It stays while the router asks its neighbours again, on both ports for routes and for services.
#[test]
fn stands_as_it_asks_again(rt: HostRuntime) -> Result<(), Fail> {
    let alloc = rt.alloc();
    let mut core = router(alloc, 1)?;
    given(alloc, &mut core, 0)?;
    for now in [1_000, 2_000, 4_000, 8_000, 16_000, 32_000] {
        core.restart_discovery();
        assert!(rt; way(&core, now) == statics() && has_service(&core, now));
        assert_eq!(rt; given(alloc, &mut core, now)?.lines().count(), 4);
        assert!(rt; way(&core, now) == statics() && has_service(&core, now));
    }
    Ok(())
}

/// Each of its advertisements is counted as received.
#[test]
fn counts_as_heard(rt: HostRuntime) -> Result<(), Fail> {
    let alloc = rt.alloc();
    let mut core = router(alloc, 1)?;
    ask(alloc, &mut core, 0)?;
    ask(alloc, &mut core, 60_000)?;
    assert_eq!(rt; core.core().outcomes().heard, 4);
    Ok(())
}

/// A RIP response to all nodes of network 11: AA in this many hops, and one tick, from a node.
fn tell(
    alloc: Global,
    core: &mut WithStatics<MeteredRouter>,
    node: &str,
    hops: u16,
    now: u64,
) -> Result<(), Fail> {
    let head = "ffff0028000100000011ffffffffffff045300000011";
    let text = format!(in alloc; "{head}{node}04530002000000aa{hops:04x}0001")?;
    let bytes = hex::decode(alloc, text.as_bytes())?;
    core.hear(alloc, 0, &bytes, now)?;
    Ok(())
}

/// A neighbour with a better route is preferred. Once it no longer advertises that, the static
/// route is used.
#[test]
fn a_better_way_is_preferred(rt: HostRuntime) -> Result<(), Fail> {
    let alloc = rt.alloc();
    let mut core = router(alloc, 1)?;
    ask(alloc, &mut core, 0)?;
    tell(alloc, &mut core, "00007f000009", 1, 10)?;
    assert!(rt; way(&core, 20) != statics());
    tell(alloc, &mut core, "00007f000009", 16, 30)?;
    assert!(rt; way(&core, 40) == statics());
    Ok(())
}

/// If the neighbour advertises itself, its last advertisement counts, and the static one a minute
/// later.
#[test]
fn its_own_word_counts(rt: HostRuntime) -> Result<(), Fail> {
    let alloc = rt.alloc();
    let mut core = router(alloc, 1)?;
    ask(alloc, &mut core, 0)?;
    tell(alloc, &mut core, "0000c6336407", 16, 10)?;
    ask(alloc, &mut core, 59_999)?;
    assert!(rt; way(&core, 59_999) == None);
    ask(alloc, &mut core, 60_000)?;
    assert!(rt; way(&core, 60_000) == statics());
    Ok(())
}

/// A packet to AA is sent to the neighbour's node by its port.
#[test]
fn packets_go_there(rt: HostRuntime) -> Result<(), Fail> {
    let alloc = rt.alloc();
    let mut core = router(alloc, 1)?;
    given(alloc, &mut core, 0)?;
    let text = b"ffff001e0004000000aa00000000000145510000002200007f0000084001";
    let bytes = hex::decode(alloc, text)?;
    core.hear(alloc, 1, &bytes, 1)?;
    assert!(rt; ask(alloc, &mut core, 1)? == Some((0, NEXT, 30)));
    Ok(())
}

/// A neighbour without entries changes nothing. Told to ask again, the router asks on both ports.
#[test]
fn no_statics(rt: HostRuntime) -> Result<(), Fail> {
    let alloc = rt.alloc();
    let mut core = router(alloc, 0)?;
    assert_eq!(rt; given(alloc, &mut core, 0)?.lines().count(), 6);
    assert!(rt; way(&core, 0) == None);
    core.restart_discovery();
    assert_eq!(rt; given(alloc, &mut core, 0)?.lines().count(), 4);
    Ok(())
}
