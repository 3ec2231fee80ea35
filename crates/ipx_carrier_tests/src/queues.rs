//! Which packets of a router leave first, with literal values: in order, or forwarded packets
//! first.

use crate::fixture::{one_peer_each, one_turn, two_ports, two_ports_by_priority};
use ipx_carrier::{Core, Datagrams, MemoryDatagrams, PriorityRouterCore};
use ipx_wire::Node;
use std::alloc::Global;
use std::process::Abort;
use std::test::Fail;

/// A packet from network 11 to node 00007f000005 of network 22, which is forwarded by port 1.
const ONWARD: &[u8] = b"ffff001e00000000002200007f00000540000000001100007f0000034001";

/// A request for all routes from node 00007f000003 of network 11, which one packet answers.
const REQUEST: &[u8] =
    b"ffff0028000100000011ffffffffffff04530000001100007f00000304530001ffffffffffffffff";

/// Passes these bytes to port 0 this many times.
fn hear<C: Core>(alloc: Global, core: &mut C, text: &[u8], times: u32) -> Result<(), Fail> {
    let bytes = hex::decode(alloc, text)?;
    for _ in 0..times {
        if core.ports() > 0 {
            core.hear(alloc, 0, &bytes, 0)?;
        }
    }
    Ok(())
}

/// The kind of a packet: `f` is forwarded, `r` is a reply, `s` is of the router's start, and `-` is
/// none.
fn kind_of(given: Option<(usize, Node, usize)>) -> char {
    match given {
        None => '-',
        Some((1, node, 30)) if node == Node([0, 0, 0x7f, 0, 0, 5]) => 'f',
        Some((0, node, 40)) if node == Node([0, 0, 0x7f, 0, 0, 3]) => 'r',
        Some((_, node, _)) if node == Node::BROADCAST => 's',
        Some(_) => '?',
    }
}

/// The kinds of what this many calls give.
fn given<C: Core>(alloc: Global, core: &mut C, calls: u32) -> Result<String, Fail> {
    let mut kinds = String::new(alloc);
    let mut room = [0; 1536];
    for _ in 0..calls {
        kinds.push(kind_of(core.next(alloc, 0, &mut room)?))?;
    }
    Ok(kinds)
}

/// From one queue all packets leave in the order in which they were queued. The six packets of the
/// start are queued at the first call. None is given only once none waits.
#[test]
fn what_came_first_leaves_first(rt: HostRuntime) -> Result<(), Fail> {
    let alloc = rt.alloc();
    let mut core = two_ports(alloc)?;
    hear(alloc, &mut core, REQUEST, 9)?;
    hear(alloc, &mut core, ONWARD, 2)?;
    hear(alloc, &mut core, REQUEST, 1)?;
    assert_eq!(rt; given(alloc, &mut core, 11)?.as_str(), "rrrrrrrrrff");
    hear(alloc, &mut core, ONWARD, 1)?;
    assert_eq!(rt; given(alloc, &mut core, 9)?.as_str(), "rssssssf-");
    Ok(())
}

/// Fourteen replies and the six packets of the start leave in order, eight in a row. Packets
/// forwarded meanwhile leave before them.
#[test]
fn what_is_forwarded_leaves_first(rt: HostRuntime) -> Result<(), Fail> {
    let alloc = rt.alloc();
    let mut core = two_ports_by_priority(alloc)?;
    hear(alloc, &mut core, REQUEST, 14)?;
    assert_eq!(rt; given(alloc, &mut core, 9)?.as_str(), "rrrrrrrr-");
    hear(alloc, &mut core, ONWARD, 2)?;
    assert_eq!(rt; core.queued(), 14);
    assert_eq!(rt; given(alloc, &mut core, 3)?.as_str(), "ffr");
    assert_eq!(rt; given(alloc, &mut core, 8)?.as_str(), "rrrrrss-");
    hear(alloc, &mut core, ONWARD, 1)?;
    assert_eq!(rt; given(alloc, &mut core, 7)?.as_str(), "fssss--");
    assert_eq!(rt; core.queued(), 0);
    Ok(())
}

/// How many datagrams each turn sends, if a packet to forward arrives in it, which is sent first.
/// And how many one more turn sends after these.
fn check_turns(
    rt: &impl Abort,
    alloc: Global,
    core: &mut PriorityRouterCore,
    each: &[u128],
    behind: u128,
) -> Result<(), Fail> {
    let mut datagrams = MemoryDatagrams::new(alloc, 2)?;
    let peers = one_peer_each(alloc)?;
    let onward = hex::decode(alloc, ONWARD)?;
    for sent in each {
        if datagrams.ports() == 2 {
            datagrams.put(alloc, 0, &onward)?;
        }
        let first = datagrams.sent().len();
        let report = one_turn(alloc, core, &mut datagrams, &peers)?;
        assert!(rt; report.sent == *sent);
        assert!(rt; matches!(datagrams.sent().get(first), Some(d) if d.to == [127, 0, 0, 5]));
    }
    let report = one_turn(alloc, core, &mut datagrams, &peers)?;
    assert!(rt; report.sent == behind);
    Ok(())
}

/// A turn sends the forwarded packet and eight packets of its own, and then the ports are read
/// again.
#[test]
fn a_turn_sends_eight_of_its_own(rt: HostRuntime) -> Result<(), Fail> {
    let alloc = rt.alloc();
    let mut core = two_ports_by_priority(alloc)?;
    hear(alloc, &mut core, REQUEST, 14)?;
    check_turns(&rt, alloc, &mut core, &[9, 9, 5], 0)?;
    Ok(())
}

/// After a forwarded packet two of its own leave in a row if 65 wait, and eight if 64 do. If none
/// is forwarded, eight leave even if more wait.
#[test]
fn two_of_its_own_leave_where_many_wait(rt: HostRuntime) -> Result<(), Fail> {
    let alloc = rt.alloc();
    let mut core = two_ports_by_priority(alloc)?;
    hear(alloc, &mut core, REQUEST, 59)?;
    hear(alloc, &mut core, ONWARD, 2)?;
    assert_eq!(rt; given(alloc, &mut core, 5)?.as_str(), "ffrr-");
    assert_eq!(rt; core.queued(), 63);
    hear(alloc, &mut core, REQUEST, 1)?;
    hear(alloc, &mut core, ONWARD, 1)?;
    assert_eq!(rt; given(alloc, &mut core, 10)?.as_str(), "frrrrrrrr-");
    hear(alloc, &mut core, REQUEST, 10)?;
    assert_eq!(rt; core.queued(), 66);
    assert_eq!(rt; given(alloc, &mut core, 9)?.as_str(), "rrrrrrrr-");
    Ok(())
}

/// The same in a turn. If 66 of its own wait it sends the forwarded packet and two of these. Then
/// it sends eight of the 64 that are left, and eight more if none is forwarded.
#[test]
fn a_turn_sends_two_of_its_own_where_many_wait(rt: HostRuntime) -> Result<(), Fail> {
    let alloc = rt.alloc();
    let mut core = two_ports_by_priority(alloc)?;
    hear(alloc, &mut core, REQUEST, 60)?;
    check_turns(&rt, alloc, &mut core, &[3, 9], 8)?;
    assert_eq!(rt; core.queued(), 48);
    Ok(())
}

/// If 16,384 of its own packets wait, the next answer is dropped. A forwarded packet is not. Of the
/// six packets of its start, four are dropped. Two are its advertisements, which take the place of
/// all that wait.
#[test]
fn advertisements_take_the_place_of_answers(rt: HostRuntime) -> Result<(), Fail> {
    let alloc = rt.alloc();
    let mut core = two_ports_by_priority(alloc)?;
    hear(alloc, &mut core, REQUEST, 16_384)?;
    assert_eq!(rt; core.dropped(), 0);
    hear(alloc, &mut core, REQUEST, 1)?;
    assert_eq!(rt; core.dropped(), 1);
    hear(alloc, &mut core, ONWARD, 1)?;
    assert_eq!(rt; core.dropped(), 1);
    assert_eq!(rt; core.queued(), 16_385);
    assert_eq!(rt; given(alloc, &mut core, 4)?.as_str(), "fss-");
    assert_eq!(rt; core.dropped(), 16_389);
    assert_eq!(rt; core.queued(), 0);
    Ok(())
}

/// If 16,384 forwarded packets wait, the next is dropped. The six packets of its start go into
/// another queue.
#[test]
fn what_is_forwarded_pushes_none_out(rt: HostRuntime) -> Result<(), Fail> {
    let alloc = rt.alloc();
    let mut core = two_ports_by_priority(alloc)?;
    hear(alloc, &mut core, ONWARD, 16_384)?;
    assert_eq!(rt; core.dropped(), 0);
    hear(alloc, &mut core, ONWARD, 1)?;
    assert_eq!(rt; core.dropped(), 1);
    assert_eq!(rt; given(alloc, &mut core, 1)?.as_str(), "f");
    assert_eq!(rt; core.dropped(), 1);
    assert_eq!(rt; core.queued(), 16_389);
    Ok(())
}
