//! Packets that come to the port of network 22, as node 00007f000003, and the outcome of each. It is
//! an Ethernet port, unless a test says otherwise.

use crate::ears::Ears;
use ipx_carrier::Core;
use ipx_metrics::LastDrop;
use ipx_router::Port;
use ipx_source_checks::{CheckedPort, SourceChecked};
use ipx_wire::{Address, Network, Node, OutOfMemory, Socket};
use std::alloc::Global;
use std::test::Fail;

#[derive(Clone, Copy, Debug, PartialEq, Eq)]
enum Fate {
    Heard,
    ForwardedControl,
    GroupSource,
    LoopedSource,
}

/// The description of a packet, its bytes, and its outcome.
type Row = (&'static str, &'static str, Fate);

const ROWS: [Row; 25] = [
    (
        "a route that the router 00007f000002 advertises",
        "ffff00280001 00000022ffffffffffff0453 0000002200007f0000020453 0002000000440001 0002",
        Fate::Heard,
    ),
    (
        "the same in its name, forwarded",
        "ffff00280101 00000022ffffffffffff0453 0000002200007f0000020453 0002000000440010 0010",
        Fate::ForwardedControl,
    ),
    (
        "forwarded by fifteen routers",
        "ffff00280f01 00000022ffffffffffff0453 0000002200007f0000020453 0002000000440010 0010",
        Fate::ForwardedControl,
    ),
    (
        "forwarded, to the router's own node",
        "ffff00280101 0000002200007f0000030453 0000002200007f0000020453 0002000000440010 0010",
        Fate::ForwardedControl,
    ),
    (
        "forwarded, with networks left out",
        "ffff00280101 00000000ffffffffffff0453 0000000000007f0000020453 0002000000440010 0010",
        Fate::ForwardedControl,
    ),
    (
        "a query for all services, forwarded",
        "ffff00220104 00000022ffffffffffff0452 0000002200007f0000020452 0001ffff",
        Fate::ForwardedControl,
    ),
    (
        "a query for all services",
        "ffff00220004 00000022ffffffffffff0452 0000002200007f0000020452 0001ffff",
        Fate::Heard,
    ),
    (
        "a route from another network, forwarded: no neighbour's, and the router drops it itself",
        "ffff00280101 00000022ffffffffffff0453 0000001100007f0000020453 0002000000440010 0010",
        Fate::Heard,
    ),
    (
        "a route for another node, forwarded",
        "ffff00280101 0000002200007f0000090453 0000002200007f0000020453 0002000000440010 0010",
        Fate::Heard,
    ),
    (
        "a route in the router's own name, forwarded",
        "ffff00280101 00000022ffffffffffff0453 0000002200007f0000030453 0002000000440010 0010",
        Fate::Heard,
    ),
    (
        "no control, forwarded",
        "ffff00200104 0000002200007f0000034002 0000002200007f0000024003 0102",
        Fate::Heard,
    ),
    (
        "for network 33, in the name of a node there",
        "ffff00280001 00000033ffffffffffff0453 0000003300007f0000070453 0002000000440010 0010",
        Fate::LoopedSource,
    ),
    (
        "no control for network 33, in the name of another node there, forwarded",
        "ffff00200304 0000003300007f0000084002 0000003300007f0000074003 0102",
        Fate::LoopedSource,
    ),
    (
        "from network 22 for network 33, forwarded by another router of network 22",
        "ffff00200104 0000003300007f0000084002 0000002200007f0000074003 0102",
        Fate::Heard,
    ),
    (
        "from network 22 for network 22",
        "ffff00200004 0000002200007f0000084002 0000002200007f0000074003 0102",
        Fate::Heard,
    ),
    (
        "from network 44 for network 33, on its way",
        "ffff00200204 0000003300007f0000084002 0000004400007f0000074003 0102",
        Fate::Heard,
    ),
    (
        "a route that node ffffffffffff advertises",
        "ffff00280001 00000022ffffffffffff0453 00000022ffffffffffff0453 0002000000440001 0002",
        Fate::GroupSource,
    ),
    (
        "a route that a group advertises to the router",
        "ffff00280001 0000002200007f0000030453 000000220100000000010453 0002000000440001 0002",
        Fate::GroupSource,
    ),
    (
        "a route that node 0 advertises, with networks left out",
        "ffff00280001 00000000ffffffffffff0453 000000000000000000000453 0002000000440001 0002",
        Fate::GroupSource,
    ),
    (
        "a query of node ffffffffffff for all services",
        "ffff00220004 00000022ffffffffffff0452 00000022ffffffffffff4003 0001ffff",
        Fate::GroupSource,
    ),
    (
        "a route that a group advertises, forwarded",
        "ffff00280101 00000022ffffffffffff0453 000000220100000000010453 0002000000440010 0010",
        Fate::ForwardedControl,
    ),
    (
        "a route that node 020000000001 advertises, which is no group",
        "ffff00280001 00000022ffffffffffff0453 000000220200000000010453 0002000000440001 0002",
        Fate::Heard,
    ),
    (
        "no control, of a group",
        "ffff00200004 0000002200007f0000034002 000000220100000000014003 0102",
        Fate::Heard,
    ),
    (
        "of a group, for network 33",
        "ffff00200004 0000003300007f0000080453 000000220100000000010453 0102",
        Fate::Heard,
    ),
    (
        "no packet",
        "ffff00280101 00000022ffffffffffff0453",
        Fate::Heard,
    ),
];

/// Such a core under a router with one port, on network 22, which first runs out of memory
/// `refused` times.
fn ears_at(
    alloc: Global,
    refused: u32,
    ethernet: bool,
) -> Result<SourceChecked<Ears>, OutOfMemory> {
    let port = Port {
        network: Network(0x22),
        node: Node([0, 0, 0x7f, 0, 0, 3]),
        cost: 1,
    };
    let ears = Ears { heard: 0, refused };
    Ok(SourceChecked::new(ears, vec![in alloc; CheckedPort { port, ethernet }]?))
}

/// The same at an Ethernet port.
pub fn ears(alloc: Global, refused: u32) -> Result<SourceChecked<Ears>, OutOfMemory> {
    ears_at(alloc, refused, true)
}

/// The bytes of a row.
pub fn bytes_of(alloc: Global, text: &str) -> Result<Vec<u8>, Fail> {
    let mut digits = String::new(alloc);
    for part in text.split(' ') {
        digits.push_str(part)?;
    }
    Ok(hex::decode(alloc, digits.as_bytes())?)
}

/// The source address of a row's packet.
fn sender(bytes: &[u8]) -> Address {
    let mut node = [0; 6];
    node.copy_from_slice(&bytes[22..28]);
    Address {
        network: Network(u32::from(bytes[21])),
        node: Node(node),
        socket: Socket(u16::from_be_bytes([bytes[28], bytes[29]])),
    }
}

fn fate(checked: &SourceChecked<Ears>) -> Option<Fate> {
    let drops = checked.drops();
    match (
        checked.core().heard,
        drops.forwarded_control.count,
        drops.group_source.count,
        drops.looped_source.count,
    ) {
        (1, 0, 0, 0) => Some(Fate::Heard),
        (0, 1, 0, 0) => Some(Fate::ForwardedControl),
        (0, 0, 1, 0) => Some(Fate::GroupSource),
        (0, 0, 0, 1) => Some(Fate::LoopedSource),
        _ => None,
    }
}

#[test]
fn what_becomes_of_each(rt: HostRuntime) -> Result<(), Fail> {
    let alloc = rt.alloc();
    for (what, text, wanted) in ROWS {
        let mut checked = ears(alloc, 0)?;
        let bytes = bytes_of(alloc, text)?;
        checked.hear(alloc, 0, &bytes, 0)?;
        assert!(rt; fate(&checked) == Some(wanted), "{what}");
    }
    Ok(())
}

/// Groups are checked at Ethernet ports alone: at other ports a query of one is heard. At a port for
/// ipxnet the router makes all nodes, so that none comes from a group.
#[test]
fn a_group_is_heard_elsewhere(rt: HostRuntime) -> Result<(), Fail> {
    let alloc = rt.alloc();
    let mut checked = ears_at(alloc, 0, false)?;
    let query = "ffff00220004 00000022ffffffffffff0452 000000227f000001bc474003 0001ffff";
    checked.hear(alloc, 0, &bytes_of(alloc, query)?, 0)?;
    assert!(rt; fate(&checked) == Some(Fate::Heard));
    Ok(())
}

#[test]
fn the_last_sender_is_kept(rt: HostRuntime) -> Result<(), Fail> {
    let alloc = rt.alloc();
    let mut checked = ears(alloc, 0)?;
    for (_, text, _) in ROWS {
        let bytes = bytes_of(alloc, text)?;
        checked.hear(alloc, 0, &bytes, 0)?;
    }
    let last: Option<LastDrop> = checked.drops().looped_source.last;
    let bytes = bytes_of(alloc, ROWS[12].1)?;
    assert_eq!(rt; last.and_then(|last| last.from), Some(sender(&bytes)));
    assert_eq!(rt; last.map(|last| last.port), Some(0));
    let network = checked.drops().looped_source.network;
    assert_eq!(rt; network, Some(Network(0x22)));
    let last = checked.drops().forwarded_control.last;
    let bytes = bytes_of(alloc, ROWS[20].1)?;
    assert_eq!(rt; last.and_then(|last| last.from), Some(sender(&bytes)));
    let last = checked.drops().group_source.last;
    let bytes = bytes_of(alloc, ROWS[19].1)?;
    assert_eq!(rt; last.and_then(|last| last.from), Some(sender(&bytes)));
    assert_eq!(rt; checked.drops().forwarded_control.count, 6);
    assert_eq!(rt; checked.drops().group_source.count, 4);
    assert_eq!(rt; checked.drops().looped_source.count, 2);
    assert_eq!(rt; checked.core().heard, 13);
    Ok(())
}
