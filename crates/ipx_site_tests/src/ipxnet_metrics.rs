//! The metrics of an ipxnet port by reason: what is sent through a router, and which metric it
//! raises.

use ipx_carrier::{PriorityRouterCore, SteppedClock, run_batch};
use ipx_ipxnet_ports::{MemoryPlaces, Servers};
use ipx_router::{Port, Router};
use ipx_site::put_drops;
use ipx_wire::{Network, Node};
use ipxnet_server::{IpxnetServer, Secret, ServerCounts, ServerPort, node_of};
use std::alloc::Global;
use std::net::{Ipv4Addr, SocketAddrV4};
use std::test::Fail;

const PORT: ServerPort = ServerPort {
    network: Network(0xd05b),
    own: TAKEN_NODE,
    secret: SECRET,
};

/// The secret of the router: the bytes 00 to 1f.
const SECRET: Secret = Secret([
    0, 1, 2, 3, 4, 5, 6, 7, 8, 9, 10, 11, 12, 13, 14, 15, 16, 17, 18, 19, 20, 21, 22, 23, 24, 25,
    26, 27, 28, 29, 30, 31,
]);

/// What `ipxnet connect` sends.
const REGISTRATION: [u8; 30] = [
    0xff, 0xff, 0, 0x1e, 0, 0, 0, 0, 0, 0, 0, 0, 0, 0, 0, 0, 0, 2, 0, 0, 0, 0, 0, 0, 0, 0, 0, 0, 0,
    2,
];

/// The places of the two players that registered, of one that did not, and of a joined router.
fn first_place() -> SocketAddrV4 {
    SocketAddrV4::new(Ipv4Addr::new(198, 51, 100, 7), 48199)
}

fn second_place() -> SocketAddrV4 {
    SocketAddrV4::new(Ipv4Addr::new(198, 51, 100, 7), 48200)
}

fn unknown_place() -> SocketAddrV4 {
    SocketAddrV4::new(Ipv4Addr::new(203, 0, 113, 9), 48199)
}

fn south_place() -> SocketAddrV4 {
    SocketAddrV4::new(Ipv4Addr::new(192, 0, 2, 20), 2130)
}

/// One more of the IP address of the two players.
fn third_place() -> SocketAddrV4 {
    SocketAddrV4::new(*first_place().ip(), 48201)
}

/// The place whose node is the router's.
fn taken_place() -> SocketAddrV4 {
    SocketAddrV4::new(*unknown_place().ip(), 48200)
}

/// The nodes of that place and of the two players, as another program computes them.
const TAKEN_NODE: Node = Node([2, 0xf3, 0xa5, 0xa0, 0xa6, 0xa6]);

const FIRST_NODE: Node = Node([2, 0xc3, 0x7e, 0xce, 0x67, 0xfc]);

const SECOND_NODE: Node = Node([2, 4, 0x8c, 0xef, 0xf4, 0x3a]);

const NOBODY: Node = Node([0, 0, 0, 0, 0, 1]);

/// All reasons, in the order of the metrics.
const REASONS: [&str; 17] = [
    "malformed",
    "node_taken",
    "full_of_address",
    "full",
    "unregistered",
    "other_source",
    "too_long",
    "no_such_node",
    "to_itself",
    "ping_elsewhere",
    "broadcast_elsewhere",
    "from_elsewhere",
    "response",
    "not_behind",
    "for_elsewhere",
    "rate_limited",
    "busy",
];

/// What is sent after the registrations of the players. Nothing here is dropped as `busy`: that takes
/// 200,000 copies.
#[derive(Clone, Copy)]
enum Sent {
    /// Three bytes that are no packet.
    Three,
    /// A registration.
    Registration,
    /// The same after fourteen more players of the first one's IP address came.
    AfterMore,
    /// A packet to a socket of a node, from another node, each with its network. Its body begins
    /// with 0002.
    Packet((u32, Node, u16), (u32, Node)),
    /// The same in 1,425 bytes, to all nodes.
    Long(Node),
    /// 257 packets from a node to all nodes.
    Often(Node),
}

/// A reason: how many clients are allowed, whether the server is joined to a router, who sends, and
/// what.
#[derive(Clone, Copy)]
struct Row {
    reason: &'static str,
    most: usize,
    joined: bool,
    from: SocketAddrV4,
    sent: Sent,
}

/// A row in which the first player sends a packet.
fn of_first(reason: &'static str, to: (u32, Node, u16), from: (u32, Node)) -> Row {
    Row {
        reason,
        most: 64,
        joined: false,
        from: first_place(),
        sent: Sent::Packet(to, from),
    }
}

/// A row with something else, at a server with room for clients.
fn of_place(reason: &'static str, joined: bool, from: SocketAddrV4, sent: Sent) -> Row {
    Row {
        reason,
        most: 64,
        joined,
        from,
        sent,
    }
}

fn rows() -> [Row; 16] {
    [
        of_place("malformed", false, first_place(), Sent::Three),
        of_place("node_taken", false, taken_place(), Sent::Registration),
        of_place("full_of_address", false, third_place(), Sent::AfterMore),
        Row {
            reason: "full",
            most: 2,
            joined: false,
            from: unknown_place(),
            sent: Sent::Registration,
        },
        of_place(
            "unregistered",
            false,
            unknown_place(),
            Sent::Packet((0, SECOND_NODE, 0x4001), (0, FIRST_NODE)),
        ),
        of_first("other_source", (0, SECOND_NODE, 0x4001), (0, SECOND_NODE)),
        of_place("too_long", false, first_place(), Sent::Long(FIRST_NODE)),
        of_first("no_such_node", (0, NOBODY, 0x4001), (0, FIRST_NODE)),
        of_first("to_itself", (0, FIRST_NODE, 0x4001), (0, FIRST_NODE)),
        of_first("ping_elsewhere", (0x99, NOBODY, 2), (0, FIRST_NODE)),
        of_first(
            "broadcast_elsewhere",
            (0x99, Node::BROADCAST, 0x4001),
            (0, FIRST_NODE),
        ),
        of_first("from_elsewhere", (0, PORT.own, 0x4001), (0x77, FIRST_NODE)),
        of_first("response", (0, PORT.own, 0x453), (0, FIRST_NODE)),
        of_place(
            "not_behind",
            true,
            south_place(),
            Sent::Packet((0, SECOND_NODE, 0x4001), (0, FIRST_NODE)),
        ),
        of_place(
            "for_elsewhere",
            true,
            south_place(),
            Sent::Packet((0x99, SECOND_NODE, 0x4001), (0, NOBODY)),
        ),
        of_place(
            "rate_limited",
            false,
            first_place(),
            Sent::Often(FIRST_NODE),
        ),
    ]
}

/// A packet of this size.
fn packet(size: u16, to: (u32, Node, u16), from: (u32, Node)) -> [u8; 1425] {
    let mut bytes = [0; 1425];
    bytes[..2].copy_from_slice(&[0xff, 0xff]);
    bytes[2..4].copy_from_slice(&size.to_be_bytes());
    bytes[6..10].copy_from_slice(&to.0.to_be_bytes());
    bytes[10..16].copy_from_slice(&to.1.0);
    bytes[16..18].copy_from_slice(&to.2.to_be_bytes());
    bytes[18..22].copy_from_slice(&from.0.to_be_bytes());
    bytes[22..28].copy_from_slice(&from.1.0);
    bytes[28..30].copy_from_slice(&[0x40, 1]);
    bytes[31] = 2;
    bytes
}

/// Puts a registration, and a packet to the router with the node that it gives.
fn enter(sockets: &mut MemoryPlaces, place: SocketAddrV4) -> Result<(), Fail> {
    sockets.put(0, place, &REGISTRATION)?;
    let shows = packet(34, (0, PORT.own, 2), (0, node_of(PORT, place)));
    sockets.put(0, place, &shows[..34])?;
    Ok(())
}

/// Puts what is sent.
fn put(sockets: &mut MemoryPlaces, from: SocketAddrV4, sent: Sent) -> Result<(), Fail> {
    match sent {
        Sent::Three => sockets.put(0, from, b"abc")?,
        Sent::Registration => sockets.put(0, from, &REGISTRATION)?,
        Sent::AfterMore => {
            for udp_port in 1..15_u16 {
                enter(sockets, SocketAddrV4::new(*second_place().ip(), udp_port))?;
            }
            sockets.put(0, from, &REGISTRATION)?;
        }
        Sent::Packet(to, source) => sockets.put(0, from, &packet(34, to, source)[..34])?,
        Sent::Long(node) => {
            let bytes = packet(1425, (0, Node::BROADCAST, 0x4001), (0, node));
            sockets.put(0, from, &bytes)?;
        }
        Sent::Often(node) => {
            let bytes = packet(34, (0, Node::BROADCAST, 0x4001), (0, node));
            for _ in 0..257 {
                sockets.put(0, from, &bytes[..34])?;
            }
        }
    }
    Ok(())
}

/// A router with the port.
fn core(alloc: Global) -> Result<PriorityRouterCore, Fail> {
    let mut ports = Vec::new(alloc);
    ports.push(Port {
        network: PORT.network,
        node: PORT.own,
        cost: 1,
    })?;
    Ok(PriorityRouterCore::new(alloc, Router::new(alloc, ports)?))
}

/// The server of a row.
fn server(alloc: Global, most: usize, joined: bool) -> Result<IpxnetServer, Fail> {
    let mut routers = Vec::new(alloc);
    if joined {
        routers.push(south_place())?;
    }
    Ok(IpxnetServer::joined_to(alloc, PORT, most, routers)?)
}

/// The metrics of a port with number 2 after a row.
fn metrics(alloc: Global, row: Row) -> Result<String, Fail> {
    let mut sockets = MemoryPlaces::new(alloc, 1);
    for place in [first_place(), second_place()] {
        enter(&mut sockets, place)?;
    }
    put(&mut sockets, row.from, row.sent)?;
    let mut all = Vec::new(alloc);
    all.push(server(alloc, row.most, row.joined)?)?;
    let mut servers = Servers::new(sockets, all);
    let mut core = core(alloc)?;
    run_batch(
        alloc,
        &mut core,
        &mut servers,
        &mut SteppedClock::new(0, 1),
        400,
    );
    let mut text = String::new(alloc);
    put_drops(&mut text, 2, servers.servers()[0].counts())?;
    Ok(text)
}

/// Each reason raises its own metric by one, and no other.
#[test]
fn metrics_by_cause(rt: HostRuntime) -> Result<(), Fail> {
    let alloc = rt.alloc();
    for row in rows() {
        let text = metrics(alloc, row)?;
        let mut wanted = String::new(alloc);
        for reason in REASONS {
            let count = u8::from(reason == row.reason);
            let line = format!(in alloc;
                "ipx_ipxnet_dropped_total{{port=\"2\",reason=\"{reason}\"}} {count}\n"
            )?;
            wanted.push_str(&line)?;
        }
        assert_eq!(rt; text.as_str(), wanted.as_str());
    }
    Ok(())
}

/// The text is complete, or the test ran out of memory.
#[test]
fn refused_drops(rt: HostRuntime) {
    let mut text = String::new(rt.alloc());
    if put_drops(&mut text, 1, ServerCounts::new()).is_ok() {
        assert!(rt; text.as_str().ends_with("reason=\"busy\"} 0\n"));
    }
}
