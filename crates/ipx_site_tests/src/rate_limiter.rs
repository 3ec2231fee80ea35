//! General queries, how often those of each querier pass, narrow queries, and directed broadcasts.

use ipx_carrier::Core;
use ipx_rate_limits::{PortBuckets, Querier, QueryDrops, RateLimiter};
use ipx_router::Port;
use ipx_wire::{
    Address, IpxHeader, Network, Node, OutOfMemory, Packet, Socket, encode_into, packet_type,
};
use std::alloc::{AllocError, Global};
use token_bucket::{RateLimit, TokenBucket};

/// A core that counts what it hears, and that first runs out of memory `refused` times.
#[derive(Drop)]
struct Ears {
    heard: u32,
    refused: u32,
}

impl Core for Ears {
    ghost use Rattle.std.specs.Prelude.{◌≡◌};

    ghost port_count = { λ c. 3 };

    ghost hears = { λ old port bytes now new. Unit {0} };

    ghost gives = { λ old now given new. new ≡ old };

    ghost hear_out_of_memory = { λ old port bytes now new. Unit {0} };

    ghost next_out_of_memory = { λ old now new. ⊥ };

    fn ports(&self) -> usize {
        3
    }

    fn hear(
        &mut self,
        _alloc: Global,
        _port: usize,
        _bytes: &[u8],
        _now: u64,
    ) -> Result<(), OutOfMemory> {
        if self.refused > 0 {
            self.refused -= 1;
            return Err(OutOfMemory);
        }
        self.heard += 1;
        Ok(())
    }

    fn next(
        &mut self,
        _alloc: Global,
        _now: u64,
        _room: &mut [u8],
    ) -> Result<Option<(usize, Node, usize)>, OutOfMemory> {
        Ok(None)
    }
}

/// Bodies of control packets: all routes, as the second requested network; one network; all
/// services; all file servers; and the nearest file server.
const ALL_ROUTES: [u8; 18] = [
    0, 1, 0, 0, 0, 0x22, 0xff, 0xff, 0xff, 0xff, 0xff, 0xff, 0xff, 0xff, 0xff, 0xff, 0xff, 0xff,
];

const ONE_ROUTE: [u8; 10] = [0, 1, 0, 0, 0, 0x22, 0xff, 0xff, 0xff, 0xff];

const TOLD_ROUTES: [u8; 10] = [0, 2, 0xff, 0xff, 0xff, 0xff, 0, 1, 0, 1];

const ALL_SERVICES: [u8; 4] = [0, 1, 0xff, 0xff];

const ALL_SERVERS: [u8; 4] = [0, 1, 0, 4];

const NEAREST_SERVER: [u8; 4] = [0, 3, 0, 4];

const HERE: Network = Network(0x11);

const AWAY: Network = Network(0x22);

const PLAYERS: Network = Network(0x33);

/// A network that none of the ports is on.
const FAR: Network = Network(0x44);

const USUAL: RateLimit = RateLimit {
    burst: 16,
    per_second: 8,
};

const CLIENTS: RateLimit = RateLimit {
    burst: 2,
    per_second: 1,
};

const NARROW: RateLimit = RateLimit {
    burst: 64,
    per_second: 32,
};

const CLIENTS_NARROW: RateLimit = RateLimit {
    burst: 8,
    per_second: 4,
};

const NOTHING: RateLimit = RateLimit {
    burst: 0,
    per_second: 0,
};

/// The port with this number on this network.
fn port(number: u8, network: Network) -> Port {
    Port {
        network,
        node: Node([0, 0, 10, 0, 0, number]),
        cost: 1,
    }
}

fn limits(queries: RateLimit, narrow: RateLimit, directed: Option<RateLimit>) -> PortBuckets {
    PortBuckets {
        queries: TokenBucket::full(queries),
        narrow: TokenBucket::full(narrow),
        directed: match directed {
            Some(limit) => Some(TokenBucket::full(limit)),
            None => None,
        },
        groups: false,
    }
}

/// A rate limiter over such a core, for a router with ports on networks 11, 22 and 33, the second an
/// Ethernet port, and the last for ipxnet clients. It first runs out of memory `refused` times. The
/// third port's limit lets no directed broadcast leave.
fn ears_by(
    alloc: Global,
    refused: u32,
    directed: Option<RateLimit>,
) -> Result<RateLimiter<Ears>, AllocError> {
    let ears = Ears { heard: 0, refused };
    let ports = vec![in alloc; port(1, HERE), port(2, AWAY), port(3, PLAYERS)]?;
    let limits = vec![in alloc;
        limits(USUAL, NARROW, Some(USUAL)),
        PortBuckets {
            groups: true,
            ..limits(USUAL, NARROW, Some(USUAL))
        },
        limits(CLIENTS, CLIENTS_NARROW, directed),
    ]?;
    RateLimiter::new(alloc, ears, ports, limits)
}

fn ears(alloc: Global, refused: u32) -> Result<RateLimiter<Ears>, AllocError> {
    ears_by(alloc, refused, Some(NOTHING))
}

/// It hears this body at a port, sent by node 10.0.0.LAST of a network to an address. The result is
/// whether there was enough memory.
fn hear_at(
    ears: &mut RateLimiter<Ears>,
    alloc: Global,
    from: (usize, Network, u8),
    to: Address,
    body: &[u8],
    now: u64,
) -> bool {
    hear_after(ears, alloc, 0, from, to, body, now)
}

/// The same of a packet that this many routers forwarded.
fn hear_after(
    ears: &mut RateLimiter<Ears>,
    alloc: Global,
    hops: u8,
    from: (usize, Network, u8),
    to: Address,
    body: &[u8],
    now: u64,
) -> bool {
    let header = IpxHeader {
        hops,
        kind: packet_type::UNKNOWN,
        to,
        from: Address {
            network: from.1,
            node: Node([0, 0, 10, 0, 0, from.2]),
            socket: Socket(0x4003),
        },
    };
    let mut bytes = [0; 64];
    let count = encode_into(&Packet { header, body }, &mut bytes);
    ears.hear(alloc, from.0, &bytes[..count], now).is_ok()
}

/// All nodes of a network, at a socket.
fn every_node(network: Network, socket: Socket) -> Address {
    Address {
        network,
        node: Node::BROADCAST,
        socket,
    }
}

/// It hears this body at the first port, sent to a socket of all nodes of a network.
fn hear(
    ears: &mut RateLimiter<Ears>,
    alloc: Global,
    last: u8,
    to: (Network, Socket),
    body: &[u8],
    now: u64,
) -> bool {
    hear_at(
        ears,
        alloc,
        (0, HERE, last),
        every_node(to.0, to.1),
        body,
        now,
    )
}

/// It hears this many queries for all services from one node at one time.
fn ask(ears: &mut RateLimiter<Ears>, alloc: Global, last: u8, count: u32, now: u64) {
    for _query in 0..count {
        let _had = hear(ears, alloc, last, (HERE, Socket::SAP), &ALL_SERVICES, now);
    }
}

/// So many dropped queries, the last of the node with this IP address at the first port.
fn kept(count: u64, last: Option<[u8; 4]>) -> QueryDrops {
    let Some([a, b, c, d]) = last else {
        return QueryDrops { count, last: None };
    };
    let querier = Querier {
        port: 0,
        node: Node([0, 0, a, b, c, d]),
    };
    QueryDrops {
        count,
        last: Some(querier),
    }
}

#[test]
fn eight_of_a_thousand(rt: HostRuntime) -> Result<(), AllocError> {
    let mut ears = ears(rt.alloc(), 0)?;
    ask(&mut ears, rt.alloc(), 2, 1000, 5000);
    assert_eq!(rt; ears.core().heard, 8);
    assert!(rt; ears.kept() == kept(992, Some([10, 0, 0, 2])));
    ask(&mut ears, rt.alloc(), 2, 1, 5999);
    assert_eq!(rt; ears.core().heard, 8);
    ask(&mut ears, rt.alloc(), 2, 2, 6000);
    assert_eq!(rt; ears.core().heard, 9);
    ask(&mut ears, rt.alloc(), 2, 1000, 60_000);
    assert_eq!(rt; ears.core().heard, 17);
    Ok(())
}

#[test]
fn sixteen_of_seventeen_askers(rt: HostRuntime) -> Result<(), AllocError> {
    let mut ears = ears(rt.alloc(), 0)?;
    for last in 2..19 {
        ask(&mut ears, rt.alloc(), last, 1, 0);
    }
    assert_eq!(rt; ears.core().heard, 16);
    assert!(rt; ears.kept() == kept(1, Some([10, 0, 0, 18])));
    ask(&mut ears, rt.alloc(), 18, 1, 124);
    assert_eq!(rt; ears.core().heard, 16);
    ask(&mut ears, rt.alloc(), 18, 1, 125);
    assert_eq!(rt; ears.core().heard, 17);
    Ok(())
}

/// One query for all services at a port, from each of the nodes 10.0.0.20 to 10.0.0.(COUNT + 19).
fn ask_each(
    ears: &mut RateLimiter<Ears>,
    alloc: Global,
    at: (usize, Network),
    count: u8,
    now: u64,
) {
    for last in 20..20 + count.min(200) {
        let to = every_node(at.1, Socket::SAP);
        let _had = hear_at(ears, alloc, (at.0, at.1, last), to, &ALL_SERVICES, now);
    }
}

#[test]
fn each_port_has_its_tokens(rt: HostRuntime) -> Result<(), AllocError> {
    let mut ears = ears(rt.alloc(), 0)?;
    ask_each(&mut ears, rt.alloc(), (2, PLAYERS), 100, 0);
    assert_eq!(rt; ears.core().heard, 2);
    ask_each(&mut ears, rt.alloc(), (2, PLAYERS), 100, 999);
    assert_eq!(rt; ears.core().heard, 2);
    ask_each(&mut ears, rt.alloc(), (2, PLAYERS), 100, 1000);
    assert_eq!(rt; ears.core().heard, 3);
    ask_each(&mut ears, rt.alloc(), (0, HERE), 100, 1000);
    assert_eq!(rt; ears.core().heard, 19);
    ask_each(&mut ears, rt.alloc(), (1, AWAY), 16, 1000);
    assert_eq!(rt; ears.core().heard, 35);
    ask_each(&mut ears, rt.alloc(), (1, AWAY), 100, 2000);
    assert_eq!(rt; ears.core().heard, 43);
    Ok(())
}

/// This many queries for the nearest file server at a port, from node 10.0.0.LAST at one time.
fn ask_nearest(
    ears: &mut RateLimiter<Ears>,
    alloc: Global,
    from: (usize, Network, u8),
    count: u32,
    now: u64,
) {
    for _query in 0..count {
        let to = every_node(from.1, Socket::SAP);
        let _had = hear_at(ears, alloc, from, to, &NEAREST_SERVER, now);
    }
}

#[test]
fn narrow_queries_have_their_own_tokens(rt: HostRuntime) -> Result<(), AllocError> {
    let mut ears = ears(rt.alloc(), 0)?;
    ask_nearest(&mut ears, rt.alloc(), (0, HERE, 2), 33, 0);
    assert_eq!(rt; ears.core().heard, 32);
    assert!(rt; ears.kept() == kept(1, Some([10, 0, 0, 2])));
    ask(&mut ears, rt.alloc(), 2, 9, 0);
    assert_eq!(rt; ears.core().heard, 40);
    ask_nearest(&mut ears, rt.alloc(), (0, HERE, 2), 100, 499);
    assert_eq!(rt; ears.core().heard, 40);
    ask_nearest(&mut ears, rt.alloc(), (0, HERE, 2), 100, 500);
    assert_eq!(rt; ears.core().heard, 41);
    ask_nearest(&mut ears, rt.alloc(), (0, HERE, 2), 100, 60_000);
    assert_eq!(rt; ears.core().heard, 73);
    Ok(())
}

#[test]
fn requests_for_named_networks_take_the_same_tokens(rt: HostRuntime) -> Result<(), AllocError> {
    let mut ears = ears(rt.alloc(), 0)?;
    let rip = every_node(HERE, Socket::RIP);
    for _request in 0..20 {
        let _had = hear_at(&mut ears, rt.alloc(), (0, HERE, 2), rip, &ONE_ROUTE, 0);
    }
    assert_eq!(rt; ears.core().heard, 20);
    ask_nearest(&mut ears, rt.alloc(), (0, HERE, 2), 20, 0);
    assert_eq!(rt; ears.core().heard, 32);
    for _request in 0..5 {
        let _had = hear_at(&mut ears, rt.alloc(), (0, HERE, 2), rip, &ONE_ROUTE, 0);
    }
    assert_eq!(rt; ears.core().heard, 32);
    assert!(rt; ears.kept() == kept(13, Some([10, 0, 0, 2])));
    // A request for all networks has tokens of its own, and a response takes none.
    let _all = hear_at(&mut ears, rt.alloc(), (0, HERE, 2), rip, &ALL_ROUTES, 0);
    let _told = hear_at(&mut ears, rt.alloc(), (0, HERE, 2), rip, &TOLD_ROUTES, 0);
    assert_eq!(rt; ears.core().heard, 34);
    Ok(())
}

#[test]
fn nodes_share_the_narrow_tokens_of_their_port(rt: HostRuntime) -> Result<(), AllocError> {
    let mut ears = ears(rt.alloc(), 0)?;
    for last in 5..8 {
        ask_nearest(&mut ears, rt.alloc(), (0, HERE, last), 32, 0);
    }
    assert_eq!(rt; ears.core().heard, 64);
    // The third node lost none of its own tokens.
    for last in 5..8 {
        ask_nearest(&mut ears, rt.alloc(), (0, HERE, last), 100, 1000);
    }
    assert_eq!(rt; ears.core().heard, 64 + 2 + 2 + 28);
    for last in 5..8 {
        ask_nearest(&mut ears, rt.alloc(), (2, PLAYERS, last), 5, 1000);
    }
    assert_eq!(rt; ears.core().heard, 96 + 4 + 4);
    for last in 5..8 {
        ask_nearest(&mut ears, rt.alloc(), (2, PLAYERS, last), 5, 2000);
    }
    assert_eq!(rt; ears.core().heard, 104 + 2 + 2);
    Ok(())
}

#[test]
fn a_node_that_floods_takes_no_turn_of_another(rt: HostRuntime) -> Result<(), AllocError> {
    let mut ears = ears(rt.alloc(), 0)?;
    for at in [(0, HERE), (2, PLAYERS)] {
        for moment in 0..100 {
            let now = moment * 100;
            ask_nearest(&mut ears, rt.alloc(), (at.0, at.1, 8), 200, now);
            let before = ears.core().heard;
            ask_nearest(
                &mut ears,
                rt.alloc(),
                (at.0, at.1, 9),
                u32::from(moment % 20 == 0),
                now,
            );
            assert_eq!(rt; ears.core().heard, before + u32::from(moment % 20 == 0));
        }
    }
    Ok(())
}

#[test]
fn two_hundred_nodes_boot_together(rt: HostRuntime) -> Result<(), AllocError> {
    let mut ears = ears(rt.alloc(), 0)?;
    let mut answered = [false; 200];
    // Each asks again after a second, until it is answered. One more floods.
    for second in 0..7 {
        ask_nearest(&mut ears, rt.alloc(), (0, HERE, 9), 2000, second * 1000);
        for (last, answered) in (20..220).zip(&mut answered) {
            let before = ears.core().heard;
            let count = u32::from(!*answered);
            ask_nearest(&mut ears, rt.alloc(), (0, HERE, last), count, second * 1000);
            *answered = *answered || ears.core().heard > before;
        }
    }
    assert!(rt; answered.iter().all(|answered| *answered));
    Ok(())
}

/// This many packets at one time from node 10.0.0.9 of network 44, which come by the first port.
fn from_afar(ears: &mut RateLimiter<Ears>, alloc: Global, to: Address, count: u32, now: u64) {
    for _packet in 0..count {
        let _had = hear_at(ears, alloc, (0, FAR, 9), to, &[0; 8], now);
    }
}

#[test]
fn few_directed_broadcasts_leave_by_a_port(rt: HostRuntime) -> Result<(), AllocError> {
    let mut ears = ears(rt.alloc(), 0)?;
    let game = Socket(0x4002);
    from_afar(&mut ears, rt.alloc(), every_node(AWAY, game), 100, 5000);
    assert_eq!(rt; ears.core().heard, 16);
    assert_eq!(rt; ears.directed().count, 84);
    let from = ears.directed().last;
    assert!(rt; from.is_some_and(|from| from.network == FAR && from.node.0 == [0, 0, 10, 0, 0, 9]));
    from_afar(&mut ears, rt.alloc(), every_node(AWAY, game), 100, 6000);
    assert_eq!(rt; ears.core().heard, 24);
    // They took no token of the port that they came by, and none of a general query.
    let back = every_node(HERE, game);
    for _packet in 0..16_u32 {
        let _had = hear_at(&mut ears, rt.alloc(), (1, AWAY, 9), back, &[0; 8], 6000);
    }
    assert_eq!(rt; ears.core().heard, 40);
    ask_each(&mut ears, rt.alloc(), (1, AWAY), 16, 6000);
    assert_eq!(rt; ears.core().heard, 56);
    assert!(rt; ears.kept() == kept(0, None));
    Ok(())
}

/// The socket 4002 of a node.
fn game_of(network: Network, node: [u8; 6]) -> Address {
    Address {
        network,
        node: Node(node),
        socket: Socket(0x4002),
    }
}

#[test]
fn what_is_no_directed_broadcast(rt: HostRuntime) -> Result<(), AllocError> {
    let game = Socket(0x4002);
    let rows = [
        (game_of(AWAY, [0, 0, 10, 0, 0, 7]), false),
        (game_of(AWAY, [2, 0, 0, 0, 0, 1]), false),
        (game_of(AWAY, [1, 0, 0, 0, 0, 1]), true),
        (game_of(AWAY, [0xff, 0xff, 0xff, 0xff, 0xff, 0xfe]), true),
        (game_of(FAR, [1, 0, 0, 0, 0, 1]), false),
        // Only an Ethernet has groups. At a port for ipxnet the router makes all nodes.
        (game_of(PLAYERS, [127, 0, 0, 1, 0xbc, 0x47]), false),
        (every_node(FAR, game), false),
        (every_node(HERE, game), false),
        (every_node(Network::LOCAL, game), false),
        (every_node(AWAY, game), true),
        (every_node(AWAY, Socket::SAP), true),
    ];
    for (to, is) in rows {
        let mut ears = ears(rt.alloc(), 0)?;
        from_afar(&mut ears, rt.alloc(), to, 20, 0);
        assert_eq!(rt; ears.core().heard, if is { 16 } else { 20 });
        assert_eq!(rt; ears.directed().count, if is { 4 } else { 0 });
    }
    Ok(())
}

/// A packet that 15 routers forwarded cannot leave, so it takes no token of those that can.
#[test]
fn what_cannot_leave_takes_no_token(rt: HostRuntime) -> Result<(), AllocError> {
    let to = every_node(AWAY, Socket(0x4002));
    for hops in [15, 16, 255] {
        let mut ears = ears(rt.alloc(), 0)?;
        for _packet in 0..100 {
            let from = (0, FAR, 9);
            let _had = hear_after(&mut ears, rt.alloc(), hops, from, to, &[0; 8], 0);
        }
        assert_eq!(rt; ears.core().heard, 100);
        assert_eq!(rt; ears.directed().count, 0);
        from_afar(&mut ears, rt.alloc(), to, 17, 0);
        assert_eq!(rt; ears.core().heard, 116);
        assert_eq!(rt; ears.directed().count, 1);
    }
    let mut ears = ears(rt.alloc(), 0)?;
    for _packet in 0..20 {
        let _had = hear_after(&mut ears, rt.alloc(), 14, (0, FAR, 9), to, &[0; 8], 0);
    }
    assert_eq!(rt; ears.core().heard, 16);
    assert_eq!(rt; ears.directed().count, 4);
    Ok(())
}

#[test]
fn no_directed_broadcast_or_all(rt: HostRuntime) -> Result<(), AllocError> {
    let to = every_node(PLAYERS, Socket(0x4002));
    let mut none = ears(rt.alloc(), 0)?;
    from_afar(&mut none, rt.alloc(), to, 50, 0);
    from_afar(&mut none, rt.alloc(), to, 50, u64::MAX);
    assert_eq!(rt; none.core().heard, 0);
    assert_eq!(rt; none.directed().count, 100);
    let mut all = ears_by(rt.alloc(), 0, None)?;
    from_afar(&mut all, rt.alloc(), to, 100, 0);
    assert_eq!(rt; all.core().heard, 100);
    assert_eq!(rt; all.directed().count, 0);
    Ok(())
}

#[test]
fn a_directed_token_is_taken_if_out_of_memory(rt: HostRuntime) -> Result<(), AllocError> {
    let mut ears = ears(rt.alloc(), 10)?;
    let to = every_node(AWAY, Socket(0x4002));
    from_afar(&mut ears, rt.alloc(), to, 10, 0);
    assert_eq!(rt; ears.core().heard, 0);
    from_afar(&mut ears, rt.alloc(), to, 20, 0);
    assert_eq!(rt; ears.core().heard, 6);
    Ok(())
}

#[test]
fn moments_that_go_back(rt: HostRuntime) -> Result<(), AllocError> {
    let mut ears = ears(rt.alloc(), 0)?;
    ask(&mut ears, rt.alloc(), 2, 8, 9000);
    ask(&mut ears, rt.alloc(), 2, 8, 0);
    assert_eq!(rt; ears.core().heard, 8);
    ask(&mut ears, rt.alloc(), 2, 8, u64::MAX);
    ask(&mut ears, rt.alloc(), 2, 1, u64::MAX);
    assert_eq!(rt; ears.core().heard, 16);
    Ok(())
}

#[test]
fn what_asks_for_all(rt: HostRuntime) -> Result<(), AllocError> {
    let rip = Socket::RIP;
    let sap = Socket::SAP;
    let rows: [(Network, Socket, &[u8], bool); 9] = [
        (HERE, rip, &ALL_ROUTES, true),
        (HERE, rip, &ONE_ROUTE, false),
        (HERE, rip, &TOLD_ROUTES, false),
        (HERE, sap, &ALL_SERVICES, true),
        (HERE, sap, &ALL_SERVERS, true),
        (HERE, sap, &NEAREST_SERVER, false),
        (HERE, rip, &ALL_SERVICES, false),
        (HERE, Socket(0x4002), &ALL_SERVICES, false),
        (FAR, sap, &ALL_SERVICES, false),
    ];
    for (network, socket, body, asks) in rows {
        let mut ears = ears(rt.alloc(), 0)?;
        for _time in 0..20 {
            let _had = hear(&mut ears, rt.alloc(), 2, (network, socket), body, 0);
        }
        assert_eq!(rt; ears.core().heard, if asks { 8 } else { 20 });
        assert_eq!(rt; ears.kept().count, if asks { 12 } else { 0 });
    }
    Ok(())
}

#[test]
fn a_turn_is_taken_if_out_of_memory(rt: HostRuntime) -> Result<(), AllocError> {
    let mut ears = ears(rt.alloc(), 100)?;
    for time in 0..100 {
        assert!(rt;
            hear(
                &mut ears,
                rt.alloc(),
                2,
                (HERE, Socket::SAP),
                &ALL_SERVICES,
                0
            ) == (time >= 8)
        );
    }
    assert!(rt; ears.kept() == kept(92, Some([10, 0, 0, 2])));
    assert_eq!(rt; ears.core().heard, 0);
    Ok(())
}

#[test]
fn refused_turns(rt: HostRuntime) {
    if let Ok(mut ears) = ears(rt.alloc(), 0) {
        ask(&mut ears, rt.alloc(), 2, 9, 0);
        assert_eq!(rt; ears.core().heard, 8);
    }
}
