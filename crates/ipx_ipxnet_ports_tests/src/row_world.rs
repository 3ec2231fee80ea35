//! Rows of datagrams, as tests/data/players.rows has them, at its first router. `row` begins one,
//! and names it. `in WHO BYTES` is a datagram that is sent, and `out WHO BYTES` one that arrives;
//! nothing else arrives anywhere. `61*9` is nine bytes 61. A line that begins with a blank
//! continues the line before.
//!
//! a, b, c, u and v are at the port of network 0000d05b, which has room for four. e, f, g, i and s
//! are at that of 0000d05e, to which j and k are joined. h is a host of 00000081, and r the second
//! router there: what it sends has one of its two hops.

use crate::fixture::SECRET;
use ipx_carrier::{Core, PortDriver, RouterCore};
use ipx_ipxnet_ports::{MemoryPlaces, Servers};
use ipx_router::{Port, Router};
use ipx_wire::{Network, Node};
use ipxnet_server::{IpxnetServer, ServerPort};
use std::alloc::Global;
use std::net::{Ipv4Addr, SocketAddrV4};
use std::process::Abort;
use std::test::Fail;

/// The node of the router at both ports.
const OWN: Node = Node([2, 0, 0, 0, 0, 0xd0]);

const PORT: ServerPort = ServerPort {
    network: Network(0xd05b),
    own: OWN,
    secret: SECRET,
};

const JOINED: ServerPort = ServerPort {
    network: Network(0xd05e),
    own: OWN,
    secret: SECRET,
};

/// The port of the core after both, and who is there.
const WIRED: usize = 2;

const HOSTS: [(u8, Node); 2] = [
    (b'h', Node([0, 0, 0x7f, 0, 6, 20])),
    (b'r', Node([0, 0, 0x7f, 0, 6, 2])),
];

/// Who is at which port, and the address: the last byte of the IP address, and the UDP port.
const ENDS: [(u8, usize, u8, u16); 12] = [
    (b'a', 0, 11, 24611),
    (b'b', 0, 12, 24612),
    (b'c', 0, 13, 24613),
    (b'u', 0, 15, 24615),
    (b'v', 0, 16, 24616),
    (b'e', 1, 18, 24618),
    (b'f', 1, 19, 24619),
    (b'g', 1, 26, 24626),
    (b'i', 1, 27, 24627),
    (b's', 1, 8, 24628),
    (b'j', 1, 8, 24608),
    (b'k', 1, 9, 24609),
];

/// A datagram of a row: whether it is sent to the router, and its sender or receiver.
#[derive(Debug, Drop)]
struct Datagram {
    is_sent: bool,
    who: u8,
    bytes: Vec<u8>,
}

/// The router, and what arrived at each after the last that was sent.
#[derive(Drop)]
struct RowWorld {
    core: RouterCore,
    servers: Servers<MemoryPlaces>,
    now: u64,
    seen: usize,
    came: Vec<Datagram>,
}

fn place(last: u8, udp_port: u16) -> SocketAddrV4 {
    SocketAddrV4::new(Ipv4Addr::new(127, 0, 6, last), udp_port)
}

/// The port and the address of a member at a port.
fn end_of(who: u8) -> Option<(usize, SocketAddrV4)> {
    let end = ENDS.iter().find(|end| end.0 == who)?;
    Some((end.1, place(end.2, end.3)))
}

/// Puts the bytes of a word after others.
fn put_word(alloc: Global, bytes: &mut Vec<u8>, word: &[u8]) -> Result<(), Fail> {
    let mut parts = word.split(|byte| *byte == b'*');
    let part = hex::decode(alloc, parts.next().unwrap_or_default())?;
    let mut times = 0_u32;
    for digit in parts.next().unwrap_or(b"1".as_slice()) {
        times = 10 * times + u32::from(*digit - b'0');
    }
    for _ in 0..times {
        bytes.extend_from_slice(&part)?;
    }
    Ok(())
}

/// The datagrams of rows, in order.
fn datagrams_of(alloc: Global, rows: &str) -> Result<Vec<Datagram>, Fail> {
    let mut datagrams: Vec<Datagram> = Vec::new(alloc);
    for line in rows.lines() {
        let mut words = line.as_bytes().split(|byte| *byte == b' ');
        let first = words.next().unwrap_or_default();
        if first == b"row".as_slice() {
            continue;
        }
        if !first.is_empty() {
            datagrams.push(Datagram {
                is_sent: first == b"in".as_slice(),
                who: words.next().unwrap_or_default()[0],
                bytes: Vec::new(alloc),
            })?;
        }
        for word in words {
            if let Some(last) = datagrams.last_mut() {
                put_word(alloc, &mut last.bytes, word)?;
            }
        }
    }
    Ok(datagrams)
}

/// The router, at whose ports all that is sent there waits.
fn world(alloc: Global, datagrams: &[Datagram]) -> Result<RowWorld, Fail> {
    let mut sockets = MemoryPlaces::new(alloc, WIRED);
    for sent in datagrams.iter().filter(|it| it.is_sent) {
        if let Some((port, place)) = end_of(sent.who) {
            sockets.put(port, place, &sent.bytes)?;
        }
    }
    let routers = Vec::from_slice(alloc, &[place(8, 24608), place(9, 24609)])?;
    let mut servers = Vec::new(alloc);
    servers.push(IpxnetServer::new(alloc, PORT, 4)?)?;
    servers.push(IpxnetServer::joined_to(alloc, JOINED, 64, routers)?)?;
    let mut ports = Vec::new(alloc);
    for (network, node) in [
        (0xd05b, OWN),
        (0xd05e, OWN),
        (0x81, Node([0, 0, 0x7f, 0, 6, 1])),
    ] {
        ports.push(Port {
            network: Network(network),
            node,
            cost: 1,
        })?;
    }
    Ok(RowWorld {
        core: RouterCore::new(alloc, Router::new(alloc, ports)?),
        servers: Servers::new(sockets, servers),
        now: 0,
        seen: 0,
        came: Vec::new(alloc),
    })
}

/// Records what arrived at a member.
fn keep(alloc: Global, came: &mut Vec<Datagram>, who: u8, bytes: &[u8]) -> Result<(), Fail> {
    came.push(Datagram {
        is_sent: false,
        who,
        bytes: bytes.to_vec(alloc)?,
    })?;
    Ok(())
}

impl RowWorld {
    /// The router receives a datagram, and sends what comes of it. What it advertises to all nodes
    /// of 00000081 is left out.
    fn hear(&mut self, alloc: Global, sent: &Datagram) -> Result<(), Fail> {
        let mut room = [0; 1536];
        self.now += 1000;
        self.servers.set_time(self.now);
        match end_of(sent.who) {
            None => self.core.hear(alloc, WIRED, &sent.bytes, self.now)?,
            Some((port, _)) => {
                if let Some(size) = self.servers.receive(port, &mut room)? {
                    self.core.hear(alloc, port, &room[..size], self.now)?;
                }
            }
        }
        while let Some((port, node, size)) = self.core.next(alloc, self.now, &mut room)? {
            if port < WIRED {
                self.servers.send(port, node, &room[..size])?;
            } else if node != Node::BROADCAST {
                let host = HOSTS.iter().find(|host| host.1 == node);
                keep(
                    alloc,
                    &mut self.came,
                    host.map_or(b'?', |host| host.0),
                    &room[..size],
                )?;
            }
        }
        self.take_sent(alloc)
    }

    /// What the ports sent since then arrived at their members.
    fn take_sent(&mut self, alloc: Global) -> Result<(), Fail> {
        for sent in &self.servers.sockets().went()[self.seen..] {
            let end = ENDS.iter().find(|end| end.1 == sent.port
                && place(end.2, end.3) == sent.place);
            keep(
                alloc,
                &mut self.came,
                end.map_or(b'?', |end| end.0),
                &sent.bytes,
            )?;
        }
        self.seen = self.servers.sockets().went().len();
        Ok(())
    }

    /// Whether a datagram arrived where it was expected. It is then removed from what arrived.
    fn came(&mut self, wanted: &Datagram) -> bool {
        let place = self.came.iter().position(|it| {
            it.who == wanted.who && it.bytes.as_slice() == wanted.bytes.as_slice()
        });
        match place {
            Some(place) => {
                self.came.swap_remove(place);
                true
            }
            None => false,
        }
    }
}

/// Runs rows after others: exactly what is expected of a datagram has arrived before the next one
/// is sent.
pub fn runs(rt: &impl Abort, alloc: Global, before: &str, rows: &str) -> Result<(), Fail> {
    let text = format!(in alloc; "{before}{rows}")?;
    let datagrams = datagrams_of(alloc, &text)?;
    let mut world = world(alloc, &datagrams)?;
    for (number, it) in datagrams.iter().enumerate() {
        if it.is_sent {
            assert_eq!(rt; (number, world.came.len()), (number, 0));
            world.hear(alloc, it)?;
        } else {
            assert_eq!(rt; (number, world.came(it)), (number, true));
        }
    }
    assert!(rt; world.came.is_empty());
    Ok(())
}
