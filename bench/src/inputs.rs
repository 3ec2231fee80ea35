//! The datagrams that both routers are given, made by a fixed rule.

/// How many bytes come before a datagram in a record. The first is the port that it comes in on.
pub const LEAD: usize = 16;

/// The network of port N, 11 (hexadecimal) times N. The node of port N ends in N.
pub const fn port_network(port: u8) -> u32 {
    0x11 * port as u32
}

/// The networks of ports 1, 2 and 3, which are all that datagrams come in on.
pub const PORT_NETWORKS: [u32; 3] = [port_network(1), port_network(2), port_network(3)];

/// The first of the networks that are learned. The others follow it.
pub const FIRST_LEARNED: u32 = 0x1000;

/// How many packets are handed over in turn.
pub const VARIETY: usize = 64;

/// How many datagrams are refused in turn.
const REFUSED: u32 = 1024;

/// When records come in, in milliseconds: how long after the one before it, and how long after the
/// beginning of the round before it a round begins.
#[derive(Clone, Copy)]
pub struct Pace {
    pub apart: u64,
    pub period: u64,
}

/// All at one moment.
pub const AT_ONCE: Pace = Pace {
    apart: 0,
    period: 0,
};

/// Records of one size, one behind the other.
pub struct Records {
    pub bytes: Vec<u8>,
    pub size: usize,
}

impl Records {
    pub fn none() -> Self {
        Records {
            bytes: Vec::new(),
            size: LEAD,
        }
    }

    pub fn count(&self) -> usize {
        self.bytes.len() / self.size
    }

    /// The datagrams without what comes before them.
    pub fn datagrams(&self) -> Vec<u8> {
        let records = self.bytes.chunks_exact(self.size);
        records
            .flat_map(|record| &record[LEAD..])
            .copied()
            .collect()
    }

    fn of(size: usize, records: impl Iterator<Item = (u8, Vec<u8>)>) -> Self {
        let mut bytes = Vec::new();
        for (port, datagram) in records {
            let end = bytes.len() + size;
            bytes.push(port);
            bytes.resize(bytes.len() + LEAD - 1, 0);
            bytes.extend(datagram);
            // Bytes behind a packet are ignored.
            bytes.resize(end, 0);
        }
        Records { bytes, size }
    }
}

fn node(last: u32) -> [u8; 6] {
    let [a, b, c, d] = last.to_be_bytes();
    [0, 0x7f, a, b, c, d]
}

fn port_node(port: u8) -> [u8; 6] {
    [0, 0, 0x7f, 0, 0, port]
}

struct End {
    network: u32,
    node: [u8; 6],
    socket: u16,
}

fn datagram(hops: u8, kind: u8, to: End, from: End, body: &[u8]) -> Vec<u8> {
    let mut bytes = vec![0xff, 0xff];
    bytes.extend((30 + body.len() as u16).to_be_bytes());
    bytes.extend([hops, kind]);
    for end in [to, from] {
        bytes.extend(end.network.to_be_bytes());
        bytes.extend(end.node);
        bytes.extend(end.socket.to_be_bytes());
    }
    bytes.extend(body);
    bytes
}

/// Packets of a size for the networks that a rule names, which come in on port 1. Each fourth names
/// network 0 as its source.
pub fn packets(size: usize, network: impl Fn(u32) -> u32) -> Records {
    let body = (0..size - 30)
        .map(|i| (i * 7 % 251) as u8)
        .collect::<Vec<_>>();
    let one = |k: u32| {
        let to = End {
            network: network(k),
            node: node(k),
            socket: 0x4000 + k as u16,
        };
        let from = End {
            network: if k % 4 == 3 { 0 } else { PORT_NETWORKS[0] },
            node: node(0x100 + k),
            socket: 0x5000,
        };
        (1, datagram((k % 15) as u8, 4, to, from, &body))
    };
    Records::of(LEAD + size, (0..VARIETY as u32).map(one))
}

/// A step of a linear congruential rule, whose upper bits look like chance.
fn stepped(number: u32) -> u32 {
    number.wrapping_mul(1_664_525).wrapping_add(1_013_904_223)
}

/// Datagrams of a size over 1,500 that are no packets, for one cause of four. The causes follow no
/// short cycle, which a processor's branch predictor would learn.
pub fn refused(size: usize) -> Records {
    let end = || End {
        network: 0x22,
        node: node(5),
        socket: 0x4000,
    };
    let mut chance = 0;
    let one = |k: u32| {
        chance = stepped(chance);
        let mut bytes = datagram(0, 4, end(), end(), &[]);
        let length = match chance >> 30 {
            0 => size as u32 + 1 + k,
            1 => k % 30,
            2 => 1501 + k % (size as u32 - 1500),
            _ => {
                bytes[1] = (k % 255) as u8;
                30
            }
        };
        bytes[2..4].copy_from_slice(&(length as u16).to_be_bytes());
        (1, bytes)
    };
    Records::of(LEAD + size, (0..REFUSED).map(one))
}

/// A control packet by broadcast from the neighbour on a port.
fn control(port: u8, socket: u16, body: &[u8]) -> (u8, Vec<u8>) {
    let network = PORT_NETWORKS[usize::from(port) - 1];
    let to = End {
        network,
        node: [0xff; 6],
        socket,
    };
    let from = End {
        network,
        node: node(u32::from(port)),
        socket,
    };
    let kind = if socket == 0x0453 { 1 } else { 4 };
    (port, datagram(0, kind, to, from, body))
}

fn route(number: u32) -> [u8; 8] {
    let [a, b, c, d] = (FIRST_LEARNED + number).to_be_bytes();
    let hops = (1 + number % 14) as u8;
    let ticks = (2 + number % 30) as u8;
    [a, b, c, d, 0, hops, 0, ticks]
}

fn rip_response(port: u8, numbers: impl Iterator<Item = u32>) -> (u8, Vec<u8>) {
    let entries = numbers.flat_map(route);
    control(
        port,
        0x0453,
        &[0, 2].into_iter().chain(entries).collect::<Vec<_>>(),
    )
}

fn service(number: u32) -> [u8; 64] {
    let mut bytes = [0; 64];
    bytes[1] = 4 + (number % 3) as u8;
    let name = format!("SERVER-{:04}", number * 1237 % 4096);
    bytes[2..2 + name.len()].copy_from_slice(name.as_bytes());
    bytes[50..54].copy_from_slice(&(FIRST_LEARNED + number % 1024).to_be_bytes());
    bytes[59] = 1;
    bytes[60..62].copy_from_slice(&[0x04, 0x51]);
    bytes[63] = (1 + number % 14) as u8;
    bytes
}

fn sap_response(port: u8, numbers: impl Iterator<Item = u32>) -> (u8, Vec<u8>) {
    let entries = numbers.flat_map(service);
    control(
        port,
        0x0452,
        &[0, 2].into_iter().chain(entries).collect::<Vec<_>>(),
    )
}

/// The numbers below `count`, cut into parts of at most `most`, with a port for each in turn.
fn parts(count: u32, most: u32, ports: &[u8]) -> impl Iterator<Item = (u8, std::ops::Range<u32>)> {
    let starts = (0..count).step_by(most as usize);
    starts
        .zip(ports.iter().cycle())
        .map(move |(start, port)| (*port, start..count.min(start + most)))
}

const RIP_RECORD: usize = LEAD + 30 + 2 + 8 * 50;
const SAP_RECORD: usize = LEAD + 30 + 2 + 64 * 7;

/// RIP responses that tell so many routes, over these ports in turn.
pub fn routes(count: u32, ports: &[u8]) -> Records {
    let responses = parts(count, 50, ports).map(|(port, numbers)| rip_response(port, numbers));
    Records::of(RIP_RECORD, responses)
}

/// One RIP response of 50 of so many routes, from the neighbour on port 2, evenly apart.
pub fn fifty_of(count: u32) -> Records {
    let apart = (0..50).map(move |k| k * (count / 50));
    Records::of(RIP_RECORD, [rip_response(2, apart)].into_iter())
}

/// RIP and SAP responses that tell so many routes and services, over all three ports in turn.
pub fn routes_and_services(routes: u32, services: u32) -> Records {
    let rip = parts(routes, 50, &[1, 2, 3]).map(|(port, numbers)| rip_response(port, numbers));
    let sap = parts(services, 7, &[1, 2, 3]).map(|(port, numbers)| sap_response(port, numbers));
    Records::of(SAP_RECORD, rip.chain(sap))
}

/// The same, and then all of it again with 16 hops.
pub fn told_and_withdrawn(routes: u32, services: u32) -> Records {
    let mut records = routes_and_services(routes, services);
    let mut gone = records.bytes.clone();
    gone.chunks_exact_mut(records.size).for_each(withdraw);
    records.bytes.extend(gone);
    records
}

/// Gives each entry of a response 16 hops.
fn withdraw(record: &mut [u8]) {
    let end = LEAD + usize::from(u16::from_be_bytes([record[LEAD + 2], record[LEAD + 3]]));
    let (size, hops) = match record[LEAD + 5] {
        1 => (8, 4),
        _ => (64, 62),
    };
    for entry in record[LEAD + 32..end].chunks_exact_mut(size) {
        entry[hops..hops + 2].copy_from_slice(&16u16.to_be_bytes());
    }
}

/// RIP and SAP responses as of `routes_and_services`, with the services in the order of their types
/// and names.
pub fn routes_and_services_by_key(routes: u32, services: u32) -> Records {
    let rip = parts(routes, 50, &[1, 2, 3]).map(|(port, numbers)| rip_response(port, numbers));
    let mut by_key = (0..services).collect::<Vec<_>>();
    by_key.sort_unstable_by_key(|number| (number % 3, number * 1237 % 4096));
    let sap = by_key
        .chunks(7)
        .zip([1, 2, 3].into_iter().cycle())
        .map(|(numbers, port)| sap_response(port, numbers.iter().copied()));
    Records::of(SAP_RECORD, rip.chain(sap))
}

/// A request or query by broadcast from the neighbour on port 1.
pub fn asking(socket: u16, body: &[u8]) -> Records {
    Records::of(RIP_RECORD, [control(1, socket, body)].into_iter())
}

/// Requests and queries, and datagrams that are refused, one for each cause.
pub fn others() -> Records {
    let good = |hops, kind, network| {
        let to = End {
            network,
            node: node(5),
            socket: 0x4000,
        };
        let from = End {
            network: 0x11,
            node: node(6),
            socket: 0x5000,
        };
        datagram(hops, kind, to, from, b"abc")
    };
    let changed = |at: usize, byte: u8| {
        let mut bytes = good(0, 4, 0x22);
        bytes[at] = byte;
        bytes
    };
    let at_node = |port: u8, socket: u16, body: &[u8]| {
        let (_, mut bytes) = control(port, socket, body);
        bytes[10..16].copy_from_slice(&port_node(port));
        (port, bytes)
    };
    let asked = [0, 1, 0, 0, 0x10, 5, 0, 0, 0, 0, 0, 0, 0, 0x33, 0, 0, 0, 0];
    let all = [0, 1, 0xff, 0xff, 0xff, 0xff, 0, 0, 0, 0];
    let gone = [0, 2, 0, 0, 0x10, 5, 0, 16, 0, 3];
    let records = [
        (1, good(3, 4, 0x33)),
        (1, good(15, 4, 0x33)),
        (1, good(3, 20, 0x33)),
        (1, good(3, 4, 0)),
        (1, good(3, 4, 0x99)),
        (1, changed(0, 0)),
        (1, changed(3, 29)),
        (1, changed(2, 7)),
        (2, control(2, 0x0453, &[0]).1),
        (2, control(2, 0x0453, &[0, 9]).1),
        (2, control(2, 0x0452, &[0, 1, 0]).1),
        at_node(2, 0x0453, &all),
        at_node(1, 0x0453, &asked),
        at_node(3, 0x0452, &[0, 1, 0xff, 0xff]),
        at_node(3, 0x0452, &[0, 3, 0, 4]),
        at_node(1, 0x0452, &[0, 3, 0, 9]),
        control(1, 0x0453, &gone),
        at_node(2, 0x0453, &all),
        (2, control(2, 0x0451, b"abc").1),
    ];
    Records::of(RIP_RECORD, records.into_iter())
}
