//! Random internetworks in memory, drawn from a seed: several routers on one network, and hosts
//! that use any of their network's routers. Each access list names the routers. Nobody forges
//! packets there, and nothing is dropped by access lists.

use ipx_carrier::{
    Datagrams, DeviceFault, PriorityRouterCore, Rfc1234Ports, SteppedClock, node_of, run_batch,
};
use ipx_router::{Port, Router};
use ipx_sockets::{AccessList, Senders, SourceFilter};
use ipx_wire::{Address, IpxHeader, Network, Node, Packet, Socket, decode, encode_into};
use std::alloc::Global;
use std::collections::VecDeque;
use std::test::Fail;

/// The seed of all random numbers, not 0.
const SEED: u64 = 1;

/// How many internetworks are drawn.
const INTERNETWORKS: usize = 100;

/// How often each of them sends and receives.
const ROUNDS: u64 = 12;

/// Random numbers from shifts (Marsaglia's xorshift).
#[derive(Drop)]
struct Dice {
    state: u64,
}

impl Dice {
    fn below(&mut self, count: usize) -> usize {
        self.state ^= self.state << 13;
        self.state ^= self.state >> 7;
        self.state ^= self.state << 17;
        (self.state % count as u64) as usize
    }
}

/// A datagram at a port: from an IP address, or to one.
#[derive(Drop)]
struct Letter {
    port: usize,
    ip: [u8; 4],
    bytes: Vec<u8>,
}

/// A device whose datagrams all arrived before it was read, and which stores what it sends.
#[derive(Drop)]
struct Post {
    alloc: Global,
    ports: usize,
    came: VecDeque<Letter>,
    sent: Vec<Letter>,
    sender: Option<[u8; 4]>,
}

impl Datagrams for Post {
    ghost use Rattle.std.specs.Prelude.{[], None};

    ghost port_count = { λ d. d.ports };

    ghost failed = { λ d. 0 };

    ghost traffic = { λ d. None };

    ghost waiting = { λ d. None };

    ghost fails = { λ d failed e. Unit {0} };

    ghost access = { λ d. [] };

    ghost filtered = { λ d. 0 };

    ghost receives = { λ d port size answer e. Unit {0} };

    ghost sends = { λ d datagram e. Unit {0} };

    ghost fails_to_receive = { λ d port size e. Unit {0} };

    ghost fails_to_send = { λ d datagram e. Unit {0} };

    fn ports(&self) -> usize {
        self.ports
    }

    fn failures(&self) -> u64 {
        0
    }

    fn send(&mut self, port: usize, to: [u8; 4], bytes: &[u8]) -> Result<(), DeviceFault> {
        let Ok(bytes) = Vec::from_slice(self.alloc, bytes) else {
            return Err(DeviceFault);
        };
        let letter = Letter {
            port,
            ip: to,
            bytes,
        };
        match self.sent.push(letter) {
            Ok(()) => Ok(()),
            Err(_) => Err(DeviceFault),
        }
    }

    fn receive(&mut self, port: usize, room: &mut [u8]) -> Result<Option<usize>, DeviceFault> {
        for _letter in 0..self.came.len() {
            let Some(letter) = self.came.pop_front() else {
                return Ok(None);
            };
            if letter.port == port {
                let count = letter.bytes.len().min(room.len());
                room[..count].copy_from_slice(&letter.bytes[..count]);
                self.sender = Some(letter.ip);
                return Ok(Some(count));
            }
            if self.came.push_back(letter).is_err() {
                return Err(DeviceFault);
            }
        }
        Ok(None)
    }
}

impl Senders for Post {
    ghost last_sender = { λ d. d.sender };

    fn sender(&self) -> Option<[u8; 4]> {
        self.sender
    }
}

/// A router or a host with a port on each of its networks. A host uses the router with this number.
#[derive(Drop)]
struct PresentEnd {
    core: Option<PriorityRouterCore>,
    router: usize,
    networks: Vec<usize>,
    came: VecDeque<Letter>,
}

/// An internetwork, and its counts.
#[derive(Drop)]
struct Internetwork {
    alloc: Global,
    networks: usize,
    stands: Vec<PresentEnd>,
    carried: u64,
    handed_on: u64,
    unknown_senders: u64,
    spoofed: u64,
    not_a_router: u64,
}

/// The number of a network.
fn network_of(place: usize) -> Network {
    Network(place as u32 + 1)
}

/// The IP address of one of them on a network.
fn ip_of(network: usize, stand: usize) -> [u8; 4] {
    [10, 0, network as u8, stand as u8]
}

impl Internetwork {
    /// Networks, and routers on two or three of them each.
    fn drawn(alloc: Global, dice: &mut Dice) -> Result<Internetwork, Fail> {
        let networks = 3 + dice.below(4);
        let mut net = Internetwork {
            alloc,
            networks,
            stands: Vec::new(alloc),
            carried: 0,
            handed_on: 0,
            unknown_senders: 0,
            spoofed: 0,
            not_a_router: 0,
        };
        let routers = 2 + dice.below(4);
        for number in 0..routers {
            net.add_router(dice, number)?;
        }
        net.add_hosts(dice, routers)?;
        Ok(net)
    }

    fn add_router(&mut self, dice: &mut Dice, number: usize) -> Result<(), Fail> {
        let count = 2 + dice.below(2);
        let first = dice.below(self.networks);
        let step = 1 + dice.below(self.networks / count);
        let mut networks = Vec::new(self.alloc);
        let mut ports = Vec::new(self.alloc);
        for place in 0..count {
            let network = (first + place * step) % self.networks;
            networks.push(network)?;
            ports.push(Port {
                network: network_of(network),
                node: node_of(ip_of(network, number)),
                cost: 1,
            })?;
        }
        let router = Router::new(self.alloc, ports)?;
        self.stands.push(PresentEnd {
            core: Some(PriorityRouterCore::new(self.alloc, router)),
            router: number,
            networks,
            came: VecDeque::new(self.alloc),
        })?;
        Ok(())
    }

    /// One to three hosts on each network that has a router, each with any of its routers.
    fn add_hosts(&mut self, dice: &mut Dice, routers: usize) -> Result<(), Fail> {
        for network in 0..self.networks {
            for _host in 0..1 + dice.below(3) {
                let router = dice.below(routers);
                if self.stands[router].networks.contains(&network) {
                    self.stands.push(PresentEnd {
                        core: None,
                        router,
                        networks: vec![in self.alloc; network]?,
                        came: VecDeque::new(self.alloc),
                    })?;
                }
            }
        }
        Ok(())
    }

    /// The IP addresses of all others on a network.
    fn others_on(&self, network: usize, me: usize) -> Result<Vec<[u8; 4]>, Fail> {
        let mut others = Vec::new(self.alloc);
        for (number, stand) in self.stands.iter().enumerate() {
            if number != me && stand.networks.contains(&network) {
                others.push(ip_of(network, number))?;
            }
        }
        Ok(others)
    }

    /// The IP addresses of all routers on a network.
    fn routers_on(&self, network: usize) -> Result<Vec<[u8; 4]>, Fail> {
        let mut routers = Vec::new(self.alloc);
        for (number, stand) in self.stands.iter().enumerate() {
            if stand.core.is_some() && stand.networks.contains(&network) {
                routers.push(ip_of(network, number))?;
            }
        }
        Ok(routers)
    }

    /// Carries a datagram on a network to the one that has this IP address, if there is one.
    fn carry(
        &mut self,
        network: usize,
        from: [u8; 4],
        to: [u8; 4],
        bytes: &[u8],
    ) -> Result<(), Fail> {
        self.carried += 1;
        if let Ok(packet) = decode(bytes) {
            let header = packet.header;
            let here = network_of(network);
            let away = header.to.network != Network::LOCAL && header.to.network != here;
            if header.from.network == here && away && header.hops > 0 {
                self.handed_on += 1;
            }
        }
        let number = to[3] as usize;
        if number >= self.stands.len() {
            return Ok(());
        }
        let place = self.stands[number]
            .networks
            .iter()
            .position(|it| *it == network);
        if let Some(port) = place {
            let bytes = Vec::from_slice(self.alloc, bytes)?;
            self.stands[number].came.push_back(Letter {
                port,
                ip: from,
                bytes,
            })?;
        }
        Ok(())
    }

    /// A device with what arrived for one of them, whose peers are all others on its networks.
    fn device_of(&mut self, me: usize) -> Result<(SourceFilter<Post>, Vec<Vec<[u8; 4]>>), Fail> {
        let mut access_lists = Vec::new(self.alloc);
        let mut lists = Vec::new(self.alloc);
        for port in 0..self.stands[me].networks.len() {
            let network = self.stands[me].networks[port];
            access_lists.push(AccessList {
                network: network_of(network),
                sends: Some(self.others_on(network, me)?),
                hears: Some(self.others_on(network, me)?),
                routers: Some(self.routers_on(network)?),
            })?;
            lists.push(self.others_on(network, me)?)?;
        }
        let mut came = VecDeque::new(self.alloc);
        std::mem::swap(&mut came, &mut self.stands[me].came);
        let post = Post {
            alloc: self.alloc,
            ports: access_lists.len(),
            came,
            sent: Vec::new(self.alloc),
            sender: None,
        };
        Ok((SourceFilter::new(post, access_lists), lists))
    }

    fn count(&mut self, device: &SourceFilter<Post>) {
        let kept = device.kept();
        self.unknown_senders += kept.unknown_senders.count;
        self.spoofed += kept.spoofed.count;
        self.not_a_router += kept.not_a_router.count;
    }

    /// A router receives what came, and sends what it has to.
    fn run_router(&mut self, me: usize, now: u64) -> Result<(), Fail> {
        let (mut device, peers) = self.device_of(me)?;
        let alloc = self.alloc;
        let Some(core) = &mut self.stands[me].core else {
            return Ok(());
        };
        let mut clock = SteppedClock::new(now, 0);
        let mut driver = Rfc1234Ports {
            datagrams: &mut device,
            peers: &peers,
        };
        let _batch = run_batch(alloc, core, &mut driver, &mut clock, 10_000);
        self.count(&device);
        for letter in &device.device().sent {
            let network = self.stands[me].networks[letter.port];
            self.carry(network, ip_of(network, me), letter.ip, &letter.bytes)?;
        }
        Ok(())
    }

    /// A host receives what came.
    fn run_host(&mut self, me: usize) -> Result<(), Fail> {
        let (mut device, _peers) = self.device_of(me)?;
        let mut room = [0; 1500];
        for _letter in 0..device.device().came.len() {
            let _heard = device.receive(0, &mut room);
        }
        self.count(&device);
        Ok(())
    }

    /// A host sends a packet to any other, or to a network that does not exist, and sometimes asks
    /// for all routes. It may leave out the number of its network.
    fn speak(&mut self, dice: &mut Dice, me: usize) -> Result<(), Fail> {
        let network = self.stands[me].networks[0];
        let here = network_of(network);
        let far = dice.below(self.stands.len());
        if far == me {
            return Ok(());
        }
        let places = self.stands[far].networks.len();
        let place = self.stands[far].networks[dice.below(places)];
        let to_all = dice.below(8) == 0;
        let mut to = Address {
            network: network_of(place),
            node: node_of(ip_of(place, far)),
            socket: Socket(0x4002),
        };
        if to_all {
            to = Address {
                network: here,
                node: Node::BROADCAST,
                socket: Socket::RIP,
            };
        } else if dice.below(10) == 0 {
            to.network = Network(99);
        }
        let stays = to.network == here;
        if stays && dice.below(2) == 0 {
            to.network = Network::LOCAL;
        }
        let left_out = dice.below(3) == 0;
        let header = IpxHeader {
            hops: 0,
            kind: if to_all { 1 } else { 4 },
            to,
            from: Address {
                network: if left_out { Network::LOCAL } else { here },
                node: node_of(ip_of(network, me)),
                socket: Socket(0x4003),
            },
        };
        let mut room = [0; 40];
        let packet = Packet {
            header,
            body: &[0, 1, 0xff, 0xff, 0xff, 0xff, 0xff, 0xff, 0xff, 0xff],
        };
        let count = encode_into(&packet, &mut room);
        let next = if stays { far } else { self.stands[me].router };
        if to_all {
            for ip in &self.others_on(network, me)? {
                self.carry(network, ip_of(network, me), *ip, &room[..count])?;
            }
            return Ok(());
        }
        self.carry(
            network,
            ip_of(network, me),
            ip_of(network, next),
            &room[..count],
        )
    }

    /// Each host sends a packet, and all receive and send what there is.
    fn round(&mut self, dice: &mut Dice, now: u64) -> Result<(), Fail> {
        for me in 0..self.stands.len() {
            if self.stands[me].core.is_some() {
                self.run_router(me, now)?;
            } else {
                self.run_host(me)?;
                self.speak(dice, me)?;
            }
        }
        Ok(())
    }
}

#[test]
fn no_true_packet_is_kept_back(rt: HostRuntime) -> Result<(), Fail> {
    let mut dice = Dice { state: SEED };
    let (mut carried, mut handed_on) = (0, 0);
    for number in 0..INTERNETWORKS {
        let mut net = Internetwork::drawn(rt.alloc(), &mut dice)?;
        for round in 0..ROUNDS {
            net.round(&mut dice, round * 5000)?;
        }
        assert!(rt;
            net.spoofed == 0 && net.unknown_senders == 0 && net.not_a_router == 0,
            "internetwork {number} of seed {SEED}: {} forged, {} of strangers, {} no router's",
            net.spoofed,
            net.unknown_senders,
            net.not_a_router
        );
        carried += net.carried;
        handed_on += net.handed_on;
    }
    assert!(rt; handed_on > 100);
    println!(rt;
        "seed {SEED}: {INTERNETWORKS} internetworks, {carried} datagrams, of which {handed_on} were handed on along their network"
    )?;
    Ok(())
}

/// How many forged datagrams wait at once.
const FORGED: usize = 10_000;

/// A packet from this node of network 1, for the node 10.0.0.9 of it.
fn letter_from(alloc: Global, node: [u8; 4]) -> Result<Letter, Fail> {
    let header = IpxHeader {
        hops: 0,
        kind: 4,
        to: Address {
            network: network_of(0),
            node: node_of([10, 0, 0, 9]),
            socket: Socket(0x4002),
        },
        from: Address {
            network: network_of(0),
            node: node_of(node),
            socket: Socket(0x4003),
        },
    };
    let mut bytes = [0; 30];
    let _count = encode_into(&Packet { header, body: &[] }, &mut bytes);
    Ok(Letter {
        port: 0,
        ip: [10, 0, 0, 1],
        bytes: Vec::from_slice(alloc, &bytes)?,
    })
}

#[test]
fn what_waits_after_forged_datagrams_is_heard(rt: HostRuntime) -> Result<(), Fail> {
    let alloc = rt.alloc();
    let mut came = VecDeque::new(alloc);
    for _letter in 0..FORGED {
        came.push_back(letter_from(alloc, [10, 0, 0, 2])?)?;
    }
    came.push_back(letter_from(alloc, [10, 0, 0, 1])?)?;
    let access_list = AccessList {
        network: network_of(0),
        sends: Some(Vec::new(alloc)),
        hears: None,
        routers: None,
    };
    let post = Post {
        alloc,
        ports: 1,
        came,
        sent: Vec::new(alloc),
        sender: None,
    };
    let mut device = SourceFilter::new(post, vec![in alloc; access_list]?);
    let port = Port {
        network: network_of(0),
        node: node_of([10, 0, 0, 8]),
        cost: 1,
    };
    let mut core = PriorityRouterCore::new(alloc, Router::new(alloc, vec![in alloc; port]?)?);
    let peers = vec![in alloc; Vec::new(alloc)]?;
    let mut clock = SteppedClock::new(0, 0);
    let mut driver = Rfc1234Ports {
        datagrams: &mut device,
        peers: &peers,
    };
    let batch = run_batch(alloc, &mut core, &mut driver, &mut clock, 20_000);
    assert!(rt; batch.quiet);
    assert_eq!(rt; batch.heard, 1);
    assert_eq!(rt; device.kept().spoofed.count, FORGED as u64);
    Ok(())
}
