//! The router.

use super::control::{
    ControlFault, Rip, RipEntry, Sap, ServiceEntry, decode_rip, decode_sap, routes, services,
};
use super::offers::{Full, Metric, Offers, Source};
use super::wire::{
    Address, HEADER, Header, IpxFault, Network, Node, Packet, Socket, decode, write_header,
};

const BROADCAST: Node = Node([0xff; 6]);
const SAP: Socket = Socket(0x0452);
const RIP: Socket = Socket(0x0453);
const ALL: u32 = 0xffff_ffff;
const ANY_KIND: u16 = 0xffff;
const PERIOD: u64 = 60_000;

#[derive(Clone, Copy, Debug, PartialEq, Eq, PartialOrd, Ord)]
pub struct RouteMetric {
    pub ticks: u16,
    pub hops: u16,
}

#[derive(Clone, Copy, Debug, PartialEq, Eq, PartialOrd, Ord)]
pub struct ServiceKey {
    pub kind: u16,
    pub name: [u8; 48],
}

#[derive(Clone, Copy, Debug, PartialEq, Eq, PartialOrd, Ord)]
pub struct ServiceMetric {
    pub hops: u16,
    pub at: Address,
}

fn one_hop_more(hops: u16) -> u16 {
    hops.saturating_add(1).min(16)
}

impl Metric for RouteMetric {
    fn is_dead(&self) -> bool {
        self.hops >= 16
    }

    fn one_more(&self) -> Self {
        let hops = one_hop_more(self.hops);
        RouteMetric { hops, ..*self }
    }
}

impl Metric for ServiceMetric {
    fn is_dead(&self) -> bool {
        self.hops >= 16
    }

    fn one_more(&self) -> Self {
        let hops = one_hop_more(self.hops);
        ServiceMetric { hops, ..*self }
    }
}

#[derive(Clone, Copy, Debug)]
pub struct Port {
    pub network: Network,
    pub node: Node,
    pub cost: u16,
}

#[derive(Debug, PartialEq, Eq)]
pub struct Reply {
    pub port: u8,
    pub next: Node,
    pub bytes: Vec<u8>,
}

#[derive(Debug, PartialEq, Eq)]
pub enum Reason {
    Bad(IpxFault),
    Propagated,
    NotOurs,
    NoRoute(Network),
    HopLimit,
    BadControl(ControlFault),
    TableFull,
}

#[derive(Debug, PartialEq, Eq)]
pub enum Outcome {
    Forward(Reply),
    Replies(Vec<Reply>),
    Heard(u16),
    Dropped(Reason),
}

/// What became of bytes that were changed in place.
#[derive(Debug, PartialEq, Eq)]
pub enum InPlace {
    Forward { port: u8, next: Node, count: usize },
    Other(Outcome),
}

/// A node and socket on the network of a port.
#[derive(Clone, Copy)]
struct Recipient {
    port: u8,
    node: Node,
    socket: Socket,
}

impl Recipient {
    fn everyone(port: u8, socket: Socket) -> Self {
        Recipient {
            port,
            node: BROADCAST,
            socket,
        }
    }
}

pub struct Router {
    pub(super) ports: Vec<Port>,
    pub(super) routes: Offers<Network, RouteMetric>,
    pub(super) services: Offers<ServiceKey, ServiceMetric>,
    told: Option<u64>,
}

impl Router {
    pub fn new(ports: Vec<Port>) -> Self {
        Router {
            ports,
            routes: Offers::new(1024),
            services: Offers::new(4096),
            told: None,
        }
    }

    pub fn receive(&mut self, port: u8, bytes: &[u8], now: u64) -> Outcome {
        self.age(now);
        match decode(bytes) {
            Ok(packet) => self
                .answer(port, bytes, packet, now)
                .unwrap_or_else(Outcome::Dropped),
            Err(fault) => Outcome::Dropped(Reason::Bad(fault)),
        }
    }

    /// The same, where a packet that goes on is changed in place.
    pub fn receive_in_place(&mut self, port: u8, bytes: &mut [u8], now: u64) -> InPlace {
        self.age(now);
        self.answer_in_place(port, bytes, now)
            .unwrap_or_else(|reason| InPlace::Other(Outcome::Dropped(reason)))
    }

    /// The packets that tell neighbours what is known, if it is time.
    pub fn tell(&mut self, now: u64) -> Vec<Reply> {
        self.age(now);
        if self
            .told
            .is_some_and(|told| now.saturating_sub(told) < PERIOD)
        {
            return Vec::new();
        }
        let mut sent = Vec::new();
        for port in 1..=self.ports.len() as u8 {
            let routes = self.told_routes(port, now);
            self.send_routes(Recipient::everyone(port, RIP), &routes, &mut sent);
            let services = self.told_services(port, now).collect::<Vec<_>>();
            self.send_services(Recipient::everyone(port, SAP), false, &services, &mut sent);
        }
        self.told = Some(now);
        sent
    }

    fn age(&mut self, now: u64) {
        self.routes.age(now);
        self.services.age(now);
    }

    fn port(&self, number: u8) -> &Port {
        &self.ports[usize::from(number) - 1]
    }

    fn direct(&self, network: Network) -> Option<u8> {
        let place = self.ports.iter().position(|port| port.network == network)?;
        Some(place as u8 + 1)
    }

    fn answer(
        &mut self,
        port: u8,
        bytes: &[u8],
        packet: Packet<'_>,
        now: u64,
    ) -> Result<Outcome, Reason> {
        if self.is_onward(port, &packet.header)? {
            return self.forward(port, bytes, packet, now).map(Outcome::Forward);
        }
        self.control(port, packet, now)
    }

    fn answer_in_place(&mut self, port: u8, bytes: &mut [u8], now: u64) -> Result<InPlace, Reason> {
        let packet = decode(bytes).map_err(Reason::Bad)?;
        if !self.is_onward(port, &packet.header)? {
            return self.control(port, packet, now).map(InPlace::Other);
        }
        let (header, count) = (packet.header, HEADER + packet.body.len());
        let (out, next) = self.way(&header, now)?;
        self.change(port, &header, bytes);
        Ok(InPlace::Forward {
            port: out,
            next,
            count,
        })
    }

    /// Whether a packet is for another network.
    fn is_onward(&self, port: u8, header: &Header) -> Result<bool, Reason> {
        if header.kind == 20 {
            return Err(Reason::Propagated);
        }
        let network = header.to.network;
        Ok(network.0 != 0 && network != self.port(port).network)
    }

    fn control(&mut self, port: u8, packet: Packet<'_>, now: u64) -> Result<Outcome, Reason> {
        let header = &packet.header;
        let arrived = self.port(port);
        let for_us = header.to.node == arrived.node || header.to.node == BROADCAST;
        let from_here = header.from.network.0 == 0 || header.from.network == arrived.network;
        if !for_us || !from_here || header.from.node == arrived.node {
            return Err(Reason::NotOurs);
        }
        match header.to.socket {
            RIP => self.control_rip(port, packet, now),
            SAP => self.control_sap(port, packet, now),
            _ => Err(Reason::NotOurs),
        }
    }

    /// The port that a packet leaves by, and the next node.
    fn way(&self, header: &Header, now: u64) -> Result<(u8, Node), Reason> {
        let network = header.to.network;
        let (out, next) = match self.direct(network) {
            Some(out) => (out, header.to.node),
            None => {
                let best = self.routes.best(&network, now);
                let (source, _) = best.ok_or(Reason::NoRoute(network))?;
                (source.port, source.neighbour)
            }
        };
        if header.hops >= 15 {
            return Err(Reason::HopLimit);
        }
        Ok((out, next))
    }

    /// Changes a packet with this header to the one that is one hop on.
    fn change(&self, port: u8, header: &Header, bytes: &mut [u8]) {
        bytes[4] += 1;
        if header.from.network.0 == 0 {
            bytes[18..22].copy_from_slice(&self.port(port).network.0.to_be_bytes());
        }
    }

    fn forward(
        &self,
        port: u8,
        bytes: &[u8],
        packet: Packet<'_>,
        now: u64,
    ) -> Result<Reply, Reason> {
        let (out, next) = self.way(&packet.header, now)?;
        let mut bytes = bytes[..HEADER + packet.body.len()].to_vec();
        self.change(port, &packet.header, &mut bytes);
        Ok(Reply {
            port: out,
            next,
            bytes,
        })
    }

    fn control_rip(&mut self, port: u8, packet: Packet<'_>, now: u64) -> Result<Outcome, Reason> {
        let from = packet.header.from;
        match decode_rip(packet.body).map_err(Reason::BadControl)? {
            Rip::Request(asked) => {
                let to = Recipient {
                    port,
                    node: from.node,
                    socket: from.socket,
                };
                let mut entries = self.told_routes(port, now);
                if !routes(asked).any(|entry| entry.network.0 == ALL) {
                    entries = routes(asked)
                        .filter_map(|entry| {
                            let place = entries.binary_search_by_key(&entry.network, |e| e.network);
                            Some(entries[place.ok()?])
                        })
                        .collect();
                }
                let mut sent = Vec::new();
                self.send_routes(to, &entries, &mut sent);
                Ok(Outcome::Replies(sent))
            }
            Rip::Response(entries) => {
                let source = Source {
                    port,
                    neighbour: from.node,
                };
                self.hear_routes(source, entries, now)
            }
        }
    }

    fn hear_routes(
        &mut self,
        source: Source,
        entries: &[[u8; RipEntry::SIZE]],
        now: u64,
    ) -> Result<Outcome, Reason> {
        let mut heard = 0;
        for entry in routes(entries) {
            let network = entry.network;
            if network.0 == 0 || network.0 == ALL || self.direct(network).is_some() {
                continue;
            }
            let metric = RouteMetric {
                ticks: entry.ticks,
                hops: entry.hops,
            };
            self.routes
                .hear(network, source, metric, now)
                .map_err(|Full| Reason::TableFull)?;
            heard += 1;
        }
        Ok(Outcome::Heard(heard))
    }

    fn control_sap(&mut self, port: u8, packet: Packet<'_>, now: u64) -> Result<Outcome, Reason> {
        let from = packet.header.from;
        match decode_sap(packet.body).map_err(Reason::BadControl)? {
            Sap::Query { nearest, kind } => {
                let to = Recipient {
                    port,
                    node: from.node,
                    socket: from.socket,
                };
                let asked = self
                    .told_services(port, now)
                    .filter(|service| kind == ANY_KIND || service.kind == kind);
                let entries: Vec<ServiceEntry> = if nearest {
                    asked
                        .filter(|service| service.hops < 16)
                        .min_by_key(|service| {
                            (service.hops, service.name, service.at, service.kind)
                        })
                        .into_iter()
                        .collect()
                } else {
                    asked.collect()
                };
                let mut sent = Vec::new();
                self.send_services(to, nearest, &entries, &mut sent);
                Ok(Outcome::Replies(sent))
            }
            Sap::Response(entries) => {
                let source = Source {
                    port,
                    neighbour: from.node,
                };
                self.hear_services(source, entries, now)
            }
        }
    }

    fn hear_services(
        &mut self,
        source: Source,
        entries: &[[u8; ServiceEntry::SIZE]],
        now: u64,
    ) -> Result<Outcome, Reason> {
        for entry in services(entries) {
            let key = ServiceKey {
                kind: entry.kind,
                name: entry.name,
            };
            let metric = ServiceMetric {
                hops: entry.hops,
                at: entry.at,
            };
            self.services
                .hear(key, source, metric, now)
                .map_err(|Full| Reason::TableFull)?;
        }
        Ok(Outcome::Heard(entries.len() as u16))
    }

    /// The routes that are told on a port, by network: those that leave by another port.
    fn told_routes(&self, number: u8, now: u64) -> Vec<RipEntry> {
        let cost = self.port(number).cost;
        let entry = |network, metric: RouteMetric| RipEntry {
            network,
            hops: metric.one_more().hops,
            ticks: metric.ticks.saturating_add(cost),
        };
        let here = RouteMetric { ticks: 0, hops: 0 };
        let direct = (1..)
            .zip(&self.ports)
            .filter(|(other, _)| *other != number)
            .map(|(_, port)| entry(port.network, here));
        let heard = self
            .routes
            .bests(now)
            .filter(|(_, source, _)| source.port != number)
            .map(|(network, _, metric)| entry(network, metric));
        let mut told = direct.chain(heard).collect::<Vec<_>>();
        told.sort_unstable_by_key(|entry| entry.network);
        told
    }

    /// The services that are told on a port, by kind and name: those heard on another port.
    fn told_services(&self, number: u8, now: u64) -> impl Iterator<Item = ServiceEntry> + '_ {
        self.services
            .bests(now)
            .filter(move |(_, source, _)| source.port != number)
            .map(|(key, _, metric)| {
                let metric = metric.one_more();
                ServiceEntry {
                    kind: key.kind,
                    name: key.name,
                    at: metric.at,
                    hops: metric.hops,
                }
            })
    }

    /// A packet of the router's own, with its header and operation written.
    fn own_packet(
        &self,
        to: Recipient,
        kind: u8,
        from: Socket,
        operation: u16,
        rest: usize,
    ) -> Vec<u8> {
        let port = self.port(to.port);
        let header = Header {
            hops: 0,
            kind,
            to: Address {
                network: port.network,
                node: to.node,
                socket: to.socket,
            },
            from: Address {
                network: port.network,
                node: port.node,
                socket: from,
            },
        };
        let mut bytes = Vec::with_capacity(HEADER + 2 + rest);
        write_header(&header, 2 + rest, &mut bytes);
        bytes.extend_from_slice(&operation.to_be_bytes());
        bytes
    }

    fn send_routes(&self, to: Recipient, entries: &[RipEntry], sent: &mut Vec<Reply>) {
        for part in entries.chunks(50) {
            let mut bytes = self.own_packet(to, 1, RIP, 2, part.len() * RipEntry::SIZE);
            for entry in part {
                entry.write_to(&mut bytes);
            }
            sent.push(Reply {
                port: to.port,
                next: to.node,
                bytes,
            });
        }
    }

    fn send_services(
        &self,
        to: Recipient,
        nearest: bool,
        entries: &[ServiceEntry],
        sent: &mut Vec<Reply>,
    ) {
        let operation = if nearest { 4 } else { 2 };
        for part in entries.chunks(7) {
            let size = part.len() * ServiceEntry::SIZE;
            let mut bytes = self.own_packet(to, 4, SAP, operation, size);
            for entry in part {
                entry.write_to(&mut bytes);
            }
            sent.push(Reply {
                port: to.port,
                next: to.node,
                bytes,
            });
        }
    }
}
