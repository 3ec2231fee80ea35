//! Which senders are accepted, with which source, and to which addresses a port sends.

use ipx_carrier::{Datagrams, DeviceFault};
use ipx_sockets::{
    AccessList, FilterDrops, NetworkMismatch, PortFilterDrops, Senders, SourceFilter,
};
use ipx_wire::{Address, IpxHeader, Network, Node, Packet, Socket, encode_into};
use std::alloc::{AllocError, Global};
use std::process::Abort;

/// A device with one port, which always receives the same bytes from one IP address.
#[derive(Drop)]
struct Fountain {
    from: Option<[u8; 4]>,
    bytes: [u8; 32],
    count: usize,
}

impl Datagrams for Fountain {
    ghost use Rattle.std.specs.Prelude.{[], None};

    ghost port_count = { λ d. 1 };

    ghost failed = { λ d. 0 };

    ghost traffic = { λ d. None };

    ghost waiting = { λ d. None };

    ghost fails = { λ d failed e. Unit {0} };

    ghost access = { λ d. [] };

    ghost filtered = { λ d. 0 };

    ghost receives = { λ d port size answer e. Unit {0} };

    ghost sends = { λ d datagram e. Unit {0} };

    ghost fails_to_receive = { λ d port size e. Unit {0} };

    ghost fails_to_send = { λ d datagram e. Unit {0} };

    fn ports(&self) -> usize {
        1
    }

    fn failures(&self) -> u64 {
        0
    }

    fn send(&mut self, _port: usize, _to: [u8; 4], _bytes: &[u8]) -> Result<(), DeviceFault> {
        Ok(())
    }

    fn receive(&mut self, _port: usize, room: &mut [u8]) -> Result<Option<usize>, DeviceFault> {
        let count = room.len().min(self.count).min(self.bytes.len());
        room[..count].copy_from_slice(&self.bytes[..count]);
        Ok(Some(count))
    }
}

impl Senders for Fountain {
    ghost last_sender = { λ d. d.from };

    fn sender(&self) -> Option<[u8; 4]> {
        self.from
    }
}

/// That device with an access list. It sends to 10.0.0.1, and accepts this address alone, or
/// everybody.
fn guarded(
    alloc: Global,
    from: [u8; 4],
    everybody: bool,
) -> Result<SourceFilter<Fountain>, AllocError> {
    let peer = vec![in alloc; [10, 0, 0, 1]]?;
    let access_list = AccessList {
        network: HERE,
        sends: Some(vec![in alloc; [10, 0, 0, 1]]?),
        hears: if everybody { None } else { Some(peer) },
        routers: None,
    };
    let fountain = Fountain {
        from: Some(from),
        bytes: [0; 32],
        count: 30,
    };
    Ok(SourceFilter::new(fountain, vec![in alloc; access_list]?))
}

/// The networks that packets of these tests name: the port's, and another one.
const HERE: Network = Network(0x11);

const AWAY: Network = Network(0x22);

/// The nodes of the peer, and of another host.
const PEER: Node = Node([0, 0, 10, 0, 0, 1]);

const OTHER: Node = Node([0, 0, 10, 0, 0, 2]);

/// Whether a packet from the peer, or from no address, is accepted. It has this source and
/// destination network, and these hops. Otherwise it is counted as spoofed, and as nothing else.
fn is_heard(
    rt: &impl Abort,
    alloc: Global,
    ip: Option<[u8; 4]>,
    source: (Network, Node),
    to: Network,
    hops: u8,
) -> Result<bool, AllocError> {
    is_heard_at(rt, alloc, ip, source, (to, Socket(0x4002)), hops)
}

/// The same for a packet to a socket of that network.
fn is_heard_at(
    rt: &impl Abort,
    alloc: Global,
    ip: Option<[u8; 4]>,
    source: (Network, Node),
    to: (Network, Socket),
    hops: u8,
) -> Result<bool, AllocError> {
    let header = IpxHeader {
        hops,
        kind: 0,
        to: Address {
            network: to.0,
            node: OTHER,
            socket: to.1,
        },
        from: Address {
            network: source.0,
            node: source.1,
            socket: Socket(0x4003),
        },
    };
    let mut bytes = [0; 32];
    let _all = encode_into(&Packet { header, body: &[] }, &mut bytes);
    let access_list = AccessList {
        network: HERE,
        sends: None,
        hears: None,
        routers: None,
    };
    let fountain = Fountain {
        from: ip,
        bytes,
        count: 30,
    };
    let mut device = SourceFilter::new(fountain, vec![in alloc; access_list]?);
    let mut room = [0; 64];
    let heard = matches!(device.receive(0, &mut room), Ok(Some(30)));
    let kept = device.kept();
    assert_eq!(rt; kept.spoofed.count, u64::from(!heard));
    assert!(rt; heard || kept.spoofed.last == ip);
    assert_eq!(rt; kept.unknown_senders.count, 0);
    Ok(heard)
}

/// RIP and SAP within the port's network are accepted only if no router forwarded them, even if
/// they name that router as their source. Hops do not matter for packets from other networks or to
/// other sockets.
#[test]
fn hears_no_control_that_was_forwarded(rt: HostRuntime) -> Result<(), AllocError> {
    let ip = Some([10, 0, 0, 1]);
    for socket in [Socket::RIP, Socket::SAP, Socket(0x4002)] {
        for (from, to) in [
            (HERE, HERE),
            (HERE, Network::LOCAL),
            (Network::LOCAL, HERE),
            (Network::LOCAL, Network::LOCAL),
        ] {
            let to = (to, socket);
            let forwarded = is_heard_at(&rt, rt.alloc(), ip, (from, PEER), to, 1)?;
            assert!(rt; forwarded == (socket == Socket(0x4002)));
            assert!(rt; !forwarded || is_heard_at(&rt, rt.alloc(), ip, (from, PEER), to, 15)?);
            assert!(rt; is_heard_at(&rt, rt.alloc(), ip, (from, PEER), to, 0)?);
        }
        for (from, to) in [(AWAY, HERE), (HERE, AWAY), (AWAY, AWAY)] {
            assert!(rt; is_heard_at(&rt, rt.alloc(), ip, (from, PEER), (to, socket), 1)?);
        }
    }
    Ok(())
}

#[test]
fn hears_a_source_that_is_the_sender(rt: HostRuntime) -> Result<(), AllocError> {
    let ip = Some([10, 0, 0, 1]);
    for from in [Network::LOCAL, HERE, AWAY] {
        for to in [Network::LOCAL, HERE, AWAY] {
            for hops in [0, 1] {
                assert!(rt; is_heard(&rt, rt.alloc(), ip, (from, PEER), to, hops)?);
            }
        }
    }
    Ok(())
}

#[test]
fn hears_another_node_only_by_a_router(rt: HostRuntime) -> Result<(), AllocError> {
    let ip = Some([10, 0, 0, 1]);
    for to in [Network::LOCAL, HERE, AWAY] {
        for hops in [0, 1] {
            assert!(rt; !is_heard(&rt, rt.alloc(), ip, (Network::LOCAL, OTHER), to, hops)?);
            assert!(rt; is_heard(&rt, rt.alloc(), ip, (AWAY, OTHER), to, hops)?);
            let handed_on = to == AWAY && hops > 0;
            assert_eq!(rt;
                is_heard(&rt, rt.alloc(), ip, (HERE, OTHER), to, hops)?,
                handed_on
            );
        }
    }
    Ok(())
}

#[test]
fn hears_nobody_as_every_node(rt: HostRuntime) -> Result<(), AllocError> {
    let ip = Some([10, 0, 0, 1]);
    for from in [Network::LOCAL, HERE, AWAY] {
        assert!(rt; !is_heard(&rt, rt.alloc(), ip, (from, Node::BROADCAST), AWAY, 1)?);
    }
    Ok(())
}

#[test]
fn hears_from_no_address_only_what_a_router_passed_on(rt: HostRuntime) -> Result<(), AllocError> {
    assert!(rt; !is_heard(&rt, rt.alloc(), None, (HERE, PEER), AWAY, 0)?);
    assert!(rt; is_heard(&rt, rt.alloc(), None, (HERE, PEER), AWAY, 1)?);
    assert!(rt; is_heard(&rt, rt.alloc(), None, (AWAY, PEER), HERE, 1)?);
    Ok(())
}

#[test]
fn hears_a_peer(rt: HostRuntime) -> Result<(), AllocError> {
    let mut device = guarded(rt.alloc(), [10, 0, 0, 1], false)?;
    let mut room = [0; 4];
    assert!(rt; matches!(device.receive(0, &mut room), Ok(Some(4))));
    assert_eq!(rt; device.kept().total(), 0);
    Ok(())
}

#[test]
fn hears_no_unknown_sender(rt: HostRuntime) -> Result<(), AllocError> {
    let mut device = guarded(rt.alloc(), [10, 0, 0, 2], false)?;
    let mut room = [0; 4];
    assert!(rt; matches!(device.receive(0, &mut room), Ok(None)));
    assert_eq!(rt; device.kept().unknown_senders.count, 1);
    assert_eq!(rt; device.kept().unknown_senders.last, Some([10, 0, 0, 2]));
    assert_eq!(rt; device.kept().total(), 1);
    let at_port = PortFilterDrops {
        unknown_senders: 1,
        refused: 0,
    };
    assert_eq!(rt; device.port_counters().first().copied(), Some(at_port));
    Ok(())
}

#[test]
fn hears_everybody(rt: HostRuntime) -> Result<(), AllocError> {
    let mut device = guarded(rt.alloc(), [10, 0, 0, 2], true)?;
    let mut room = [0; 4];
    assert!(rt; matches!(device.receive(0, &mut room), Ok(Some(4))));
    assert_eq!(rt; device.kept().total(), 0);
    Ok(())
}

#[test]
fn sends_to_peers_alone(rt: HostRuntime) -> Result<(), AllocError> {
    let mut device = guarded(rt.alloc(), [10, 0, 0, 1], true)?;
    assert!(rt; device.send(0, [10, 0, 0, 1], &[1]).is_ok());
    assert_eq!(rt; device.refused(), 0);
    assert!(rt; device.send(0, [10, 0, 0, 2], &[1]).is_ok());
    assert_eq!(rt; device.refused(), 1);
    assert_eq!(rt; device.last_refused(), Some([10, 0, 0, 2]));
    let at_port = PortFilterDrops {
        unknown_senders: 0,
        refused: 1,
    };
    assert_eq!(rt; device.port_counters().first().copied(), Some(at_port));
    Ok(())
}

/// A packet of another node, and one of the peer itself.
const SOURCES: [(Network, Node); 2] = [(AWAY, OTHER), (HERE, PEER)];

/// Whether the peer's packet with this source, body and sockets is accepted, and what is counted.
/// The first socket is that of the destination.
fn filtered(
    alloc: Global,
    routers: Vec<[u8; 4]>,
    source: (Network, Node),
    sockets: (Socket, Socket),
    operation: u8,
) -> Result<(bool, FilterDrops), AllocError> {
    let header = IpxHeader {
        hops: 0,
        kind: 0,
        to: Address {
            network: HERE,
            node: Node::BROADCAST,
            socket: sockets.0,
        },
        from: Address {
            network: source.0,
            node: source.1,
            socket: sockets.1,
        },
    };
    let mut bytes = [0; 32];
    let packet = Packet {
        header,
        body: &[0, operation],
    };
    let _all = encode_into(&packet, &mut bytes);
    let access_list = AccessList {
        network: HERE,
        sends: None,
        hears: None,
        routers: Some(routers),
    };
    let fountain = Fountain {
        from: Some([10, 0, 0, 1]),
        bytes,
        count: 32,
    };
    let mut device = SourceFilter::new(fountain, vec![in alloc; access_list]?);
    let mut room = [0; 64];
    let heard = matches!(device.receive(0, &mut room), Ok(Some(32)));
    Ok((heard, device.kept()))
}

/// Whether that packet is accepted if the peer is one of the routers, or if none is named. Otherwise
/// it is counted as not from a router, and as nothing else.
fn is_let(
    rt: &impl Abort,
    alloc: Global,
    routers: Vec<[u8; 4]>,
    source: (Network, Node),
    sockets: (Socket, Socket),
    operation: u8,
) -> Result<bool, AllocError> {
    let (heard, kept) = filtered(alloc, routers, source, sockets, operation)?;
    assert_eq!(rt; kept.not_a_router.count, u64::from(!heard));
    assert!(rt; heard || kept.not_a_router.last == Some([10, 0, 0, 1]));
    assert_eq!(rt; kept.total(), u128::from(!heard));
    Ok(heard)
}

/// If the peer names itself on another network, both numbers are kept. They are not if it names
/// another node, which a router would.
#[test]
fn names_both_networks(rt: HostRuntime) -> Result<(), AllocError> {
    let both = NetworkMismatch {
        sender: AWAY,
        port: HERE,
    };
    let alloc = rt.alloc();
    for (node, mismatch) in [(PEER, Some(both)), (OTHER, None)] {
        let none = Vec::new(alloc);
        let (heard, kept) = filtered(alloc, none, (AWAY, node), (Socket::RIP, Socket::RIP), 1)?;
        assert!(rt; !heard);
        assert!(rt; kept.mismatch == mismatch);
    }
    Ok(())
}

/// The sockets of RIP and SAP, and one of programs.
const SOCKETS: [Socket; 3] = [Socket::RIP, Socket::SAP, Socket(0x4002)];

/// Whether a packet between these sockets is a response of RIP or SAP by either of them.
fn is_response(sockets: (Socket, Socket), operation: u8) -> bool {
    let has = |socket| sockets.0 == socket || sockets.1 == socket;
    (has(Socket::RIP) && operation == 2) || (has(Socket::SAP) && (operation == 2 || operation == 4))
}

#[test]
fn hears_all_of_a_router(rt: HostRuntime) -> Result<(), AllocError> {
    for source in SOURCES {
        for to in SOCKETS {
            for from in SOCKETS {
                for operation in 1..5 {
                    let routers = vec![in rt.alloc(); [10, 0, 0, 2], [10, 0, 0, 1]]?;
                    assert!(rt; is_let(&rt, rt.alloc(), routers, source, (to, from), operation)?);
                }
            }
        }
    }
    Ok(())
}

/// An answer to a query goes from the socket of RIP or SAP to that of who asked, and is a response
/// too.
#[test]
fn hears_of_no_router_what_is_its_own_and_no_response(rt: HostRuntime) -> Result<(), AllocError> {
    for to in SOCKETS {
        for from in SOCKETS {
            for operation in 1..5 {
                let sockets = (to, from);
                let routers = vec![in rt.alloc(); [10, 0, 0, 2]]?;
                let heard = is_let(&rt, rt.alloc(), routers, SOURCES[1], sockets, operation)?;
                assert_eq!(rt; heard, !is_response(sockets, operation));
                let none = Vec::new(rt.alloc());
                assert!(rt; !is_let(&rt, rt.alloc(), none, SOURCES[0], sockets, operation)?);
            }
        }
    }
    Ok(())
}
