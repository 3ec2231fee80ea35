//! Sockets of this machine: a port, two players, and an unregistered sender.

use crate::fixture::{PORT, REGISTRATION, servers, shows};
use ip_prefixes::Prefix;
use ipx_carrier::{DeviceFault, PacketSent, PortDriver, PortDriverFilters};
use ipx_ipxnet_ports::{Allow, DatagramCame, PlaceSockets, ServerSockets, Servers};
use ipx_wire::Node;
use std::alloc::Global;
use std::io;
use std::net::{Ipv4Addr, Net, SocketAddrV4};
use std::process::Abort;
use std::test::Fail;

/// Addresses that nothing else uses: the port's, two players', and that of an unregistered sender.
fn port_place() -> SocketAddrV4 {
    SocketAddrV4::new(Ipv4Addr::new(127, 0, 0, 44), 0x51c2)
}

fn first_place() -> SocketAddrV4 {
    SocketAddrV4::new(Ipv4Addr::new(127, 0, 0, 44), 0x51c3)
}

fn second_place() -> SocketAddrV4 {
    SocketAddrV4::new(Ipv4Addr::new(127, 0, 0, 44), 0x51c4)
}

fn unknown_place() -> SocketAddrV4 {
    SocketAddrV4::new(Ipv4Addr::new(127, 0, 0, 44), 0x51c5)
}

/// Another address there.
fn place(udp_port: u16) -> SocketAddrV4 {
    SocketAddrV4::new(*port_place().ip(), udp_port)
}

/// The answer to the first player, whose node is 02bbe1b3e762.
const ANSWER: [u8; 30] = [
    0xff, 0xff, 0, 0x1e, 0, 0, 0, 0, 0xd0, 0x5b, 2, 0xbb, 0xe1, 0xb3, 0xe7, 0x62, 0, 2, 0, 0, 0xd0,
    0x5b, 2, 0, 0, 0, 0xd0, 0x5b, 0, 2,
];

/// A packet of the first player to socket 4001 of all nodes.
const TO_ALL: [u8; 34] = [
    0xff, 0xff, 0, 0x22, 0, 4, 0, 0, 0xd0, 0x5b, 0xff, 0xff, 0xff, 0xff, 0xff, 0xff, 0x40, 1, 0, 0,
    0xd0, 0x5b, 2, 0xbb, 0xe1, 0xb3, 0xe7, 0x62, 0x40, 1, 1, 2, 3, 4,
];

/// Sockets of one port.
fn bound<R: Net>(rt: &R, alloc: Global, at: SocketAddrV4) -> io::Result<ServerSockets> {
    let mut sockets = ServerSockets::new(alloc);
    sockets.bind(rt, at, Allow::Any)?;
    Ok(sockets)
}

/// Asks sockets until a datagram comes, or the tries are used up.
fn next_datagram(
    sockets: &mut ServerSockets,
    room: &mut [u8],
) -> Result<Option<DatagramCame>, DeviceFault> {
    next_by(sockets, 0, room)
}

/// The same at another port.
fn next_by(
    sockets: &mut ServerSockets,
    port: usize,
    room: &mut [u8],
) -> Result<Option<DatagramCame>, DeviceFault> {
    for _ in 0..100_000_u32 {
        sockets.set_ready(port);
        let came = sockets.receive(port, room)?;
        if came.is_some() {
            return Ok(came);
        }
    }
    Ok(None)
}

/// A datagram of `size` bytes from an address.
fn came_from(from: SocketAddrV4, size: usize) -> Option<DatagramCame> {
    Some(DatagramCame { from, size })
}

/// Asks the port until something comes for its core, or is kept from it.
fn next_packet(
    servers: &mut Servers<ServerSockets>,
    room: &mut [u8],
) -> Result<Option<usize>, DeviceFault> {
    let filtered = servers.filtered();
    for _ in 0..100_000_u32 {
        servers.set_ready(0);
        let came = servers.receive(0, room)?;
        if came.is_some() || servers.filtered() != filtered {
            return Ok(came);
        }
    }
    Ok(None)
}

/// Whether a datagram came from the port, and is these bytes.
fn came(came: Option<DatagramCame>, room: &[u8], bytes: &[u8]) -> bool {
    came == Some(DatagramCame {
        from: port_place(),
        size: bytes.len(),
    }) && &room[..bytes.len()] == bytes
}

#[test]
fn players_over_sockets(rt: HostRuntime) -> Result<(), Fail> {
    let alloc = rt.alloc();
    let mut first = bound(&rt, alloc, first_place())?;
    let mut second = bound(&rt, alloc, second_place())?;
    let mut unknown = bound(&rt, alloc, unknown_place())?;
    let mut servers = servers(alloc, bound(&rt, alloc, port_place())?)?;
    let mut room = [0; 1536];
    // Both players register, and each is answered.
    assert!(rt; first.send(0, port_place(), &REGISTRATION).is_ok());
    assert!(rt; next_packet(&mut servers, &mut room)? == None);
    assert_eq!(rt; servers.filtered(), 1);
    assert!(rt; second.send(0, port_place(), &REGISTRATION).is_ok());
    assert!(rt; next_packet(&mut servers, &mut room)? == None);
    assert_eq!(rt; servers.filtered(), 2);
    let answer = next_datagram(&mut first, &mut room)?;
    assert!(rt; came(answer, &room, &ANSWER));
    let answer = next_datagram(&mut second, &mut room)?;
    assert!(rt;
        answer
            == Some(DatagramCame {
                from: port_place(),
                size: 30
            })
    );
    assert_eq!(rt; &room[10..16], [2, 0x5f, 0xee, 0x4e, 0xf2, 0xad].as_slice());
    // The second one shows its node.
    let second_node = Node([2, 0x5f, 0xee, 0x4e, 0xf2, 0xad]);
    assert!(rt; second.send(0, port_place(), &shows(second_node)).is_ok());
    assert!(rt; next_packet(&mut servers, &mut room)? == None);
    assert_eq!(rt; servers.filtered(), 3);
    // What the first one sends to all arrives at the second, and what an unknown sender sends
    // arrives nowhere.
    assert!(rt; unknown.send(0, port_place(), &TO_ALL).is_ok());
    assert!(rt; next_packet(&mut servers, &mut room)? == None);
    assert_eq!(rt; servers.filtered(), 4);
    assert!(rt; first.send(0, port_place(), &TO_ALL).is_ok());
    assert!(rt; next_packet(&mut servers, &mut room)? == None);
    assert_eq!(rt; servers.filtered(), 5);
    let all = next_datagram(&mut second, &mut room)?;
    assert!(rt; came(all, &room, &TO_ALL));
    assert_eq!(rt; servers.servers()[0].counts().unregistered, 1);
    // To the router's node: to the core.
    let mut bytes = TO_ALL;
    bytes[10..16].copy_from_slice(&PORT.own.0);
    assert!(rt; first.send(0, port_place(), &bytes).is_ok());
    assert!(rt; next_packet(&mut servers, &mut room)? == Some(34));
    assert_eq!(rt; &room[..34], bytes.as_slice());
    // A packet of the core is sent to the player of its node.
    let sent = servers.send(0, Node([2, 0xbb, 0xe1, 0xb3, 0xe7, 0x62]), &bytes);
    assert!(rt; matches!(sent, Ok(PacketSent::Transmitted(1))));
    let packet = next_datagram(&mut first, &mut room)?;
    assert!(rt; came(packet, &room, &bytes));
    // Nothing else arrived anywhere.
    assert!(rt; first.receive(0, &mut room)? == None);
    assert!(rt; second.receive(0, &mut room)? == None);
    assert!(rt; unknown.receive(0, &mut room)? == None);
    assert_eq!(rt; servers.filtered(), 5);
    assert_eq!(rt; servers.sockets().sent(), 4);
    assert_eq!(rt; servers.sockets().failures(), 0);
    assert_eq!(rt; servers.sockets().faults(), 0);
    assert_eq!(rt; servers.sockets().from_nowhere(), 0);
    assert!(rt; servers.sockets().last_unknown() == None);
    Ok(())
}

/// Two ports, bound in order. Each has its own address and descriptor, receives what comes there,
/// and sends from there. The one bound first has the lower descriptor, because the system gives the
/// lowest that is free.
#[test]
fn two_ports_of_servers(rt: HostRuntime) -> Result<(), Fail> {
    let alloc = rt.alloc();
    let (at, other) = (place(20_940), place(20_941));
    let mut player = bound(&rt, alloc, place(20_942))?;
    let mut sockets = bound(&rt, alloc, at)?;
    sockets.bind(&rt, other, Allow::Any)?;
    assert_eq!(rt; sockets.ports(), 2);
    let descriptors = (sockets.descriptor(0), sockets.descriptor(1));
    let in_order = match descriptors {
        (Some(first), Some(second)) => first < second,
        _ => false,
    };
    assert!(rt; in_order);
    assert!(rt; sockets.descriptor(2).is_none());
    let mut room = [0; 1536];
    // What is sent to the second address arrives at the second port, and at no other.
    assert!(rt; player.send(0, other, b"second").is_ok());
    assert!(rt; next_by(&mut sockets, 1, &mut room)? == came_from(place(20_942), 6));
    assert_eq!(rt; &room[..6], b"second".as_slice());
    assert!(rt; sockets.receive(0, &mut room)? == None);
    assert!(rt; player.send(0, at, b"first").is_ok());
    assert!(rt; next_by(&mut sockets, 0, &mut room)? == came_from(place(20_942), 5));
    assert_eq!(rt; &room[..5], b"first".as_slice());
    assert!(rt; sockets.receive(1, &mut room)? == None);
    // What a port sends comes from its address.
    assert!(rt; sockets.send(1, place(20_942), b"by second").is_ok());
    assert!(rt; next_by(&mut player, 0, &mut room)? == came_from(other, 9));
    assert!(rt; sockets.send(0, place(20_942), b"by first").is_ok());
    assert!(rt; next_by(&mut player, 0, &mut room)? == came_from(at, 8));
    // Counts stay as one more port is bound.
    sockets.bind(&rt, place(20_943), Allow::Any)?;
    assert_eq!(rt;
        (sockets.ports(), sockets.sent(), sockets.failures()),
        (3, 2, 0)
    );
    Ok(())
}

/// A port that accepts only another IP address receives nothing here, and counts that; one that
/// accepts this address receives it.
#[test]
fn who_is_not_named_is_not_heard(rt: HostRuntime) -> Result<(), Fail> {
    let alloc = rt.alloc();
    let mut sender = bound(&rt, alloc, place(20_945))?;
    let mut sockets = ServerSockets::new(alloc);
    let others = vec![in alloc; Prefix::of_address([127, 0, 0, 45])]?;
    sockets.bind(&rt, place(20_946), Allow::List(others))?;
    let both = vec![in alloc;
        Prefix::of_address([127, 0, 0, 45]),
        Prefix::of_address([127, 0, 0, 44]),
    ]?;
    sockets.bind(&rt, place(20_947), Allow::List(both))?;
    let mut room = [0; 1536];
    assert!(rt; sender.send(0, place(20_946), &REGISTRATION).is_ok());
    assert!(rt; sender.send(0, place(20_947), &REGISTRATION).is_ok());
    for _ in 0..100_000_u32 {
        sockets.set_ready(0);
        assert!(rt; sockets.receive(0, &mut room)? == None);
        if sockets.from_nowhere() > 0 {
            break;
        }
    }
    assert_eq!(rt; sockets.from_nowhere(), 1);
    assert!(rt; sockets.last_unknown() == Some([127, 0, 0, 44]));
    let mut came = None;
    for _ in 0..100_000_u32 {
        sockets.set_ready(1);
        came = sockets.receive(1, &mut room)?;
        if came.is_some() {
            break;
        }
    }
    assert!(rt;
        came == Some(DatagramCame {
            from: place(20_945),
            size: 30
        })
    );
    assert_eq!(rt; sockets.from_nowhere(), 1);
    assert!(rt; sockets.last_unknown() == Some([127, 0, 0, 44]));
    Ok(())
}

/// A port is asked only if it is marked, and one where nothing waits loses its mark.
#[test]
fn a_port_without_a_mark_is_not_asked(rt: HostRuntime) -> Result<(), Fail> {
    let alloc = rt.alloc();
    let mut player = bound(&rt, alloc, place(20_948))?;
    let mut sockets = bound(&rt, alloc, place(20_949))?;
    let mut room = [0; 1536];
    assert!(rt; sockets.marks().is_marked(0));
    assert!(rt; sockets.receive(0, &mut room)? == None);
    assert!(rt; !sockets.marks().is_any_marked());
    assert!(rt; player.send(0, place(20_949), b"abc").is_ok());
    assert!(rt; sockets.receive(0, &mut room)? == None);
    assert!(rt; next_datagram(&mut sockets, &mut room)? == came_from(place(20_948), 3));
    assert!(rt; sockets.marks().is_marked(0));
    Ok(())
}

/// The system refuses what no UDP datagram can hold, which is counted.
#[test]
fn a_datagram_that_the_system_refuses(rt: HostRuntime) -> Result<(), Fail> {
    let alloc = rt.alloc();
    let mut sockets = bound(&rt, alloc, place(20_934))?;
    let bytes = vec![in alloc; 0; 70_000]?;
    assert!(rt; matches!(sockets.send(0, port_place(), &bytes), Err(DeviceFault)));
    assert_eq!(rt; sockets.failures(), 1);
    assert_eq!(rt; sockets.sent(), 0);
    Ok(())
}

#[test]
fn a_servers_place_in_use_is_refused(rt: HostRuntime) -> Result<(), Fail> {
    let alloc = rt.alloc();
    let mut sockets = bound(&rt, alloc, place(20_936))?;
    assert!(rt; sockets.bind(&rt, place(20_936), Allow::Any).is_err());
    assert_eq!(rt; sockets.ports(), 1);
    assert!(rt; sockets.descriptor(0).is_some());
    assert!(rt; sockets.descriptor(1).is_none());
    Ok(())
}

/// Memory is refused as a port is bound: no socket stays open.
#[test]
fn refused_server_port(rt: HostRuntime) -> Result<(), Fail> {
    let alloc = rt.alloc();
    let mut sockets = match bound(&rt, alloc, place(20_937)) {
        Ok(sockets) => sockets,
        Err(_) => bound(&rt, alloc, place(20_937))?,
    };
    assert_eq!(rt; sockets.ports(), 1);
    assert!(rt; sockets.send(0, place(20_938), b"abc").is_ok());
    Ok(())
}
