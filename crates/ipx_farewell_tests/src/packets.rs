//! The packets that take routes and services back, as literal bytes.

use crate::fixture::{PORTS, farewell, route, service};
use ipx_farewell::{Speaker, farewell_of};
use ipx_wire::Node;
use std::test::Fail;

/// At port 2: networks 11, 33 and AA, but not 22 and BB, with 16 hops and the ticks of the port.
const ROUTES: &str = "ffff0038000100000022ffffffffffff04530000002200007f0000020453\
    0002\
    0000001100100002\
    0000003300100002\
    000000aa00100007";

/// The service that came by port 1, with 16 hops.
const SERVICES: &str = "ffff0060000400000022ffffffffffff04520000002200007f0000020452\
    0002\
    00044100000000000000000000000000000000000000000000000000000000000000000000000000000000000000000000\
    00000000aa00000000000104510010";

#[test]
fn at_the_second_port(rt: HostRuntime) -> Result<(), Fail> {
    let alloc = rt.alloc();
    let packets = farewell(alloc, 2)?;
    assert_eq!(rt; packets.len(), 2);
    for packet in &packets {
        assert_eq!(rt; packet.port, 2);
        assert!(rt; packet.next == Node::BROADCAST);
    }
    assert_eq!(rt;
        hex::encode(alloc, packets[0].bytes.as_slice())?.as_str(),
        ROUTES
    );
    assert_eq!(rt;
        hex::encode(alloc, packets[1].bytes.as_slice())?.as_str(),
        SERVICES
    );
    Ok(())
}

/// At port 3 all that was learned is taken back: networks 11, 22, AA and BB, and both services.
#[test]
fn at_the_third_port(rt: HostRuntime) -> Result<(), Fail> {
    let alloc = rt.alloc();
    let packets = farewell(alloc, 3)?;
    assert_eq!(rt; packets.len(), 2);
    assert_eq!(rt; packets[0].bytes.len(), 30 + 2 + 4 * 8);
    assert_eq!(rt; packets[1].bytes.len(), 30 + 2 + 2 * 64);
    Ok(())
}

/// With one port nothing was advertised: all is reached by it.
#[test]
fn of_one_port(rt: HostRuntime) -> Result<(), Fail> {
    let at = Speaker {
        number: 1,
        port: PORTS[0],
    };
    let routes = [route(0xaa, 1, 5, 2)];
    let services = [service(b'A', 1, 2)];
    let packets = farewell_of(rt.alloc(), &PORTS[..1], &routes, &services, at)?;
    assert!(rt; packets.is_empty());
    Ok(())
}

/// A packet has 50 routes or 7 services at most.
#[test]
fn in_several_packets(rt: HostRuntime) -> Result<(), Fail> {
    let alloc = rt.alloc();
    let at = Speaker {
        number: 1,
        port: PORTS[0],
    };
    let mut routes = Vec::new(alloc);
    let mut services = Vec::new(alloc);
    for number in 0..50u8 {
        routes.push(route(0x1000 + u32::from(number), 2, 1, 1))?;
    }
    for letter in 0..8 {
        services.push(service(b'A' + letter, 2, 1))?;
    }
    let packets = farewell_of(alloc, &PORTS[..2], &routes, &services, at)?;
    let wanted = [30 + 2 + 50 * 8, 30 + 2 + 8, 30 + 2 + 7 * 64, 30 + 2 + 64];
    assert_eq!(rt; packets.len(), wanted.len());
    for (packet, length) in packets.iter().zip(wanted) {
        assert_eq!(rt; packet.bytes.len(), length);
    }
    Ok(())
}
