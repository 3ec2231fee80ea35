//! Long datagrams: 1,424 bytes are sent to players as they came, more are not, and the core gets at
//! most 1,536.

use crate::fixture::{
    PORT, SECOND_NODE, after_registrations, packet, second_place, third_place, went_after,
};
use ipx_carrier::{PortDriver, PortDriverFilters};
use ipx_wire::Node;
use std::alloc::Global;
use std::net::SocketAddrV4;
use std::test::Fail;

/// The lengths 34, 1,424, 1,425, 1,500, 1,501 and 2,000, as a header has them.
const L34: [u8; 2] = [0x00, 0x22];

const L1424: [u8; 2] = [0x05, 0x90];

const L1425: [u8; 2] = [0x05, 0x91];

const L1500: [u8; 2] = [0x05, 0xdc];

const L1501: [u8; 2] = [0x05, 0xdd];

const L2000: [u8; 2] = [0x07, 0xd0];

/// Bytes that begin with a header of the first player, to a node, with a length.
fn long(to: Node, length: [u8; 2]) -> [u8; 2000] {
    let mut bytes = [0x55; 2000];
    bytes[..30].copy_from_slice(&packet(to)[..30]);
    bytes[2..4].copy_from_slice(&length);
    bytes
}

/// Whether a datagram of `size` bytes is sent to these addresses, as it came, and not to the core.
/// `length` is the length in its header. If it is sent nowhere it is too long, which is counted.
fn goes_to(
    alloc: Global,
    to: Node,
    length: [u8; 2],
    size: usize,
    places: &[SocketAddrV4],
) -> Result<bool, Fail> {
    let bytes = long(to, length);
    let mut servers = after_registrations(alloc, &bytes[..size])?;
    let mut room = [0xaa; 1536];
    let up = servers.receive(0, &mut room)?;
    let too_long = servers.servers()[0].counts().too_long;
    Ok(
        up.is_none()
            && room == [0xaa; 1536]
            && servers.filtered() == 7
            && (too_long == 1) == places.is_empty()
            && went_after(servers.sockets(), 3, places, &bytes[..size]),
    )
}

#[test]
fn long_ones_to_one(rt: HostRuntime) -> Result<(), Fail> {
    let alloc = rt.alloc();
    assert!(rt; goes_to(alloc, SECOND_NODE, L1424, 1424, &[second_place()])?);
    assert!(rt; goes_to(alloc, SECOND_NODE, L34, 1424, &[second_place()])?);
    for (length, size) in [
        (L1425, 1425),
        (L34, 1425),
        (L1500, 1500),
        (L1500, 1536),
        (L1500, 2000),
    ] {
        assert!(rt; goes_to(alloc, SECOND_NODE, length, size, &[])?);
    }
    Ok(())
}

#[test]
fn long_ones_to_all(rt: HostRuntime) -> Result<(), Fail> {
    let alloc = rt.alloc();
    assert!(rt;
        goes_to(
            alloc,
            Node::BROADCAST,
            L1424,
            1424,
            &[second_place(), third_place()]
        )?
    );
    assert!(rt;
        goes_to(
            alloc,
            Node::BROADCAST,
            L34,
            1424,
            &[second_place(), third_place()]
        )?
    );
    for (length, size) in [
        (L1425, 1425),
        (L34, 1425),
        (L1500, 1500),
        (L1500, 1536),
        (L1500, 2000),
    ] {
        assert!(rt; goes_to(alloc, Node::BROADCAST, length, size, &[])?);
    }
    Ok(())
}

/// The core gets them whole, up to 1,536 bytes.
#[test]
fn long_ones_to_the_core(rt: HostRuntime) -> Result<(), Fail> {
    for (length, size, got) in [
        (L1424, 1424, 1424),
        (L1425, 1425, 1425),
        (L1500, 1500, 1500),
        (L1500, 1536, 1536),
        (L1500, 2000, 1536),
    ] {
        let bytes = long(PORT.own, length);
        let mut servers = after_registrations(rt.alloc(), &bytes[..size])?;
        let mut room = [0xaa; 2000];
        assert_eq!(rt; servers.receive(0, &mut room)?, Some(got));
        assert_eq!(rt; &room[..got], &bytes[..got]);
        assert!(rt; room[got..].iter().all(|byte| *byte == 0xaa));
        assert_eq!(rt; servers.sockets().went().len(), 3);
        assert_eq!(rt; servers.filtered(), 6);
    }
    Ok(())
}

/// A header with a length over 1,500, or over what came, begins no packet.
#[test]
fn long_ones_of_no_packet(rt: HostRuntime) -> Result<(), Fail> {
    for (length, size) in [(L1501, 1501), (L1425, 1424), (L2000, 2000)] {
        let bytes = long(PORT.own, length);
        let mut servers = after_registrations(rt.alloc(), &bytes[..size])?;
        let mut room = [0xaa; 2000];
        assert_eq!(rt; servers.receive(0, &mut room)?, None);
        assert_eq!(rt; servers.servers()[0].counts().malformed, 1);
        assert_eq!(rt; servers.sockets().went().len(), 3);
        assert_eq!(rt; servers.filtered(), 7);
    }
    Ok(())
}
