//! IPX packets and their bytes: what is read, what is refused, and what is changed or written in
//! place.

use crate::end::REQUEST;
use ipx_wire::{
    Address, IpxFault, IpxHeader, Network, Node, Packet, Socket, decode, encapsulate,
    encapsulate_spx, encode_into, packet_part, packet_type, set_hops, set_source_network,
};
use std::test::Fail;

/// From socket 4001 of node 00007f000003 on network 11 to socket 4000 of node 00007f000005 on
/// network 22, with no body.
const PACKET: [u8; 30] = [
    0xff, 0xff, 0, 0x1e, 0, 0, 0, 0, 0, 0x22, 0, 0, 0x7f, 0, 0, 5, 0x40, 0, 0, 0, 0, 0x11, 0, 0,
    0x7f, 0, 0, 3, 0x40, 1,
];

const HEADER: IpxHeader = IpxHeader {
    hops: 0,
    kind: packet_type::UNKNOWN,
    to: Address {
        network: Network(0x22),
        node: Node([0, 0, 0x7f, 0, 0, 5]),
        socket: Socket(0x4000),
    },
    from: Address {
        network: Network(0x11),
        node: Node([0, 0, 0x7f, 0, 0, 3]),
        socket: Socket(0x4001),
    },
};

/// Why a datagram is refused, if it is.
fn fault_of(bytes: &[u8]) -> Option<IpxFault> {
    match decode(bytes) {
        Ok(_) => None,
        Err(fault) => Some(fault),
    }
}

#[test]
fn reads_a_packet(rt: HostRuntime) -> Result<(), Fail> {
    let packet = decode(&PACKET)?;
    assert_eq!(rt; packet.header, HEADER);
    assert!(rt; packet.body.is_empty());
    Ok(())
}

#[test]
fn writes_a_packet(rt: HostRuntime) {
    let mut out = [0xaa; 31];
    let packet = Packet {
        header: HEADER,
        body: b"",
    };
    assert_eq!(rt; encode_into(&packet, &mut out), 30);
    assert_eq!(rt; &out[..30], PACKET.as_slice());
    assert_eq!(rt; out[30], 0xaa);
}

#[test]
fn refuses_a_header_that_is_cut(rt: HostRuntime) {
    assert_eq!(rt; fault_of(b""), Some(IpxFault::Short(0)));
    assert_eq!(rt; fault_of(&PACKET[..29]), Some(IpxFault::Short(29)));
    for length in 0..30 {
        assert_eq!(rt; fault_of(&PACKET[..length]), Some(IpxFault::Short(length)));
    }
}

#[test]
fn refuses_a_checksum(rt: HostRuntime) {
    let mut bytes = PACKET;
    bytes[0] = 0;
    bytes[1] = 0;
    assert_eq!(rt; fault_of(&bytes), Some(IpxFault::Checksummed(0)));
    // The checksum is checked before the length.
    bytes[3] = 0x1d;
    assert_eq!(rt; fault_of(&bytes), Some(IpxFault::Checksummed(0)));
}

#[test]
fn refuses_a_length_that_is_not_there(rt: HostRuntime) {
    let mut bytes = PACKET;
    bytes[3] = 0x1d;
    assert_eq!(rt; fault_of(&bytes), Some(IpxFault::LengthShort(29)));
    bytes[3] = 0x1f;
    assert_eq!(rt; fault_of(&bytes), Some(IpxFault::Truncated(31, 30)));
    bytes[2] = 0xff;
    assert_eq!(rt; fault_of(&bytes), Some(IpxFault::Truncated(0xff1f, 30)));
}

#[test]
fn longest_packets(rt: HostRuntime) {
    let mut bytes = [0xff; 1501];
    bytes[2] = 5;
    bytes[3] = 0xdc;
    assert_eq!(rt; fault_of(&bytes[..1500]), None);
    assert_eq!(rt;
        fault_of(&bytes[..1499]),
        Some(IpxFault::Truncated(1500, 1499))
    );
    bytes[3] = 0xdd;
    assert_eq!(rt; fault_of(&bytes), Some(IpxFault::TooLong(1501)));
}

#[test]
fn longest_body(rt: HostRuntime) -> Result<(), Fail> {
    let mut bytes = [0xff; 1501];
    bytes[2] = 5;
    bytes[3] = 0xdc;
    assert_eq!(rt; decode(&bytes)?.body.len(), 1470);
    Ok(())
}

/// The packet followed by a byte of padding.
const PADDED: [u8; 31] = [
    0xff, 0xff, 0, 0x1e, 0, 0, 0, 0, 0, 0x22, 0, 0, 0x7f, 0, 0, 5, 0x40, 0, 0, 0, 0, 0x11, 0, 0,
    0x7f, 0, 0, 3, 0x40, 1, 0,
];

#[test]
fn leaves_padding_out(rt: HostRuntime) -> Result<(), Fail> {
    let packet = decode(&PADDED)?;
    assert!(rt; packet.body.is_empty());
    assert_eq!(rt; packet_part(&PADDED, &packet), PACKET.as_slice());
    Ok(())
}

#[test]
fn changes_hops(rt: HostRuntime) -> Result<(), Fail> {
    let mut bytes = PACKET;
    set_hops(&mut bytes, 1);
    assert_eq!(rt; decode(&bytes)?.header, IpxHeader { hops: 1, ..HEADER });
    assert_eq!(rt; &bytes[..4], &PACKET[..4]);
    assert_eq!(rt; bytes[4], 1);
    assert_eq!(rt; &bytes[5..], &PACKET[5..]);
    Ok(())
}

#[test]
fn changes_the_source_network(rt: HostRuntime) {
    let mut bytes = PACKET;
    bytes[21] = 0;
    set_source_network(&mut bytes, Network(0x11));
    assert_eq!(rt; bytes, PACKET);
    set_source_network(&mut bytes, Network(0x01020304));
    assert_eq!(rt; &bytes[18..22], [1, 2, 3, 4].as_slice());
    assert_eq!(rt; &bytes[22..], &PACKET[22..]);
}

/// A request for a connection, from socket 4001 of node 00007f000003 to socket 4000 of node
/// 00007f000004 on network 11.
const REQUEST_DATAGRAM: [u8; 42] = [
    0xff, 0xff, 0, 0x2a, 0, 5, 0, 0, 0, 0x11, 0, 0, 0x7f, 0, 0, 4, 0x40, 0, 0, 0, 0, 0x11, 0, 0,
    0x7f, 0, 0, 3, 0x40, 1, 0xc0, 0, 0, 1, 0xff, 0xff, 0, 0, 0, 0, 0, 7,
];

const REQUEST_HEADER: IpxHeader = IpxHeader {
    hops: 0,
    kind: packet_type::SPX,
    to: Address {
        network: Network(0x11),
        node: Node([0, 0, 0x7f, 0, 0, 4]),
        socket: Socket(0x4000),
    },
    from: Address {
        network: Network(0x11),
        node: Node([0, 0, 0x7f, 0, 0, 3]),
        socket: Socket(0x4001),
    },
};

#[test]
fn writes_headers_in_place(rt: HostRuntime) {
    let mut out = [0xaa; 43];
    assert_eq!(rt; encapsulate_spx(&REQUEST, 0, &mut out[30..]), 12);
    assert_eq!(rt; encapsulate(&REQUEST_HEADER, 12, &mut out), 42);
    assert_eq!(rt; &out[..42], REQUEST_DATAGRAM.as_slice());
    assert_eq!(rt; out[42], 0xaa);
}

#[test]
fn writes_headers_before_data(rt: HostRuntime) {
    let mut out = [b'x'; 46];
    assert_eq!(rt; encapsulate_spx(&REQUEST, 3, &mut out[30..]), 15);
    assert_eq!(rt; encapsulate(&REQUEST_HEADER, 15, &mut out), 45);
    assert_eq!(rt; out[3], 45);
    assert_eq!(rt; &out[4..42], &REQUEST_DATAGRAM[4..]);
    assert_eq!(rt; &out[42..], b"xxxx".as_slice());
}
