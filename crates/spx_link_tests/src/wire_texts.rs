//! The texts of the faults of IPX and SPX packets, and of addresses and packets.

use ipx_wire::{Address, IpxFault, IpxHeader, Network, Node, Packet, Socket, SpxFault};
use std::test::Fail;

#[test]
fn texts_of_ipx_faults(rt: HostRuntime) -> Result<(), Fail> {
    for (fault, text) in [
        (IpxFault::Short(3), "3 bytes, an IPX header needs 30"),
        (
            IpxFault::Checksummed(0),
            "checksum 0000, only ffff is accepted",
        ),
        (
            IpxFault::LengthShort(29),
            "length field says 29 bytes, an IPX header needs 30",
        ),
        (
            IpxFault::Truncated(31, 30),
            "length field says 31 bytes, datagram has 30",
        ),
        (
            IpxFault::TooLong(1501),
            "length field says 1501 bytes, at most 1500 are accepted",
        ),
    ] {
        let said = format!(in rt.alloc(); "{fault}")?;
        assert_eq!(rt; said.as_str(), text);
    }
    Ok(())
}

#[test]
fn texts_of_spx_faults(rt: HostRuntime) -> Result<(), Fail> {
    let short = SpxFault::SpxShort(11);
    let over = SpxFault::OverSize(547);
    let said = format!(in rt.alloc(); "{short}; {over}")?;
    let wanted = "11 bytes, an SPX header needs 12; \
        547 bytes, an SPX header and its data have at most 546";
    assert_eq!(rt; said.as_str(), wanted);
    Ok(())
}

/// Socket 4000 of node 00007f000005 on network 22.
const AT: Address = Address {
    network: Network(0x22),
    node: Node([0, 0, 0x7f, 0, 0, 5]),
    socket: Socket(0x4000),
};

#[test]
fn texts_of_addresses(rt: HostRuntime) -> Result<(), Fail> {
    let said = format!(in rt.alloc(); "{AT} {AT:?}")?;
    let wanted = "00000022:00007f000005:4000 00000022:00007f000005:4000";
    assert_eq!(rt; said.as_str(), wanted);
    Ok(())
}

/// Texts that are no network.
const NO_NETWORKS: [&str; 7] = [
    "",
    "0000022",
    "000000022",
    "+0000022",
    " 0000022",
    "0000002g",
    "0x000022",
];

#[test]
fn addresses_are_read_from_hex(rt: HostRuntime) -> Result<(), Fail> {
    assert_eq!(rt; Network::from_hex(b"00000022"), Some(Network(34)));
    assert_eq!(rt;
        Network::from_hex(b"fFfFfFfE"),
        Some(Network(4_294_967_294))
    );
    for text in NO_NETWORKS {
        assert_eq!(rt; Network::from_hex(text.as_bytes()), None);
    }
    let node = Some(Node([0, 0, 127, 0, 0, 5]));
    assert_eq!(rt; Node::from_hex(b"00007F000005"), node);
    assert_eq!(rt; Node::from_hex(b"00007f00000"), None);
    assert_eq!(rt; Node::from_hex(b"00007f00000500"), None);
    assert_eq!(rt; Socket::from_hex(b"4002"), Some(Socket(16_386)));
    assert_eq!(rt; Socket::from_hex(b"ffff"), Some(Socket(65_535)));
    assert_eq!(rt; Socket::from_hex(b"402"), None);
    assert_eq!(rt; Socket::from_hex(b"-402"), None);
    Ok(())
}

#[test]
fn texts_of_packets(rt: HostRuntime) -> Result<(), Fail> {
    let header = IpxHeader {
        hops: 1,
        kind: 5,
        to: AT,
        from: AT,
    };
    let packet = Packet {
        header,
        body: &[0xc0, 7],
    };
    let said = format!(in rt.alloc(); "{packet:?}")?;
    let wanted = "IpxHeader { hops: 1, kind: 5, to: 00000022:00007f000005:4000, \
        from: 00000022:00007f000005:4000 } with body c007";
    assert_eq!(rt; said.as_str(), wanted);
    Ok(())
}
