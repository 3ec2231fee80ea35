//! RIP packets of known bytes.

use ipx_control::{ControlFault, Rip, RipEntry, decode_rip, encode_rip_into};
use ipx_wire::Network;
use std::alloc::Global;
use std::test::Fail;

/// A RIP response: network 11, 1 hop, 2 ticks; network 33, 1 hop, 2 ticks; and 7 bytes of a third.
const TWO_NETWORKS: [u8; 25] = [
    0, 2, 0, 0, 0, 0x11, 0, 1, 0, 2, 0, 0, 0, 0x33, 0, 1, 0, 2, 0, 0, 0, 0x44, 0, 1, 0,
];

/// The two complete entries of it.
const NETWORKS_11_AND_33: [RipEntry; 2] = [
    RipEntry {
        network: Network(0x11),
        hops: 1,
        ticks: 2,
    },
    RipEntry {
        network: Network(0x33),
        hops: 1,
        ticks: 2,
    },
];

/// Whether bytes are a response with so many entries.
fn tells(alloc: Global, body: &[u8], count: usize) -> bool {
    match decode_rip(alloc, body) {
        Ok(Rip::Response(entries)) => entries.len() == count,
        _ => false,
    }
}

/// Whether bytes are refused with a fault.
fn is_refused(alloc: Global, body: &[u8], fault: ControlFault) -> bool {
    match decode_rip(alloc, body) {
        Ok(_) => false,
        Err(known) => known == fault,
    }
}

#[test]
fn longest_rip(rt: HostRuntime) {
    let mut body = [0; 410];
    body[1] = 2;
    assert!(rt; tells(rt.alloc(), &body[..402], 50));
    assert!(rt; is_refused(rt.alloc(), &body, ControlFault::TooManyEntries(51)));
}

#[test]
fn short_tails(rt: HostRuntime) -> Result<(), Fail> {
    for length in 0..2 {
        let fault = ControlFault::NoOperation;
        assert!(rt; is_refused(rt.alloc(), &TWO_NETWORKS[..length], fault));
    }
    for length in 2..26 {
        assert!(rt; tells(rt.alloc(), &TWO_NETWORKS[..length], (length - 2) / 8));
    }
    let Rip::Response(entries) = decode_rip(rt.alloc(), &TWO_NETWORKS)? else {
        return Err(Fail::from(ControlFault::NoOperation));
    };
    assert_eq!(rt; entries.as_slice(), NETWORKS_11_AND_33.as_slice());
    Ok(())
}

#[test]
fn rip_operations(rt: HostRuntime) -> Result<(), Fail> {
    for (body, operation) in [
        ([0, 0, 0xff, 0xff], 0),
        ([0, 3, 0xff, 0xff], 3),
        ([1, 1, 0xff, 0xff], 0x101),
    ] {
        assert!(rt; is_refused(rt.alloc(), &body, ControlFault::UnknownOperation(operation)));
    }
    let asked = decode_rip(rt.alloc(), &[0, 1])?;
    assert!(rt; matches!(&asked, Rip::Request(entries) if entries.is_empty()));
    Ok(())
}

/// A network, hops and ticks of which no byte is 0.
const HIGH_ENTRY: RipEntry = RipEntry {
    network: Network(0xffff_ffff),
    hops: 0xffff,
    ticks: 0xfffe,
};

const HIGH_REQUEST: [u8; 12] = [
    0, 1, 0xff, 0xff, 0xff, 0xff, 0xff, 0xff, 0xff, 0xfe, 0x77, 0x77,
];

#[test]
fn written_rip(rt: HostRuntime) -> Result<(), Fail> {
    let mut out = [0x77; 12];
    let request = Rip::Request(vec![in rt.alloc(); HIGH_ENTRY]?);
    assert_eq!(rt; encode_rip_into(&request, &mut out), 10);
    assert_eq!(rt; out.as_slice(), HIGH_REQUEST.as_slice());
    let none = Rip::Response(Vec::new(rt.alloc()));
    assert_eq!(rt; encode_rip_into(&none, &mut out), 2);
    assert_eq!(rt; &out[..3], [0, 2, 0xff].as_slice());
    Ok(())
}

/// This also passes if a request for memory in it is refused. It is then reported as out of memory,
/// and bytes that are no packet still give their fault.
#[test]
fn refused_memory_of_rip(rt: HostRuntime) {
    match decode_rip(rt.alloc(), &TWO_NETWORKS) {
        Ok(rip) => assert!(rt; matches!(&rip, Rip::Response(entries) if entries.len() == 2)),
        Err(fault) => assert_eq!(rt; fault, ControlFault::OutOfMemory),
    }
    assert!(rt; is_refused(rt.alloc(), &[0], ControlFault::NoOperation));
}
