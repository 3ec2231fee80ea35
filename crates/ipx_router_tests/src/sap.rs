//! SAP packets of known bytes, and the length of the longest control packets.

use ipx_control::{ControlFault, Sap, ServiceEntry, decode_sap, encode_sap_into};
use ipx_wire::{Address, IpxHeader, Network, Node, Packet, Socket, decode, encode_into};
use std::alloc::Global;
use std::process::Abort;
use std::test::Fail;

fn address(network: u32, socket: u16) -> Address {
    Address {
        network: Network(network),
        node: Node([0, 0, 0x7f, 0, 0, 9]),
        socket: Socket(socket),
    }
}

fn service(letter: u8) -> ServiceEntry {
    let mut name = [0; 48];
    name[0] = letter;
    ServiceEntry {
        kind: 4,
        name,
        at: address(0x44, 0x451),
        hops: 3,
    }
}

/// Whether bytes are a general response, or one to a query for the nearest, with so many services.
fn tells(alloc: Global, body: &[u8], asked_nearest: bool, count: usize) -> bool {
    match decode_sap(alloc, body) {
        Ok(Sap::Response { nearest, services }) => {
            nearest == asked_nearest && services.len() == count
        }
        _ => false,
    }
}

/// Whether bytes are a query, for the nearest or for all, of a kind.
fn asks(alloc: Global, body: &[u8], for_nearest: bool, of_kind: u16) -> bool {
    match decode_sap(alloc, body) {
        Ok(Sap::Query { nearest, kind }) => nearest == for_nearest && kind == of_kind,
        _ => false,
    }
}

/// Whether bytes are refused with a fault.
fn is_refused(alloc: Global, body: &[u8], fault: ControlFault) -> bool {
    match decode_sap(alloc, body) {
        Ok(_) => false,
        Err(known) => known == fault,
    }
}

#[test]
fn longest_sap(rt: HostRuntime) {
    let mut body = [0; 514];
    body[1] = 2;
    assert!(rt; tells(rt.alloc(), &body[..450], false, 7));
    assert!(rt; is_refused(rt.alloc(), &body, ControlFault::TooManyEntries(8)));
    body[1] = 4;
    assert!(rt; is_refused(rt.alloc(), &body, ControlFault::TooManyEntries(8)));
}

/// Between sockets 0453 of network 22.
fn header() -> IpxHeader {
    IpxHeader {
        hops: 0,
        kind: 1,
        to: address(0x22, 0x453),
        from: address(0x22, 0x453),
    }
}

#[test]
fn lengths_of_packets(rt: HostRuntime) -> Result<(), Fail> {
    let mut body = [0; 450];
    body[1] = 2;
    let mut bytes = [0; 480];
    let rip = Packet {
        header: header(),
        body: &body[..402],
    };
    assert_eq!(rt; encode_into(&rip, &mut bytes), 432);
    assert_eq!(rt; decode(&bytes[..432])?.body.len(), 402);
    let sap = Packet {
        header: header(),
        body: &body,
    };
    assert_eq!(rt; encode_into(&sap, &mut bytes), 480);
    assert_eq!(rt; decode(&bytes)?.body.len(), 450);
    Ok(())
}

#[test]
fn sap_operations(rt: HostRuntime) {
    for (body, operation) in [([0, 0, 0xff, 0xff], 0), ([0, 5, 0xff, 0xff], 5)] {
        assert!(rt; is_refused(rt.alloc(), &body, ControlFault::UnknownOperation(operation)));
    }
    assert!(rt; tells(rt.alloc(), &[0, 4, 0xff], true, 0));
}

#[test]
fn queries(rt: HostRuntime) {
    let body = [0, 3, 0, 4, 0x77];
    for (length, fault) in [
        (0, ControlFault::NoOperation),
        (1, ControlFault::NoOperation),
        (2, ControlFault::QueryShort(2)),
        (3, ControlFault::QueryShort(3)),
    ] {
        assert!(rt; is_refused(rt.alloc(), &body[..length], fault));
    }
    for length in 4..6 {
        assert!(rt; asks(rt.alloc(), &body[..length], true, 4));
    }
    assert!(rt; asks(rt.alloc(), &[0, 1, 0xff, 0xff], false, 0xffff));
}

#[test]
fn written_query(rt: HostRuntime) {
    let mut out = [0x77; 5];
    let query = Sap::Query {
        nearest: true,
        kind: 4,
    };
    assert_eq!(rt; encode_sap_into(&query, &mut out), 4);
    assert_eq!(rt; out.as_slice(), [0, 3, 0, 4, 0x77].as_slice());
}

/// Where the second service of a response begins: address and hops of the first, then kind and
/// name.
const BETWEEN: [u8; 20] = [
    0, 0, 0, 0, 0, 0x44, 0, 0, 0x7f, 0, 0, 9, 4, 0x51, 0, 3, 0, 4, b'B', 0,
];

#[test]
fn written_services(rt: HostRuntime) -> Result<(), Fail> {
    let mut out = [0x77; 131];
    let services = vec![in rt.alloc(); service(b'A'), service(b'B')]?;
    let told = Sap::Response {
        nearest: false,
        services,
    };
    assert_eq!(rt; encode_sap_into(&told, &mut out), 130);
    assert_eq!(rt; &out[..6], [0, 2, 0, 4, b'A', 0].as_slice());
    assert_eq!(rt; &out[50..70], BETWEEN.as_slice());
    assert_eq!(rt; &out[128..], [0, 3, 0x77].as_slice());
    reads_services_back(&rt, rt.alloc(), &out)
}

fn reads_services_back(rt: &impl Abort, alloc: Global, out: &[u8; 131]) -> Result<(), Fail> {
    let Sap::Response { nearest, services } = decode_sap(alloc, &out[..130])? else {
        return Err(Fail::from(ControlFault::NoOperation));
    };
    assert!(rt; !nearest);
    let wanted = [service(b'A'), service(b'B')];
    assert_eq!(rt; services.as_slice(), wanted.as_slice());
    Ok(())
}

/// This also passes if a request for memory in it is refused. It is then reported as out of memory,
/// and bytes that are no packet still give their fault.
#[test]
fn refused_memory_of_sap(rt: HostRuntime) {
    let mut body = [0; 66];
    body[1] = 2;
    match decode_sap(rt.alloc(), &body) {
        Ok(sap) => assert!(rt;
            matches!(&sap, Sap::Response { services, .. } if services.len() == 1)
        ),
        Err(fault) => assert_eq!(rt; fault, ControlFault::OutOfMemory),
    }
    assert!(rt; is_refused(rt.alloc(), &[0, 3, 0], ControlFault::QueryShort(3)));
}
