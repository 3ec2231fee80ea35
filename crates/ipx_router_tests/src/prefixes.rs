//! Packets that are cut off: what is read of each of their prefixes.

use ipx_control::{ControlFault, Rip, Sap, decode_rip, decode_sap};
use ipx_wire::{IpxFault, SpxFault, decode, decode_spx};
use std::alloc::Global;
use std::process::Abort;
use std::test::Fail;

/// A RIP response from port 00007f000002 of network 22: network 11, 1 hop, 2 ticks; network 33,
/// 1 hop, 2 ticks.
const TWO_ROUTES: [u8; 48] = [
    0xff, 0xff, 0, 0x30, 0, 1, 0, 0, 0, 0x22, 0xff, 0xff, 0xff, 0xff, 0xff, 0xff, 4, 0x53, 0, 0, 0,
    0x22, 0, 0, 0x7f, 0, 0, 2, 4, 0x53, 0, 2, 0, 0, 0, 0x11, 0, 1, 0, 2, 0, 0, 0, 0x33, 0, 1, 0, 2,
];

/// Why a datagram is refused, if it is.
fn fault_of(bytes: &[u8]) -> Option<IpxFault> {
    match decode(bytes) {
        Ok(_) => None,
        Err(fault) => Some(fault),
    }
}

/// The first n bytes of the packet.
fn packet_rows(rt: &impl Abort) -> Result<(), Fail> {
    for length in 0..30 {
        assert_eq!(rt;
            fault_of(&TWO_ROUTES[..length]),
            Some(IpxFault::Short(length))
        );
    }
    for length in 30..48 {
        assert_eq!(rt;
            fault_of(&TWO_ROUTES[..length]),
            Some(IpxFault::Truncated(48, length))
        );
    }
    assert_eq!(rt; decode(&TWO_ROUTES)?.body, &TWO_ROUTES[30..]);
    Ok(())
}

/// The number of entries of a response, or why it is none.
fn entries_in(alloc: Global, body: &[u8]) -> Result<usize, ControlFault> {
    match decode_rip(alloc, body)? {
        Rip::Response(entries) => Ok(entries.len()),
        Rip::Request(_) => Err(ControlFault::UnknownOperation(1)),
    }
}

/// The first n bytes of its RIP body.
fn rip_rows(rt: &impl Abort, alloc: Global) {
    for (length, read) in [
        (0, Err(ControlFault::NoOperation)),
        (1, Err(ControlFault::NoOperation)),
        (2, Ok(0)),
        (9, Ok(0)),
        (10, Ok(1)),
        (17, Ok(1)),
        (18, Ok(2)),
    ] {
        assert_eq!(rt; entries_in(alloc, &TWO_ROUTES[30..30 + length]), read);
    }
}

/// The lengths between those.
fn more_rip_rows(rt: &impl Abort, alloc: Global) {
    for length in 2..10 {
        assert_eq!(rt; entries_in(alloc, &TWO_ROUTES[30..30 + length]), Ok(0));
    }
    for length in 10..18 {
        assert_eq!(rt; entries_in(alloc, &TWO_ROUTES[30..30 + length]), Ok(1));
    }
}

/// The service type that a general query asks for, or why it is none.
fn asked_in(alloc: Global, body: &[u8]) -> Result<u16, ControlFault> {
    match decode_sap(alloc, body)? {
        Sap::Query {
            nearest: false,
            kind,
        } => Ok(kind),
        _ => Err(ControlFault::UnknownOperation(3)),
    }
}

/// A SAP query of n bytes.
fn sap_rows(rt: &impl Abort, alloc: Global) {
    let query = [0, 1, 0, 4];
    for (length, read) in [
        (0, Err(ControlFault::NoOperation)),
        (1, Err(ControlFault::NoOperation)),
        (2, Err(ControlFault::QueryShort(2))),
        (3, Err(ControlFault::QueryShort(3))),
        (4, Ok(4)),
    ] {
        assert_eq!(rt; asked_in(alloc, &query[..length]), read);
    }
}

/// An SPX body of n bytes.
fn spx_rows(rt: &impl Abort) {
    let bytes = [0; 547];
    for length in 0..548 {
        let read = decode_spx(&bytes[..length]);
        if length < 12 {
            assert!(rt; matches!(read, Err(SpxFault::SpxShort(have)) if have == length));
        } else if length < 547 {
            assert!(rt; matches!(read, Ok((_, data)) if data.len() + 12 == length));
        } else {
            assert!(rt; matches!(read, Err(SpxFault::OverSize(547))));
        }
    }
}

#[test]
fn cut_rows(rt: HostRuntime) -> Result<(), Fail> {
    packet_rows(&rt)?;
    rip_rows(&rt, rt.alloc());
    more_rip_rows(&rt, rt.alloc());
    sap_rows(&rt, rt.alloc());
    spx_rows(&rt);
    Ok(())
}

#[test]
fn texts_of_control_faults(rt: HostRuntime) -> Result<(), Fail> {
    for (fault, text) in [
        (
            ControlFault::NoOperation,
            "no operation, a RIP or SAP packet begins with 2 bytes of it",
        ),
        (
            ControlFault::UnknownOperation(5),
            "operation 5, RIP has 1 and 2, SAP has 1 to 4",
        ),
        (
            ControlFault::TooManyEntries(51),
            "51 entries, RIP has at most 50, SAP at most 7",
        ),
        (ControlFault::QueryShort(3), "3 bytes, a SAP query needs 4"),
        (ControlFault::OutOfMemory, "out of memory"),
    ] {
        let said = format!(in rt.alloc(); "{fault}")?;
        assert_eq!(rt; said.as_str(), text);
    }
    Ok(())
}
