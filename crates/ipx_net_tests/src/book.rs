//! An indexed log: what it says of small logs written in the tests.

use ipx_net::{Entry, IndexedLog, NetFault, Parcel};
use ipx_wire::{Network, Node};
use spx_messages::Message;
use std::alloc::{AllocError, Global};
use std::test::Fail;

/// Appends one entry.
pub fn note(alloc: Global, indexed_log: &mut IndexedLog, entry: Entry) -> Result<(), Fail> {
    let entries = vec![in alloc; entry]?;
    indexed_log.append(Vec::new(alloc), entries)?;
    Ok(())
}

/// A message of one byte.
pub fn message(alloc: Global, byte: u8) -> Result<Message, AllocError> {
    let body = vec![in alloc; byte]?;
    Ok(Message { stream: 0, body })
}

/// A parcel of one byte.
pub fn parcel(alloc: Global, byte: u8) -> Result<Parcel, AllocError> {
    Ok(Parcel {
        segment: Network(0x11),
        next: Node([0, 0, 0x7f, 0, 0, 4]),
        bytes: vec![in alloc; byte]?,
        sent_by: None,
    })
}

/// The entries by which the ends 0 and 1 become peers: parcel 0 is the request, 1 the reply.
pub fn joining(alloc: Global) -> Result<Vec<Entry>, AllocError> {
    let entries = vec![in alloc;
        Entry::Opened {
            who: 0,
            host: 0,
            buffers: 8
        },
        Entry::System { who: 0, parcel: 0 },
        Entry::Accepted {
            who: 1,
            parcel: 0,
            buffers: 8
        },
        Entry::Got { who: 1, parcel: 0 },
        Entry::System { who: 1, parcel: 1 },
        Entry::Joined { who: 0, parcel: 1 },
        Entry::Got { who: 0, parcel: 1 },
    ]?;
    Ok(entries)
}

/// An indexed log of two peers.
fn joined(alloc: Global) -> Result<IndexedLog, Fail> {
    let mut indexed_log = IndexedLog::new(alloc);
    indexed_log.append(Vec::new(alloc), joining(alloc)?)?;
    Ok(indexed_log)
}

#[test]
fn peers(rt: HostRuntime) -> Result<(), Fail> {
    let mut indexed_log = joined(rt.alloc())?;
    note(
        rt.alloc(),
        &mut indexed_log,
        Entry::Opened {
            who: 2,
            host: 1,
            buffers: 8,
        },
    )?;
    assert_eq!(rt; indexed_log.log().len(), 8);
    assert_eq!(rt; indexed_log.peer(0), Some(1));
    assert_eq!(rt; indexed_log.peer(1), Some(0));
    assert_eq!(rt; indexed_log.peer(2), None);
    assert_eq!(rt; indexed_log.peer(3), None);
    Ok(())
}

/// Parcels are in the order in which they were appended.
#[test]
fn parcels(rt: HostRuntime) -> Result<(), Fail> {
    let alloc = rt.alloc();
    let mut indexed_log = IndexedLog::new(alloc);
    indexed_log.append(vec![in alloc; parcel(alloc, 7)?]?, Vec::new(alloc))?;
    indexed_log.append(vec![in alloc; parcel(alloc, 8)?]?, Vec::new(alloc))?;
    assert_eq!(rt; indexed_log.parcels().len(), 2);
    let last = indexed_log
        .parcels()
        .last()
        .map_or(0, |p| p.bytes.first().copied().unwrap_or(0));
    assert_eq!(rt; last, 8);
    Ok(())
}

/// 7 and 8 are handed in at end 0, and end 1 hands out 7 followed by another byte.
fn handed(alloc: Global, byte: u8) -> Result<IndexedLog, Fail> {
    let mut indexed_log = joined(alloc)?;
    note(
        alloc,
        &mut indexed_log,
        Entry::HandIn {
            who: 0,
            message: message(alloc, 7)?,
        },
    )?;
    note(
        alloc,
        &mut indexed_log,
        Entry::HandIn {
            who: 0,
            message: message(alloc, 8)?,
        },
    )?;
    note(
        alloc,
        &mut indexed_log,
        Entry::HandOut {
            who: 1,
            message: message(alloc, 7)?,
        },
    )?;
    note(
        alloc,
        &mut indexed_log,
        Entry::HandOut {
            who: 1,
            message: message(alloc, byte)?,
        },
    )?;
    Ok(indexed_log)
}

#[test]
fn begins_rows(rt: HostRuntime) -> Result<(), Fail> {
    assert!(rt; handed(rt.alloc(), 8)?.begins(1));
    assert!(rt; !handed(rt.alloc(), 9)?.begins(1));
    assert!(rt; handed(rt.alloc(), 9)?.begins(0));
    assert!(rt; !handed(rt.alloc(), 8)?.begins(2));
    Ok(())
}

/// An end without a peer hands out something.
#[test]
fn alone(rt: HostRuntime) -> Result<(), Fail> {
    let mut indexed_log = joined(rt.alloc())?;
    note(
        rt.alloc(),
        &mut indexed_log,
        Entry::Opened {
            who: 2,
            host: 1,
            buffers: 8,
        },
    )?;
    assert!(rt; indexed_log.begins(2));
    note(
        rt.alloc(),
        &mut indexed_log,
        Entry::HandOut {
            who: 2,
            message: message(rt.alloc(), 7)?,
        },
    )?;
    assert!(rt; !indexed_log.begins(2));
    Ok(())
}

/// End 1 reads parcel 2 of its peer, which sent so many units after it.
fn behind(alloc: Global, units: usize) -> Result<IndexedLog, Fail> {
    let mut indexed_log = joined(alloc)?;
    note(alloc, &mut indexed_log, Entry::System { who: 0, parcel: 2 })?;
    for k in 0..units {
        note(
            alloc,
            &mut indexed_log,
            Entry::Unit {
                who: 0,
                parcel: k.wrapping_add(3),
            },
        )?;
    }
    note(alloc, &mut indexed_log, Entry::Got { who: 1, parcel: 2 })?;
    Ok(indexed_log)
}

#[test]
fn fresh_rows(rt: HostRuntime) -> Result<(), Fail> {
    assert!(rt; behind(rt.alloc(), 0)?.fresh());
    assert!(rt; behind(rt.alloc(), 32_767)?.fresh());
    assert!(rt; !behind(rt.alloc(), 32_768)?.fresh());
    Ok(())
}

/// The same with units of an end that was never opened: they belong to neither of the two ends.
#[test]
fn units_of_no_end(rt: HostRuntime) -> Result<(), Fail> {
    let alloc = rt.alloc();
    let mut indexed_log = joined(alloc)?;
    note(alloc, &mut indexed_log, Entry::System { who: 0, parcel: 2 })?;
    for k in 0..40_000usize {
        note(
            alloc,
            &mut indexed_log,
            Entry::Unit {
                who: 9,
                parcel: k.wrapping_add(3),
            },
        )?;
    }
    note(alloc, &mut indexed_log, Entry::Got { who: 1, parcel: 2 })?;
    assert!(rt; indexed_log.fresh());
    Ok(())
}

/// The numbers of the faults.
#[test]
fn fault_numbers(rt: HostRuntime) {
    assert_eq!(rt; NetFault::NoSuchParcel.number(), 32);
    assert_eq!(rt; NetFault::NotOnSegment.number(), 33);
    assert_eq!(rt; NetFault::NoSuchEnd.number(), 34);
    assert_eq!(rt; NetFault::Full.number(), 35);
    assert_eq!(rt; NetFault::OutOfMemory.number(), 36);
    assert_eq!(rt; NetFault::Spent.number(), 37);
}
