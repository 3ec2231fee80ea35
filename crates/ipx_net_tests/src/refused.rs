//! An indexed log while memory is refused. Run these with each request for memory refused.

use crate::book::{joining, parcel};
use ipx_net::{Entry, IndexedLog, Parcel};
use std::alloc::{AllocError, Global};
use std::process::Abort;
use std::test::Fail;

/// Entries. If memory is refused, they are made again.
fn entries_at_last(alloc: Global) -> Result<Vec<Entry>, AllocError> {
    match joining(alloc) {
        Ok(entries) => Ok(entries),
        Err(_) => joining(alloc),
    }
}

/// One parcel in a list.
fn one_parcel(alloc: Global) -> Result<Vec<Parcel>, AllocError> {
    let parcels = vec![in alloc; parcel(alloc, 7)?]?;
    Ok(parcels)
}

/// The same. If memory is refused, it is tried again.
fn parcel_at_last(alloc: Global) -> Result<Vec<Parcel>, AllocError> {
    match one_parcel(alloc) {
        Ok(parcels) => Ok(parcels),
        Err(_) => one_parcel(alloc),
    }
}

/// Appends. If memory is refused, the log is as it was, and it is tried again.
fn append_at_last(
    rt: &impl Abort,
    alloc: Global,
    indexed_log: &mut IndexedLog,
) -> Result<(), Fail> {
    let parcels = parcel_at_last(alloc)?;
    let entries = entries_at_last(alloc)?;
    if indexed_log.append(parcels, entries).is_err() {
        assert_eq!(rt; indexed_log.log().len(), 0);
        assert_eq!(rt; indexed_log.parcels().len(), 0);
        indexed_log.append(one_parcel(alloc)?, joining(alloc)?)?;
    }
    Ok(())
}

#[test]
fn refused_append(rt: HostRuntime) -> Result<(), Fail> {
    let mut indexed_log = IndexedLog::new(rt.alloc());
    append_at_last(&rt, rt.alloc(), &mut indexed_log)?;
    assert_eq!(rt; indexed_log.log().len(), 7);
    assert_eq!(rt; indexed_log.parcels().len(), 1);
    assert_eq!(rt; indexed_log.peer(1), Some(0));
    assert!(rt; indexed_log.fresh());
    Ok(())
}
