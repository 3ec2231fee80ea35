//! Out of memory: the text is the same, or there is none.

use crate::fixture::{PORT, hear_both};
use ipx_table_dump::{
    clients_of_text, clients_to_text, first_advertisers, networks_of_text, services_of_text,
    tables_to_text,
};
use ipx_tables::{route_table, service_table};
use std::test::Fail;

#[test]
fn refused_memory_for_a_text(rt: HostRuntime) -> Result<(), Fail> {
    let alloc = rt.alloc();
    let (mut routes, mut services) = (route_table(alloc), service_table(alloc));
    if hear_both(alloc, &mut routes, &mut services).is_err() {
        hear_both(alloc, &mut routes, &mut services)?;
    }
    let first = tables_to_text(alloc, &[PORT], &routes, &services, 100_000);
    let second = tables_to_text(alloc, &[PORT], &routes, &services, 100_000);
    if let (Ok(first), Ok(second)) = (&first, &second) {
        assert_eq!(rt; first.as_str(), second.as_str());
    }
    assert!(rt; first.is_ok() || second.is_ok());
    Ok(())
}

#[test]
fn refused_memory_for_reading(rt: HostRuntime) -> Result<(), Fail> {
    let alloc = rt.alloc();
    let text = b"00000022 port 1 next 0000c6336407 hops 1 ticks 6 heard 31\n\
        0004 A at 00000a01 000000000001 0451 port 2 next 00000a010002 hops 1 heard 7\n";
    let networks = match networks_of_text(alloc, text) {
        Ok(networks) => networks,
        Err(_) => networks_of_text(alloc, text)?,
    };
    assert_eq!(rt; networks.len(), 1);
    let services = match services_of_text(alloc, text) {
        Ok(services) => services,
        Err(_) => services_of_text(alloc, text)?,
    };
    assert_eq!(rt; services.len(), 1);
    Ok(())
}

#[test]
fn refused_memory_for_advertisers(rt: HostRuntime) -> Result<(), Fail> {
    let alloc = rt.alloc();
    let (mut routes, mut services) = (route_table(alloc), service_table(alloc));
    if hear_both(alloc, &mut routes, &mut services).is_err() {
        hear_both(alloc, &mut routes, &mut services)?;
    }
    let advertisers = match first_advertisers(alloc, &routes, &services, 100_000) {
        Ok(advertisers) => advertisers,
        Err(_) => first_advertisers(alloc, &routes, &services, 100_000)?,
    };
    let told = advertisers
        .iter()
        .map(|(_, teller)| (teller.networks, teller.services));
    assert!(rt; told.eq([(1, 0), (1, 1)]));
    Ok(())
}

#[test]
fn refused_memory_for_clients(rt: HostRuntime) -> Result<(), Fail> {
    let alloc = rt.alloc();
    let text = b"client 0000d05b 203.0.113.9:48199\nend 1\n";
    let found = match clients_of_text(alloc, text) {
        Ok(found) => found,
        Err(_) => clients_of_text(alloc, text)?,
    };
    let Some(clients) = found else {
        assert!(rt; false);
        return Ok(());
    };
    let again = match clients_to_text(alloc, &clients) {
        Ok(again) => again,
        Err(_) => clients_to_text(alloc, &clients)?,
    };
    assert_eq!(rt; again.as_bytes(), text.as_slice());
    Ok(())
}
