//! What a router knows, as literal texts.

use crate::fixture::{FAR, NEAR, PORT, files, hear_both, route, service};
use ipx_router::Port;
use ipx_table_dump::{
    has_all_titles, networks_of_text, own_networks_of_text, services_of_text, tables_to_text,
};
use ipx_tables::{route_table, service_table};
use ipx_wire::{Network, Node};
use std::test::Fail;

#[test]
fn a_network_by_two_neighbours(rt: HostRuntime) -> Result<(), Fail> {
    let alloc = rt.alloc();
    let (mut routes, mut services) = (route_table(alloc), service_table(alloc));
    hear_both(alloc, &mut routes, &mut services)?;
    let text = tables_to_text(alloc, &[PORT], &routes, &services, 100_000)?;
    let wanted = "networks 3\n\
        00000001 own port 1 cost 6\n\
        00000022 port 1 next 0000c6336407 hops 1 ticks 6 heard 31\n\
        00000022 port 2 next 00000a010002 hops 3 ticks 9 heard 12 spare\n\
        services 1\n\
        0004 HQ-FILES at 00000a01 000000000001 0451 port 2 next 00000a010002 hops 1 heard 7\n\
        neighbours 2\n\
        port 1 0000c6336407 networks 1 services 0 heard 31\n\
        port 2 00000a010002 networks 1 services 1 heard 7\n";
    assert_eq!(rt; text.as_str(), wanted);
    Ok(())
}

/// Three minutes after its last advertisement an offer no longer counts, and the other one is best.
#[test]
fn what_is_old_is_left_out(rt: HostRuntime) -> Result<(), Fail> {
    let alloc = rt.alloc();
    let (mut routes, mut services) = (route_table(alloc), service_table(alloc));
    hear_both(alloc, &mut routes, &mut services)?;
    let text = tables_to_text(alloc, &[PORT], &routes, &services, 249_000)?;
    let wanted = "networks 2\n\
        00000001 own port 1 cost 6\n\
        00000022 port 2 next 00000a010002 hops 3 ticks 9 heard 161\n\
        services 1\n\
        0004 HQ-FILES at 00000a01 000000000001 0451 port 2 next 00000a010002 hops 1 heard 156\n\
        neighbours 1\n\
        port 2 00000a010002 networks 1 services 1 heard 156\n";
    assert_eq!(rt; text.as_str(), wanted);
    let none = tables_to_text(alloc, &[PORT], &routes, &services, 273_000)?;
    let wanted = "networks 1\n00000001 own port 1 cost 6\nservices 0\nneighbours 0\n";
    assert_eq!(rt; none.as_str(), wanted);
    Ok(())
}

/// A time in the future, after a clock went back, counts as now.
#[test]
fn a_later_moment_is_now(rt: HostRuntime) -> Result<(), Fail> {
    let alloc = rt.alloc();
    let (mut routes, services) = (route_table(alloc), service_table(alloc));
    routes.hear(alloc, Network(0xffff_fffd), FAR, route(65_535, 15), 9_000)?;
    let second = Port {
        network: Network(0xabc),
        node: Node([0, 0, 0x7f, 0, 0, 2]),
        cost: 65_535,
    };
    let text = tables_to_text(alloc, &[PORT, second], &routes, &services, 0)?;
    let wanted = "networks 3\n\
        00000001 own port 1 cost 6\n\
        00000abc own port 2 cost 65535\n\
        fffffffd port 1 next 0000c6336407 hops 15 ticks 65535 heard 0\n\
        services 0\n\
        neighbours 1\n\
        port 1 0000c6336407 networks 1 services 0 heard 0\n";
    assert_eq!(rt; text.as_str(), wanted);
    Ok(())
}

/// Names are printed as `ipx show` prints them. If two neighbours advertise one name, one offer is
/// best.
#[test]
fn names_of_services(rt: HostRuntime) -> Result<(), Fail> {
    let alloc = rt.alloc();
    let (routes, mut services) = (route_table(alloc), service_table(alloc));
    services.hear(alloc, service(b"A B\\\x7f~!"), FAR, files(2), 0)?;
    services.hear(alloc, service(b"A B\\\x7f~!"), NEAR, files(1), 0)?;
    services.hear(alloc, service(b""), NEAR, files(15), 1_999)?;
    let text = tables_to_text(alloc, &[], &routes, &services, 2_000)?;
    let wanted = "networks 0\n\
        services 3\n\
        0004 - at 00000a01 000000000001 0451 port 2 next 00000a010002 hops 15 heard 0\n\
        0004 A\\x20B\\x5c\\x7f~! at 00000a01 000000000001 0451 \
        port 1 next 0000c6336407 hops 2 heard 2 spare\n\
        0004 A\\x20B\\x5c\\x7f~! at 00000a01 000000000001 0451 \
        port 2 next 00000a010002 hops 1 heard 2\n\
        neighbours 2\n\
        port 1 0000c6336407 networks 0 services 1 heard 2\n\
        port 2 00000a010002 networks 0 services 2 heard 0\n";
    assert_eq!(rt; text.as_str(), wanted);
    Ok(())
}

/// Only best offers are read, and lines of another form are skipped.
#[test]
fn a_text_is_read_again(rt: HostRuntime) -> Result<(), Fail> {
    let alloc = rt.alloc();
    let (mut routes, mut services) = (route_table(alloc), service_table(alloc));
    hear_both(alloc, &mut routes, &mut services)?;
    let text = tables_to_text(alloc, &[PORT], &routes, &services, 100_000)?;
    let networks = networks_of_text(alloc, text.as_bytes())?;
    assert_eq!(rt; networks.len(), 1);
    let network = networks[0];
    assert_eq!(rt; network.network, "00000022".as_bytes());
    assert_eq!(rt; network.port, "1".as_bytes());
    assert_eq!(rt; network.next, "0000c6336407".as_bytes());
    assert_eq!(rt; network.hops, "1".as_bytes());
    assert_eq!(rt; network.ticks, "6".as_bytes());
    let services = services_of_text(alloc, text.as_bytes())?;
    assert_eq!(rt; services.len(), 1);
    let service = services[0];
    assert_eq!(rt; service.kind, "0004".as_bytes());
    assert_eq!(rt; service.name, "HQ-FILES".as_bytes());
    assert_eq!(rt; service.network, "00000a01".as_bytes());
    assert_eq!(rt; service.node, "000000000001".as_bytes());
    assert_eq!(rt; service.socket, "0451".as_bytes());
    assert_eq!(rt; service.port, "2".as_bytes());
    assert_eq!(rt; service.next, "00000a010002".as_bytes());
    assert_eq!(rt; service.hops, "1".as_bytes());
    let other = b"00000022 port 1 next 0000c6336407 hops 1 ticks 6 since 31\nnetworks 1\n\n";
    assert!(rt; networks_of_text(alloc, other)?.is_empty());
    assert!(rt; services_of_text(alloc, other)?.is_empty());
    Ok(())
}

/// The networks of ports are read too, and a text that is cut off before its last title is
/// recognized.
#[test]
fn own_networks_are_read_again(rt: HostRuntime) -> Result<(), Fail> {
    let alloc = rt.alloc();
    let (mut routes, mut services) = (route_table(alloc), service_table(alloc));
    hear_both(alloc, &mut routes, &mut services)?;
    let text = tables_to_text(alloc, &[PORT], &routes, &services, 100_000)?;
    let owns = own_networks_of_text(alloc, text.as_bytes())?;
    assert_eq!(rt; owns.len(), 1);
    assert_eq!(rt; owns[0].network, "00000001".as_bytes());
    assert_eq!(rt; owns[0].port, "1".as_bytes());
    assert_eq!(rt; owns[0].cost, "6".as_bytes());
    assert!(rt; has_all_titles(alloc, text.as_bytes())?);
    let half = b"networks 1\n00000001 own port 1 cost 6\nservices 0\nneighbours";
    assert!(rt; !has_all_titles(alloc, half)?);
    assert!(rt; !has_all_titles(alloc, b"services 0\nnetworks 0\nneighbours 0\n")?);
    assert!(rt; own_networks_of_text(alloc, b"00000001 own port 1 price 6\n")?.is_empty());
    Ok(())
}
