//! After each of 200 random advertisements the text is the one that a second program computes,
//! `tests/gate/heard`.

use crate::fixture::{PORT, files, route, service};
use crate::hearings::{HEARINGS, Hearing};
use ipx_router::Port;
use ipx_table_dump::tables_to_text;
use ipx_tables::{
    RouteTable, ServiceKey, ServiceTable, Source, TableFault, route_table, service_table,
};
use ipx_wire::{Network, Node};
use std::alloc::Global;
use std::test::Fail;

const SECOND: Port = Port {
    network: Network(0xabc),
    node: Node([0, 0, 0x7f, 0, 0, 2]),
    cost: 65_535,
};

/// The service at an index of the second program's list.
fn service_at(place: usize) -> ServiceKey {
    match place {
        0 => service(b"HQ-FILES"),
        1 => service(b"A B\\\x7f~!"),
        2 => service(b""),
        3 => ServiceKey {
            kind: 0x640,
            ..service(b"HQ-FILES")
        },
        _ => ServiceKey {
            kind: 0x640,
            name: [b'z'; 48],
        },
    }
}

/// Hears an advertisement, and returns its time.
fn hear(
    alloc: Global,
    routes: &mut RouteTable,
    services: &mut ServiceTable,
    hearing: Hearing,
) -> Result<u64, TableFault> {
    let (now, of_network, key, port, node, hops, far, _) = hearing;
    let source = Source {
        port,
        neighbour: Node([0, 0, 0x7f, 0, 0, node]),
    };
    if of_network {
        routes.hear(alloc, Network(key as u32), source, route(far, hops), now)?;
    } else {
        let mut metric = files(hops);
        metric.at.network = Network(u32::from(far));
        services.hear(alloc, service_at(key), source, metric, now)?;
    }
    Ok(now)
}

/// FNV-1a, of 64 bits.
fn digest(text: &str) -> u64 {
    let mut number: u64 = 0xcbf2_9ce4_8422_2325;
    for byte in text.as_bytes() {
        number = (number ^ u64::from(*byte)).wrapping_mul(0x0100_0000_01b3);
    }
    number
}

#[test]
fn as_a_second_program_computes(rt: HostRuntime) -> Result<(), Fail> {
    let alloc = rt.alloc();
    let (mut routes, mut services) = (route_table(alloc), service_table(alloc));
    for hearing in HEARINGS {
        let now = hear(alloc, &mut routes, &mut services, hearing)?;
        let text = tables_to_text(alloc, &[PORT, SECOND], &routes, &services, now)?;
        if digest(text.as_str()) != hearing.7 {
            panic!(rt; "at {now} ms it is\n{text}");
        }
    }
    Ok(())
}
