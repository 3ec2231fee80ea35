//! Table files printed as tables and lines of JSON, also when out of memory.

use ipx_query_cmd::{KnownFault, known_networks_to_text, known_services_to_text};
use std::alloc::Global;

const TEXT: &str = "networks 3\n\
    00000001 own port 1 cost 6\n\
    00000022 port 1 next 0000c6336407 hops 1 ticks 6 heard 31\n\
    00000022 port 2 next 00000a010002 hops 15 ticks 65535 heard 12 spare\n\
    services 2\n\
    0004 HQ-\"FILES at 00000a01 000000000001 0451 port 2 next 00000a010002 hops 1 heard 7\n\
    0640 A\\x20B at 00000a02 000000000001 0451 port 2 next 00000a010002 hops 15 heard 7\n\
    neighbours 2\n\
    port 1 0000c6336407 networks 1 services 0 heard 31\n\
    port 2 00000a010002 networks 1 services 2 heard 7\n";

fn networks(alloc: Global, json: bool) -> Result<String, KnownFault> {
    known_networks_to_text(alloc, json, "hq.tables", TEXT.as_bytes())
}

fn services(alloc: Global, json: bool, kind: u16) -> Result<String, KnownFault> {
    known_services_to_text(alloc, json, "hq.tables", kind, TEXT.as_bytes())
}

/// Whether these lines were made, or memory ran out.
fn is_made(made: Result<String, KnownFault>, wanted: &str) -> bool {
    match made {
        Ok(text) => text.as_str() == wanted,
        Err(fault) => fault == KnownFault::OutOfMemory,
    }
}

/// The router's own networks come first, and spare routes are left out.
#[test]
fn known_networks(rt: HostRuntime) {
    let table = "network   hops  ticks  by\n\
        00000001     0      0  -\n\
        00000022     1      6  0000c6336407\n\
        2 networks, by hq.tables\n";
    assert!(rt; is_made(networks(rt.alloc(), false), table));
    let lines = "{\"network\":\"00000001\",\"hops\":0,\"ticks\":0,\"by\":\"-\"}\n\
        {\"network\":\"00000022\",\"hops\":1,\"ticks\":6,\"by\":\"0000c6336407\"}\n";
    assert!(rt; is_made(networks(rt.alloc(), true), lines));
}

/// The services of a type, or all of them.
#[test]
fn known_services(rt: HostRuntime) {
    let table = "type              name       network   node          socket  hops  by\n\
        0004 file server  HQ-\"FILES  00000a01  000000000001  0451       1  00000a010002\n\
        0640              A\\x20B     00000a02  000000000001  0451      15  00000a010002\n\
        2 services, by hq.tables\n";
    assert!(rt; is_made(services(rt.alloc(), false, 0xffff), table));
    let one = "type              name       network   node          socket  hops  by\n\
        0004 file server  HQ-\"FILES  00000a01  000000000001  0451       1  00000a010002\n\
        1 service, by hq.tables\n";
    assert!(rt; is_made(services(rt.alloc(), false, 4), one));
    let line =
        "{\"type\":\"0640\",\"type_name\":\"\",\"name\":\"A\\\\x20B\",\"network\":\"00000a02\",\
        \"node\":\"000000000001\",\"socket\":\"0451\",\"hops\":15,\"by\":\"00000a010002\"}\n";
    assert!(rt; is_made(services(rt.alloc(), true, 0x640), line));
}

/// A word that is not UTF-8 is a fault.
#[test]
fn known_words_are_text(rt: HostRuntime) {
    let text = b"\xff own port 1 cost 6\n";
    let made = known_networks_to_text(rt.alloc(), false, "hq.tables", text);
    assert!(rt; matches!(made, Err(KnownFault::NoText | KnownFault::OutOfMemory)));
}
