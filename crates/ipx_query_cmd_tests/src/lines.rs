//! Tables and lines of JSON, also when out of memory.

use ipx_query_cmd::{AnswerTime, networks_to_text, services_to_text};
use ipx_tables::{RouteMetric, ServiceKey, ServiceMetric, Source};
use ipx_wire::{Address, Network, Node, Socket};
use std::test::Fail;

const FIRST: Node = Node([0, 0, 0x0a, 1, 0, 1]);

const SECOND: Node = Node([0, 0, 0x0a, 1, 0, 2]);

fn route(network: u32, neighbour: Node, hops: u16, ticks: u16) -> (Network, Source, RouteMetric) {
    let source = Source { port: 1, neighbour };
    (Network(network), source, RouteMetric { ticks, hops })
}

fn service(name: &[u8], hops: u16) -> (ServiceKey, Source, ServiceMetric) {
    let mut all = [0; 48];
    all[..name.len()].copy_from_slice(name);
    let key = ServiceKey { kind: 4, name: all };
    let source = Source {
        port: 1,
        neighbour: FIRST,
    };
    let at = Address {
        network: Network(0x0a01),
        node: Node([0, 0, 0, 0, 0, 1]),
        socket: Socket::NCP,
    };
    (key, source, ServiceMetric { hops, at })
}

/// Numbers are aligned right in their columns, and routers that answered follow the table.
#[test]
fn networks_in_a_table(rt: HostRuntime) -> Result<(), Fail> {
    let alloc = rt.alloc();
    let listed = [route(1, FIRST, 1, 2), route(0x22, SECOND, 15, 65_535)];
    let answers = [
        AnswerTime {
            node: FIRST,
            tenths: 8,
        },
        AnswerTime {
            node: SECOND,
            tenths: 12_345,
        },
    ];
    let text = networks_to_text(alloc, false, &listed, &answers)?;
    let wanted = "network   hops  ticks  by\n\
        00000001     1      2  00000a010001\n\
        00000022    15  65535  00000a010002\n\
        2 networks, 00000a010001 answered in 0.8 ms, 00000a010002 answered in 1234.5 ms\n";
    assert_eq!(rt; text.as_str(), wanted);
    let one = networks_to_text(alloc, false, &listed[..1], &answers[..1])?;
    let wanted = "network   hops  ticks  by\n\
        00000001     1      2  00000a010001\n\
        1 network, 00000a010001 answered in 0.8 ms\n";
    assert_eq!(rt; one.as_str(), wanted);
    let none = networks_to_text(alloc, false, &[], &[])?;
    assert_eq!(rt; none.as_str(), "network   hops  ticks  by\n0 networks\n");
    Ok(())
}

/// A line for each, and nothing else.
#[test]
fn networks_as_json(rt: HostRuntime) -> Result<(), Fail> {
    let alloc = rt.alloc();
    let listed = [route(0x22, FIRST, 2, 8), route(0xfffffffe, SECOND, 1, 1)];
    let text = networks_to_text(alloc, true, &listed, &[])?;
    let wanted = "{\"network\":\"00000022\",\"hops\":2,\"ticks\":8,\"by\":\"00000a010001\"}\n\
        {\"network\":\"fffffffe\",\"hops\":1,\"ticks\":1,\"by\":\"00000a010002\"}\n";
    assert_eq!(rt; text.as_str(), wanted);
    assert_eq!(rt; networks_to_text(alloc, true, &[], &[])?.as_str(), "");
    Ok(())
}

/// The name column is as wide as the longest name. A space, a backslash and anything but printable
/// ASCII appear as hex digits, and an empty name as a dash.
#[test]
fn services_in_a_table(rt: HostRuntime) -> Result<(), Fail> {
    let alloc = rt.alloc();
    let answers = [AnswerTime {
        node: FIRST,
        tenths: 11,
    }];
    let one = services_to_text(alloc, false, &[service(b"HQ-FILES", 1)], &answers)?;
    let wanted = "type              name      network   node          socket  hops  by\n\
        0004 file server  HQ-FILES  00000a01  000000000001  0451       1  00000a010001\n\
        1 service, 00000a010001 answered in 1.1 ms\n";
    assert_eq!(rt; one.as_str(), wanted);
    let odd = [service(b"A B\\\xff\"", 15), service(b"", 2)];
    let text = services_to_text(alloc, false, &odd, &[])?;
    let wanted = "type              name             network   node          socket  hops  by\n\
        0004 file server  A\\x20B\\x5c\\xff\"  00000a01  000000000001  0451      15  00000a010001\n\
        0004 file server  -                00000a01  000000000001  0451       2  00000a010001\n\
        2 services\n";
    assert_eq!(rt; text.as_str(), wanted);
    let none = services_to_text(alloc, false, &[], &[])?;
    let wanted = "type  name  network   node          socket  hops  by\n0 services\n";
    assert_eq!(rt; none.as_str(), wanted);
    Ok(())
}

/// Within JSON quotes a name appears as in a table, with a backslash before each quote and
/// backslash. A backslash of the name itself becomes two backslashes, x and the digits 5c.
#[test]
fn services_as_json(rt: HostRuntime) -> Result<(), Fail> {
    let alloc = rt.alloc();
    let odd = [service(b"A \"\\", 15), service(b"", 2)];
    let text = services_to_text(alloc, true, &odd, &[])?;
    let wanted =
        "{\"type\":\"0004\",\"type_name\":\"file server\",\"name\":\"A\\\\x20\\\"\\\\x5c\",\"network\":\"00000a01\",\
        \"node\":\"000000000001\",\"socket\":\"0451\",\"hops\":15,\"by\":\"00000a010001\"}\n\
        {\"type\":\"0004\",\"type_name\":\"file server\",\"name\":\"-\",\"network\":\"00000a01\",\
        \"node\":\"000000000001\",\"socket\":\"0451\",\"hops\":2,\"by\":\"00000a010001\"}\n";
    assert_eq!(rt; text.as_str(), wanted);
    Ok(())
}

/// If listing networks runs out of memory, the same call then returns the whole listing. Run this
/// with each allocation refused.
#[test]
fn refused_lines(rt: HostRuntime) -> Result<(), Fail> {
    let alloc = rt.alloc();
    let listed = [route(1, FIRST, 1, 2)];
    let answers = [AnswerTime {
        node: FIRST,
        tenths: 8,
    }];
    let text = match networks_to_text(alloc, false, &listed, &answers) {
        Ok(text) => text,
        Err(_) => networks_to_text(alloc, false, &listed, &answers)?,
    };
    let wanted = "network   hops  ticks  by\n\
        00000001     1      2  00000a010001\n\
        1 network, 00000a010001 answered in 0.8 ms\n";
    assert_eq!(rt; text.as_str(), wanted);
    let text = match networks_to_text(alloc, true, &listed, &answers) {
        Ok(text) => text,
        Err(_) => networks_to_text(alloc, true, &listed, &answers)?,
    };
    let wanted = "{\"network\":\"00000001\",\"hops\":1,\"ticks\":2,\"by\":\"00000a010001\"}\n";
    assert_eq!(rt; text.as_str(), wanted);
    Ok(())
}

/// The same for services.
#[test]
fn refused_lines_of_services(rt: HostRuntime) -> Result<(), Fail> {
    let alloc = rt.alloc();
    let services = [service(b"A B", 1), service(b"HQ-FILES", 2)];
    let text = match services_to_text(alloc, false, &services, &[]) {
        Ok(text) => text,
        Err(_) => services_to_text(alloc, false, &services, &[])?,
    };
    let wanted = "type              name      network   node          socket  hops  by\n\
        0004 file server  A\\x20B    00000a01  000000000001  0451       1  00000a010001\n\
        0004 file server  HQ-FILES  00000a01  000000000001  0451       2  00000a010001\n\
        2 services\n";
    assert_eq!(rt; text.as_str(), wanted);
    let text = match services_to_text(alloc, true, &services[..1], &[]) {
        Ok(text) => text,
        Err(_) => services_to_text(alloc, true, &services[..1], &[])?,
    };
    let wanted =
        "{\"type\":\"0004\",\"type_name\":\"file server\",\"name\":\"A\\\\x20B\",\"network\":\"00000a01\",\
        \"node\":\"000000000001\",\"socket\":\"0451\",\"hops\":1,\"by\":\"00000a010001\"}\n";
    assert_eq!(rt; text.as_str(), wanted);
    Ok(())
}
