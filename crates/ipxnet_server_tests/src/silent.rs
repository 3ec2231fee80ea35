//! For how long a silent player is known.

use crate::fixture::{FIRST_NODE, PORT, enter, first_place, packet, second_place};
use ipx_wire::Node;
use ipxnet_server::IpxnetServer;
use std::test::Fail;

/// A player is forgotten five minutes after it was last heard, whatever is received then, and
/// registers again with the same node.
#[test]
fn after_five_minutes(rt: HostRuntime) -> Result<(), Fail> {
    let mut server = IpxnetServer::new(rt.alloc(), PORT, 64)?;
    enter(&mut server, first_place(), 0);
    let all = packet(Node::BROADCAST, 0x4001, FIRST_NODE);
    server.hear(first_place(), &all, 1000);
    server.hear(second_place(), b"abc", 300_999);
    assert_eq!(rt; server.clients().len(), 1);
    server.hear(second_place(), b"abc", 301_000);
    assert!(rt; server.clients().is_empty());
    enter(&mut server, first_place(), 301_001);
    assert_eq!(rt; server.clients()[0].node, FIRST_NODE);
    assert_eq!(rt; server.clients()[0].since, 301_001);
    Ok(())
}

/// What is dropped does not count as heard. If the clock went back, nobody is forgotten.
#[test]
fn what_counts_as_heard(rt: HostRuntime) -> Result<(), Fail> {
    let mut server = IpxnetServer::new(rt.alloc(), PORT, 64)?;
    enter(&mut server, first_place(), 1000);
    server.hear(first_place(), &packet(FIRST_NODE, 0x4001, FIRST_NODE), 2000);
    assert_eq!(rt; server.clients()[0].heard, 1000);
    server.hear(second_place(), b"abc", 0);
    assert_eq!(rt; server.clients().len(), 1);
    server.hear(first_place(), &packet(PORT.own, 0x453, FIRST_NODE), 500);
    assert_eq!(rt; server.clients()[0].heard, 500);
    assert_eq!(rt; server.clients()[0].since, 1000);
    Ok(())
}
