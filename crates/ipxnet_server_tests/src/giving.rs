//! Packets of the core, and the players that they are sent to.

use crate::caller::reached;
use crate::fixture::{
    FIRST_NODE, PORT, SECOND_NODE, enter, first_place, packet, register_all, second_place,
};
use ipx_wire::Node;
use ipxnet_server::{IpxnetServer, Recipients, ServerCounts, ServerDrop};
use std::test::Fail;

/// A packet is sent to its node's player, and one for all nodes to all. One for another node is
/// sent to nobody.
#[test]
fn packets_of_the_core(rt: HostRuntime) -> Result<(), Fail> {
    let mut server = IpxnetServer::new(rt.alloc(), PORT, 64)?;
    assert_eq!(rt;
        server.give(FIRST_NODE, &[0; 40], 0),
        Err(ServerDrop::NoSuchNode(FIRST_NODE))
    );
    assert_eq!(rt;
        server.give(Node::BROADCAST, &[0; 40], 0),
        Ok(Recipients::All)
    );
    assert_eq!(rt; reached(&server, Recipients::All), [false; 3]);
    assert_eq!(rt;
        reached(&server, Recipients::Others(second_place())),
        [false; 3]
    );
    assert_eq!(rt;
        reached(&server, Recipients::One(first_place())),
        [false; 3]
    );
    enter(&mut server, first_place(), 0);
    assert_eq!(rt; reached(&server, Recipients::All), [true, false, false]);
    register_all(&mut server);
    let one = server.give(SECOND_NODE, &[0; 40], 0)?;
    assert_eq!(rt; one, Recipients::One(second_place()));
    assert_eq!(rt; reached(&server, one), [false, true, false]);
    let all = server.give(Node::BROADCAST, &[0; 40], 0)?;
    assert_eq!(rt; reached(&server, all), [true; 3]);
    assert_eq!(rt;
        server.give(PORT.own, &[0; 40], 0),
        Err(ServerDrop::NoSuchNode(PORT.own))
    );
    assert_eq!(rt; server.counts().no_such_node, 2);
    Ok(())
}

/// A packet for all nodes at the socket of RIP or SAP is sent to nobody, and is not counted as
/// dropped. A packet to one node is sent, and so is one from those sockets to another socket, and
/// what is no packet.
#[test]
fn what_a_router_tells(rt: HostRuntime) -> Result<(), Fail> {
    let mut server = IpxnetServer::new(rt.alloc(), PORT, 64)?;
    register_all(&mut server);
    let rows = [
        (Node::BROADCAST, 0x453, Recipients::Nobody),
        (Node::BROADCAST, 0x452, Recipients::Nobody),
        (Node::BROADCAST, 0x451, Recipients::All),
        (Node::BROADCAST, 0x455, Recipients::All),
        (Node::BROADCAST, 0x5304, Recipients::All),
        (SECOND_NODE, 0x453, Recipients::One(second_place())),
        (SECOND_NODE, 0x452, Recipients::One(second_place())),
    ];
    for (node, socket, wanted) in rows {
        for from in [0x4001_u16, 0x452, 0x453] {
            let mut bytes = packet(node, socket, PORT.own);
            bytes[28..30].copy_from_slice(&from.to_be_bytes());
            assert_eq!(rt; server.give(node, &bytes, 0), Ok(wanted));
        }
    }
    let mut checksummed = packet(Node::BROADCAST, 0x453, PORT.own);
    checksummed[0] = 0;
    assert_eq!(rt;
        server.give(Node::BROADCAST, &checksummed, 0),
        Ok(Recipients::All)
    );
    assert_eq!(rt; server.counts(), ServerCounts::new());
    Ok(())
}

/// Over 1,424 bytes nobody gets it, and that is counted.
#[test]
fn long_packets_of_the_core(rt: HostRuntime) -> Result<(), Fail> {
    let mut server = IpxnetServer::new(rt.alloc(), PORT, 64)?;
    register_all(&mut server);
    assert_eq!(rt;
        server.give(FIRST_NODE, &[0; 1424], 0),
        Ok(Recipients::One(first_place()))
    );
    let long = Err(ServerDrop::TooLong(1425));
    assert_eq!(rt; server.give(FIRST_NODE, &[0; 1425], 0), long);
    assert_eq!(rt; server.give(Node::BROADCAST, &[0; 1425], 0), long);
    assert_eq!(rt; server.counts().too_long, 2);
    assert_eq!(rt; server.clients().len(), 3);
    Ok(())
}

/// A player that was silent for five minutes gets none.
#[test]
fn to_one_who_is_forgotten(rt: HostRuntime) -> Result<(), Fail> {
    let mut server = IpxnetServer::new(rt.alloc(), PORT, 64)?;
    enter(&mut server, first_place(), 5);
    assert_eq!(rt;
        server.give(FIRST_NODE, &[0; 40], 300_004),
        Ok(Recipients::One(first_place()))
    );
    assert_eq!(rt;
        server.give(FIRST_NODE, &[0; 40], 300_005),
        Err(ServerDrop::NoSuchNode(FIRST_NODE))
    );
    assert!(rt; server.clients().is_empty());
    Ok(())
}
