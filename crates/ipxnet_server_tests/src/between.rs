//! Packets between players: who gets them, and that they are sent as they arrived.

use crate::caller::give;
use crate::fixture::{
    CAME, FIRST_NODE, PORT, SECOND_NODE, first_place, long_packet, packet, register_all,
    second_place, third_place,
};
use ipx_wire::Node;
use ipxnet_server::{Disposition, IpxnetServer, ServerDrop};
use std::test::Fail;

/// To the network that players were told, or to 0, with any hops and type.
#[test]
fn to_one_player(rt: HostRuntime) -> Result<(), Fail> {
    let mut server = IpxnetServer::new(rt.alloc(), PORT, 64)?;
    register_all(&mut server);
    assert_eq!(rt;
        server.hear(first_place(), &CAME, 0),
        Disposition::ToClient(second_place())
    );
    let mut bytes = packet(SECOND_NODE, 0x4001, FIRST_NODE);
    bytes[4..6].copy_from_slice(&[16, 20]);
    assert_eq!(rt;
        server.hear(first_place(), &bytes, 0),
        Disposition::ToClient(second_place())
    );
    // With bytes after it, which are sent too.
    let mut padded = [0xee; 36];
    padded[..34].copy_from_slice(&CAME);
    assert_eq!(rt;
        server.hear(first_place(), &padded, 0),
        Disposition::ToClient(second_place())
    );
    // Also to a socket of the router's services: the packet is for that player's program.
    let rip = packet(SECOND_NODE, 0x453, FIRST_NODE);
    assert_eq!(rt;
        server.hear(first_place(), &rip, 0),
        Disposition::ToClient(second_place())
    );
    Ok(())
}

/// To all nodes: to the others, and if it asks for routes or services to the core too.
#[test]
fn to_all_players(rt: HostRuntime) -> Result<(), Fail> {
    let mut server = IpxnetServer::new(rt.alloc(), PORT, 64)?;
    register_all(&mut server);
    for (socket, core) in [
        (0x4001, false),
        (0x451, false),
        (0x452, true),
        (0x453, true),
    ] {
        let all = packet(Node::BROADCAST, socket, FIRST_NODE);
        assert_eq!(rt;
            give(&mut server, first_place(), &all),
            (false, [false, true, true], core)
        );
    }
    // NetBIOS, of type 20: to the others, like any other packet.
    let mut netbios = packet(Node::BROADCAST, 0x455, FIRST_NODE);
    netbios[5] = 20;
    assert_eq!(rt;
        server.hear(first_place(), &netbios, 0),
        Disposition::ToOthers(first_place())
    );
    Ok(())
}

/// To the router's node: only to the core.
#[test]
fn to_the_router(rt: HostRuntime) -> Result<(), Fail> {
    let mut server = IpxnetServer::new(rt.alloc(), PORT, 64)?;
    register_all(&mut server);
    let rip = packet(PORT.own, 0x453, FIRST_NODE);
    assert_eq!(rt;
        give(&mut server, first_place(), &rip),
        (false, [false; 3], true)
    );
    let mut named = CAME;
    named[10..16].copy_from_slice(&PORT.own.0);
    assert_eq!(rt; server.hear(first_place(), &named, 0), Disposition::ToCore);
    Ok(())
}

/// A player accepts 1,424 bytes whole, and no more.
#[test]
fn sizes(rt: HostRuntime) -> Result<(), Fail> {
    let mut server = IpxnetServer::new(rt.alloc(), PORT, 64)?;
    register_all(&mut server);
    let all = long_packet(Node::BROADCAST, 1424);
    assert_eq!(rt;
        server.hear(first_place(), &all[..1424], 0),
        Disposition::ToOthers(first_place())
    );
    let long = Disposition::Dropped(ServerDrop::TooLong(1425));
    assert_eq!(rt; server.hear(first_place(), &all[..1425], 0), long);
    let one = long_packet(SECOND_NODE, 1424);
    assert_eq!(rt;
        server.hear(first_place(), &one[..1424], 0),
        Disposition::ToClient(second_place())
    );
    assert_eq!(rt; server.hear(first_place(), &one[..1425], 0), long);
    assert_eq!(rt; server.counts().too_long, 2);
    // The core accepts more.
    let router = long_packet(PORT.own, 1500);
    assert_eq!(rt; server.hear(first_place(), &router, 0), Disposition::ToCore);
    Ok(())
}

/// The source address counts, not only the source node: a packet from the first player with the
/// second's node is dropped.
#[test]
fn from_anothers_node(rt: HostRuntime) -> Result<(), Fail> {
    let mut server = IpxnetServer::new(rt.alloc(), PORT, 64)?;
    register_all(&mut server);
    let all = packet(Node::BROADCAST, 0x4001, SECOND_NODE);
    assert_eq!(rt;
        server.hear(first_place(), &all, 0),
        Disposition::Dropped(ServerDrop::OtherSource(SECOND_NODE))
    );
    assert_eq!(rt;
        server.hear(second_place(), &all, 0),
        Disposition::ToOthers(second_place())
    );
    assert_eq!(rt;
        server.hear(third_place(), &CAME, 0),
        Disposition::Dropped(ServerDrop::OtherSource(FIRST_NODE))
    );
    assert_eq!(rt; server.counts().other_source, 2);
    Ok(())
}
