//! A player that can't be reached: the others get theirs, and so does the core.

use crate::fixture::{
    CAME, ENTERED, PORT, SECOND_NODE, first_place, packet, put_player, registrations, second_place,
    servers, third_place, unknown_place, went_after,
};
use ipx_carrier::{PacketSent, PortDriver};
use ipx_ipxnet_ports::PlaceSockets;
use ipx_wire::Node;
use ipxnet_server::node_of;
use std::test::Fail;

/// Sending to one of the others fails. The third player gets the request for a route, and so does
/// the core.
#[test]
fn a_player_that_fails(rt: HostRuntime) -> Result<(), Fail> {
    let alloc = rt.alloc();
    let mut bytes = packet(Node::BROADCAST);
    bytes[16..18].copy_from_slice(&[4, 0x53]);
    bytes[30..32].copy_from_slice(&[0, 1]);
    let mut sockets = registrations(alloc)?;
    sockets.put(0, first_place(), &bytes)?;
    sockets.break_place(second_place());
    let mut servers = servers(alloc, sockets)?;
    let mut room = [0; 1536];
    for _datagram in 0..ENTERED {
        assert!(rt; matches!(servers.receive(0, &mut room), Ok(None)));
    }
    // The second one was not answered, and is a client by what it sent all the same.
    assert_eq!(rt; servers.sockets().failures(), 1);
    assert_eq!(rt; servers.servers()[0].clients().len(), 3);
    assert!(rt; matches!(servers.receive(0, &mut room), Ok(Some(34))));
    assert!(rt; went_after(servers.sockets(), 2, &[third_place()], &bytes));
    assert_eq!(rt; servers.sockets().failures(), 2);
    assert_eq!(rt; servers.failures(), 0);
    // A packet of the core.
    let sent = servers.send(0, Node::BROADCAST, &CAME);
    assert!(rt; matches!(sent, Ok(PacketSent::Transmitted(1))));
    assert!(rt; went_after(servers.sockets(), 3, &[third_place(), first_place()], &CAME));
    let sent = servers.send(0, SECOND_NODE, &CAME);
    assert!(rt; matches!(sent, Ok(PacketSent::Transmitted(1))));
    assert_eq!(rt; servers.sockets().went().len(), 5);
    assert_eq!(rt; servers.sockets().failures(), 4);
    assert_eq!(rt; servers.failures(), 0);
    Ok(())
}

/// Sending to the middle one of three others fails. Those before and after it get theirs, in order.
#[test]
fn a_player_in_the_middle_that_fails(rt: HostRuntime) -> Result<(), Fail> {
    let alloc = rt.alloc();
    let bytes = packet(Node::BROADCAST);
    let mut sockets = registrations(alloc)?;
    put_player(
        &mut sockets,
        unknown_place(),
        node_of(PORT, unknown_place()),
    )?;
    sockets.put(0, first_place(), &bytes)?;
    sockets.break_place(third_place());
    let mut servers = servers(alloc, sockets)?;
    let mut room = [0; 1536];
    for _datagram in 0..ENTERED + 2 {
        assert!(rt; matches!(servers.receive(0, &mut room), Ok(None)));
    }
    // Three were answered.
    assert_eq!(rt; servers.sockets().went().len(), 3);
    let sent = servers.send(0, Node::BROADCAST, &CAME);
    assert!(rt; matches!(sent, Ok(PacketSent::Transmitted(1))));
    assert!(rt;
        went_after(
            servers.sockets(),
            3,
            &[first_place(), second_place(), unknown_place()],
            &CAME
        )
    );
    assert!(rt; matches!(servers.receive(0, &mut room), Ok(None)));
    assert!(rt;
        went_after(
            servers.sockets(),
            6,
            &[second_place(), unknown_place()],
            &bytes
        )
    );
    assert_eq!(rt; servers.sockets().failures(), 3);
    assert_eq!(rt; servers.failures(), 0);
    Ok(())
}
