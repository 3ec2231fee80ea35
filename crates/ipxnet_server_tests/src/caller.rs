//! How a caller sends on a datagram that came from an address.

use crate::fixture::{
    CAME, FIRST_NODE, PORT, REGISTRATION, first_place, packet, register_all, second_place,
    third_place,
};
use ipx_wire::Node;
use ipxnet_server::{Disposition, IpxnetServer, Recipients, node_of};
use std::net::SocketAddrV4;
use std::test::Fail;

/// Which of the three players get the bytes.
pub fn reached(server: &IpxnetServer, takers: Recipients) -> [bool; 3] {
    [
        server.reaches(takers, first_place()),
        server.reaches(takers, second_place()),
        server.reaches(takers, third_place()),
    ]
}

/// What becomes of a datagram: whether it is answered, which of the three players get it, and
/// whether the core does.
pub fn give(
    server: &mut IpxnetServer,
    from: SocketAddrV4,
    bytes: &[u8],
) -> (bool, [bool; 3], bool) {
    let heard = server.hear(from, bytes, 0);
    let answered = heard.answer().is_some();
    (
        answered,
        reached(server, heard.takers()),
        heard.is_for_core(),
    )
}

#[test]
fn datagrams_of_three_players(rt: HostRuntime) -> Result<(), Fail> {
    let mut server = IpxnetServer::new(rt.alloc(), PORT, 64)?;
    // A registration is answered, and makes no client. The first packet does, and the second player
    // is none yet.
    assert_eq!(rt;
        give(&mut server, first_place(), &REGISTRATION),
        (true, [false; 3], false)
    );
    assert!(rt; server.clients().is_empty());
    assert_eq!(rt;
        give(&mut server, first_place(), &CAME),
        (false, [false; 3], false)
    );
    register_all(&mut server);
    assert_eq!(rt;
        give(&mut server, first_place(), &CAME),
        (false, [false, true, false], false)
    );
    let all = packet(Node::BROADCAST, 0x4001, FIRST_NODE);
    assert_eq!(rt;
        give(&mut server, first_place(), &all),
        (false, [false, true, true], false)
    );
    assert_eq!(rt; server.clients().len(), 3);
    for client in server.clients() {
        assert_eq!(rt; client.node, node_of(PORT, client.place));
    }
    assert_eq!(rt;
        server.hear(first_place(), &all, 0),
        Disposition::ToOthers(first_place())
    );
    Ok(())
}
