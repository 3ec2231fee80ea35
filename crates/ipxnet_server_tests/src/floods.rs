//! How often what is for all, or for a node that nobody has here, is passed on.

use crate::fixture::{
    CAME, FIRST_NODE, PORT, REGISTRATION, SECOND_NODE, THIRD_NODE, enter, first_place, packet,
    register_all, second_place,
};
use crate::sites::{north, south_place, west_place};
use ipx_wire::Node;
use ipxnet_server::{
    Disposition, IpxnetServer, LimitedFlood, Recipients, ServerCounts, ServerDrop, node_of,
};
use std::net::{Ipv4Addr, SocketAddrV4};
use std::test::Fail;

/// What the first player sends to all.
fn to_all() -> [u8; 34] {
    packet(Node::BROADCAST, 0x4001, FIRST_NODE)
}

/// How many of so many broadcasts of the first player are passed on, all at this time.
fn passed_of(server: &mut IpxnetServer, count: u32, now: u64) -> u32 {
    let mut passed = 0;
    for _ in 0..count {
        match server.hear(first_place(), &to_all(), now) {
            Disposition::ToOthers(_) => passed += 1,
            _ => {}
        }
    }
    passed
}

/// The address with this number: fifteen of one IP address, then those of the next.
fn place(number: u16) -> SocketAddrV4 {
    let last = u8::try_from(number / 15).unwrap_or(0);
    SocketAddrV4::new(Ipv4Addr::new(192, 0, 2, last), 40_000 + number)
}

/// A server with 150 players, which is joined to two others.
fn crowded(alloc: std::alloc::Global) -> Result<IpxnetServer, std::alloc::AllocError> {
    let routers = Vec::from_slice(alloc, &[south_place(), west_place()])?;
    let mut server = IpxnetServer::joined_to(alloc, PORT, 150, routers)?;
    for number in 0..150 {
        enter(&mut server, place(number), 0);
    }
    Ok(server)
}

/// What the player with this number sends to all.
fn crowd_to_all(number: u16) -> [u8; 34] {
    packet(Node::BROADCAST, 0x4001, node_of(PORT, place(number)))
}

/// 256 at once, and then one each 7.8 ms. The cause names who sent it, and is counted.
#[test]
fn a_client_at_once(rt: HostRuntime) -> Result<(), Fail> {
    let mut server = IpxnetServer::new(rt.alloc(), PORT, 64)?;
    register_all(&mut server);
    assert_eq!(rt; server.last_limited(), None);
    assert_eq!(rt; passed_of(&mut server, 300, 0), 256);
    assert_eq!(rt;
        server.hear(first_place(), &to_all(), 7),
        Disposition::Dropped(ServerDrop::RateLimited(first_place()))
    );
    let last = LimitedFlood {
        from: first_place(),
        at: 7,
    };
    assert_eq!(rt; server.last_limited(), Some(last));
    assert_eq!(rt; passed_of(&mut server, 3, 8), 1);
    let wanted = ServerCounts {
        rate_limited: 47,
        ..ServerCounts::new()
    };
    assert_eq!(rt; server.counts(), wanted);
    Ok(())
}

/// 128 more each second, and all 256 after two.
#[test]
fn a_client_later(rt: HostRuntime) -> Result<(), Fail> {
    let mut server = IpxnetServer::new(rt.alloc(), PORT, 64)?;
    register_all(&mut server);
    assert_eq!(rt; passed_of(&mut server, 300, 10_000), 256);
    assert_eq!(rt; passed_of(&mut server, 300, 11_000), 128);
    assert_eq!(rt; passed_of(&mut server, 300, 13_000), 256);
    // If the clock goes back, no token comes back.
    assert_eq!(rt; passed_of(&mut server, 300, 9_000), 0);
    Ok(())
}

/// Another player has its own tokens, of the same IP address too.
#[test]
fn another_client(rt: HostRuntime) -> Result<(), Fail> {
    let mut server = IpxnetServer::new(rt.alloc(), PORT, 64)?;
    register_all(&mut server);
    passed_of(&mut server, 300, 0);
    assert_eq!(rt;
        server.hear(
            second_place(),
            &packet(Node::BROADCAST, 0x4001, SECOND_NODE),
            0
        ),
        Disposition::ToOthers(second_place())
    );
    Ok(())
}

/// What is for one player takes no token, and none is needed for it. A registration takes none.
#[test]
fn to_one(rt: HostRuntime) -> Result<(), Fail> {
    let mut server = IpxnetServer::new(rt.alloc(), PORT, 64)?;
    register_all(&mut server);
    for _ in 0..1000 {
        server.hear(first_place(), &CAME, 0);
        server.hear(first_place(), &REGISTRATION, 0);
    }
    assert_eq!(rt; passed_of(&mut server, 300, 0), 256);
    assert_eq!(rt;
        server.hear(first_place(), &CAME, 0),
        Disposition::ToClient(second_place())
    );
    Ok(())
}

/// A ping, which is for all, takes a token, and has no answer without one.
#[test]
fn pings(rt: HostRuntime) -> Result<(), Fail> {
    let mut server = IpxnetServer::new(rt.alloc(), PORT, 64)?;
    register_all(&mut server);
    let ping = packet(Node::BROADCAST, 2, FIRST_NODE);
    assert!(rt; server.hear(first_place(), &ping, 0).answer().is_some());
    assert_eq!(rt; passed_of(&mut server, 300, 0), 255);
    assert!(rt; server.hear(first_place(), &ping, 0).answer().is_none());
    Ok(())
}

/// Who sends too often is heard, and is not pinged as silent.
#[test]
fn who_is_limited_was_heard(rt: HostRuntime) -> Result<(), Fail> {
    let mut server = IpxnetServer::new(rt.alloc(), PORT, 64)?;
    register_all(&mut server);
    passed_of(&mut server, 300, 20_000);
    let heard = server
        .clients()
        .iter()
        .find(|client| client.place == first_place())
        .map(|client| client.heard);
    assert_eq!(rt; heard, Some(20_000));
    server.begin_pings(20_000);
    passed_of(&mut server, 300, 20_001);
    let turn = server.begin_pings(44_999);
    assert!(rt;
        server.clients().iter().all(|client| turn.pings(client) == (client.place != first_place()))
    );
    Ok(())
}

/// What is for a node that nobody has here takes a token if it goes to each joined router, and none
/// if one is known to have the node.
#[test]
fn to_joined_routers(rt: HostRuntime) -> Result<(), Fail> {
    let mut server = north(rt.alloc())?;
    enter(&mut server, first_place(), 0);
    let far = packet(THIRD_NODE, 0x4001, FIRST_NODE);
    for _ in 0..256 {
        assert_eq!(rt;
            server.hear(first_place(), &far, 0),
            Disposition::ToJoined(Recipients::Joined)
        );
    }
    let limited = Disposition::Dropped(ServerDrop::RateLimited(first_place()));
    assert_eq!(rt; server.hear(first_place(), &far, 0), limited);
    assert_eq!(rt; server.hear(first_place(), &to_all(), 0), limited);
    server.hear(south_place(), &packet(FIRST_NODE, 0x4001, THIRD_NODE), 0);
    assert_eq!(rt;
        server.hear(first_place(), &far, 0),
        Disposition::ToJoined(Recipients::JoinedAt(south_place()))
    );
    Ok(())
}

/// 150 players and two joined routers: one broadcast of a player makes 151 copies. 1,324 of these
/// are 199,924, and then there are too few tokens for one more, whoever sends it.
#[test]
fn copies_of_a_port(rt: HostRuntime) -> Result<(), Fail> {
    let mut server = crowded(rt.alloc())?;
    let mut passed = 0;
    for number in 0..6 {
        for _ in 0..256 {
            match server.hear(place(number), &crowd_to_all(number), 0) {
                Disposition::ToOthers(_) => passed += 1,
                _ => {}
            }
        }
    }
    assert_eq!(rt; passed, 1324);
    let busy = Disposition::Dropped(ServerDrop::Busy);
    assert_eq!(rt; server.hear(place(9), &crowd_to_all(9), 0), busy);
    let joined = packet(Node::BROADCAST, 0x4001, THIRD_NODE);
    assert_eq!(rt; server.hear(south_place(), &joined, 0), busy);
    assert_eq!(rt;
        server.give(Node::BROADCAST, &joined, 0),
        Err(ServerDrop::Busy)
    );
    // What is for one player goes on.
    let one = packet(node_of(PORT, place(7)), 0x4001, node_of(PORT, place(9)));
    assert_eq!(rt;
        server.hear(place(9), &one, 0),
        Disposition::ToClient(place(7))
    );
    assert_eq!(rt; server.counts().busy, 215);
    assert_eq!(rt; server.counts().rate_limited, 0);
    Ok(())
}

/// 100 copies more each millisecond. 76 are left, so that there are enough for a broadcast of a
/// player after one millisecond.
#[test]
fn copies_later(rt: HostRuntime) -> Result<(), Fail> {
    let mut server = crowded(rt.alloc())?;
    for number in 0..6 {
        for _ in 0..256 {
            server.hear(place(number), &crowd_to_all(number), 0);
        }
    }
    let busy = Disposition::Dropped(ServerDrop::Busy);
    assert_eq!(rt;
        server.hear(place(9), &crowd_to_all(9), 1),
        Disposition::ToOthers(place(9))
    );
    // 25 are left, and 125 a millisecond later, too few for the 150 of the core and of a router.
    let joined = packet(Node::BROADCAST, 0x4001, THIRD_NODE);
    assert_eq!(rt; server.hear(south_place(), &joined, 2), busy);
    assert_eq!(rt;
        server.give(Node::BROADCAST, &joined, 2),
        Err(ServerDrop::Busy)
    );
    assert_eq!(rt;
        server.give(Node::BROADCAST, &joined, 3),
        Ok(Recipients::All)
    );
    Ok(())
}
