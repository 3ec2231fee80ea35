//! How many addresses are noted, in all and of one IP address, and that nobody puts off their pings.

use crate::fixture::{
    FIRST_NODE, PORT, REGISTRATION, first_place, packet, second_place, third_place,
};
use ipx_wire::Node;
use ipxnet_server::{Disposition, IpxnetServer, MAX_ADDRESS_NOTED, MAX_NOTED};
use std::net::{Ipv4Addr, SocketAddrV4};
use std::test::Fail;

/// An address of a host: 192.0.2.1, 192.0.2.2 and so on.
fn of_host(host: u8, port: u16) -> SocketAddrV4 {
    SocketAddrV4::new(Ipv4Addr::new(192, 0, 2, host), port)
}

/// So many UDP ports of a host register, from this one on.
fn flood(server: &mut IpxnetServer, host: u8, first: u16, ports: u16, now: u64) {
    for number in 0..ports {
        server.hear(of_host(host, first + number), &REGISTRATION, now);
    }
}

/// Where the address with this number is noted.
fn noted_at(server: &IpxnetServer, number: usize) -> SocketAddrV4 {
    server.noted()[number].place
}

/// Sixty-four, sixteen of them of one IP address.
#[test]
fn how_many_are_noted(rt: HostRuntime) -> Result<(), Fail> {
    assert_eq!(rt; (MAX_NOTED, MAX_ADDRESS_NOTED), (64, 16));
    Ok(())
}

/// Sixty-four registrations from other UDP ports of one host leave the note of a silent player. It is
/// asked at 5.5 seconds, answers, and is a client.
#[test]
fn a_host_removes_no_other_note(rt: HostRuntime) -> Result<(), Fail> {
    let mut server = IpxnetServer::new(rt.alloc(), PORT, 64)?;
    server.hear(first_place(), &REGISTRATION, 1000);
    flood(&mut server, 1, 100, 64, 2000);
    assert_eq!(rt; server.noted().len(), 17);
    assert_eq!(rt; noted_at(&server, 0), first_place());
    assert_eq!(rt; noted_at(&server, 1), of_host(1, 148));
    assert_eq!(rt; noted_at(&server, 16), of_host(1, 163));
    assert_eq!(rt; server.next_pings(), Some(6500));
    let early = server.begin_pings(6499);
    assert!(rt; !server.noted().iter().any(|noted| early.asks(noted)));
    let turn = server.begin_pings(6500);
    assert!(rt; turn.asks(&server.noted()[0]));
    assert!(rt; !server.noted()[1..].iter().any(|noted| turn.asks(noted)));
    assert_eq!(rt;
        server.hear(first_place(), &packet(PORT.own, 2, FIRST_NODE), 6501),
        Disposition::PingAnswered
    );
    assert_eq!(rt; server.clients().len(), 1);
    assert_eq!(rt; server.clients()[0].node, FIRST_NODE);
    let all = packet(Node::BROADCAST, 0x4001, FIRST_NODE);
    assert_eq!(rt;
        server.hear(first_place(), &all, 6502),
        Disposition::ToOthers(first_place())
    );
    assert_eq!(rt; server.noted().len(), 16);
    Ok(())
}

/// The note of its IP address that registered first goes. If an address that is noted registers,
/// none goes, and its own stays in its place.
#[test]
fn which_of_its_notes_goes(rt: HostRuntime) -> Result<(), Fail> {
    let mut server = IpxnetServer::new(rt.alloc(), PORT, 64)?;
    flood(&mut server, 1, 1, 8, 0);
    server.hear(second_place(), &REGISTRATION, 0);
    flood(&mut server, 1, 9, 8, 0);
    assert_eq!(rt; server.noted().len(), 17);
    server.hear(of_host(1, 1), &REGISTRATION, 1);
    assert_eq!(rt; server.noted().len(), 17);
    assert_eq!(rt; noted_at(&server, 0), of_host(1, 1));
    assert_eq!(rt; noted_at(&server, 16), of_host(1, 16));
    server.hear(of_host(1, 17), &REGISTRATION, 2);
    assert_eq!(rt; server.noted().len(), 17);
    assert_eq!(rt; noted_at(&server, 0), of_host(1, 2));
    assert_eq!(rt; noted_at(&server, 7), second_place());
    assert_eq!(rt; noted_at(&server, 15), of_host(1, 16));
    assert_eq!(rt; noted_at(&server, 16), of_host(1, 17));
    Ok(())
}

/// Three hosts together remove no other note either. A fourth one does, once all 64 are taken: the
/// oldest of all goes then. Who has sixteen even then removes its own.
#[test]
fn four_hosts_remove_another_note(rt: HostRuntime) -> Result<(), Fail> {
    let mut server = IpxnetServer::new(rt.alloc(), PORT, 64)?;
    server.hear(third_place(), &REGISTRATION, 0);
    for host in 1..=3 {
        flood(&mut server, host, 1, 64, 1);
    }
    assert_eq!(rt; server.noted().len(), 49);
    assert_eq!(rt; noted_at(&server, 0), third_place());
    flood(&mut server, 4, 1, 15, 2);
    assert_eq!(rt; server.noted().len(), 64);
    flood(&mut server, 1, 101, 64, 3);
    assert_eq!(rt; server.noted().len(), 64);
    assert_eq!(rt; noted_at(&server, 0), third_place());
    assert_eq!(rt; noted_at(&server, 1), of_host(2, 49));
    flood(&mut server, 4, 16, 1, 4);
    assert_eq!(rt; server.noted().len(), 64);
    assert_eq!(rt; noted_at(&server, 0), of_host(2, 49));
    assert_eq!(rt; noted_at(&server, 63), of_host(4, 16));
    Ok(())
}

/// A silent player registers, and somebody else in its name five seconds later. It is asked 5.5
/// seconds after its own registration, answers, and is a client.
#[test]
fn nobody_puts_off_a_ping(rt: HostRuntime) -> Result<(), Fail> {
    let mut server = IpxnetServer::new(rt.alloc(), PORT, 64)?;
    server.hear(first_place(), &REGISTRATION, 1000);
    let again = server.hear(first_place(), &REGISTRATION, 6000);
    assert!(rt; again.answer().is_some());
    assert_eq!(rt; (server.noted().len(), server.noted()[0].since), (1, 1000));
    assert_eq!(rt; server.next_pings(), Some(6500));
    let turn = server.begin_pings(6500);
    assert!(rt; turn.asks(&server.noted()[0]));
    let answers = packet(PORT.own, 2, FIRST_NODE);
    assert_eq!(rt;
        server.hear(first_place(), &answers, 6501),
        Disposition::PingAnswered
    );
    assert_eq!(rt; server.clients()[0].place, first_place());
    assert!(rt; server.noted().is_empty());
    Ok(())
}

/// Somebody registers in the name of a silent player once in each `period` for a minute, and a turn of
/// pings comes ten times a second. How often the player is asked, and how long after a registration at
/// the latest, in ms.
fn asked_under_forgery(server: &mut IpxnetServer, period: u64) -> (u32, u64) {
    let mut asked = 0;
    let mut latest = 0;
    let mut waiting = None;
    for tenth in 0..600 {
        let now = tenth * 100;
        if now % period == 0 {
            server.hear(first_place(), &REGISTRATION, now);
            if waiting.is_none() {
                waiting = Some(now);
            }
        }
        let turn = server.begin_pings(now);
        if server.noted().iter().any(|noted| turn.asks(noted)) {
            asked += 1;
            if let Some(since) = waiting {
                latest = latest.max(now - since);
            }
            waiting = None;
        }
    }
    (asked, latest)
}

/// However often somebody registers in its name, a silent player is asked within 5.5 seconds after
/// each registration. It gets at most two pings in 8.5 seconds.
#[test]
fn forged_every_five_seconds(rt: HostRuntime) -> Result<(), Fail> {
    let mut server = IpxnetServer::new(rt.alloc(), PORT, 64)?;
    assert_eq!(rt; asked_under_forgery(&mut server, 5000), (12, 5500));
    Ok(())
}

#[test]
fn forged_ten_times_a_second(rt: HostRuntime) -> Result<(), Fail> {
    let mut server = IpxnetServer::new(rt.alloc(), PORT, 64)?;
    assert_eq!(rt; asked_under_forgery(&mut server, 100), (13, 5500));
    Ok(())
}
