//! How a host tells a pacer what its link read and gave.

use ipx_wire::{Address, Fragment, Network, Node, Socket, SpxHeader};
use spx_congestion::{Pacer, Plan, SentKind};
use spx_link::{Link, Received, Unit};
use std::test::Fail;

/// A link and its pacer.
#[derive(Drop)]
struct Sender {
    link: Link,
    pacer: Pacer,
}

impl Sender {
    /// The link reads a packet.
    fn hear(&mut self, header: &SpxHeader, body: &[u8], now: u64) -> Received {
        let before = self.link.numbers();
        let received = self.link.receive(header, body, now);
        let joined = received == Received::Joined;
        self.pacer.heard(before, self.link.numbers(), joined, now);
        received
    }

    /// What the link may do at its next poll.
    fn plan(&mut self, now: u64) -> Plan {
        self.pacer.plan(self.link.numbers(), now)
    }

    /// The link gives a packet, if it has one.
    fn poll(&mut self, now: u64) -> Option<SentKind> {
        let packet = self.link.poll(now)?;
        let gave = SentKind::of(packet.what, packet.header.stream);
        self.pacer.gave(gave, self.link.numbers(), now);
        Some(gave)
    }
}

/// A system packet of the connection.
fn system(ack: u16, limit: u16) -> SpxHeader {
    SpxHeader {
        system: true,
        wants_ack: false,
        last: false,
        stream: 0,
        from_id: 7,
        to_id: 1,
        seq: 0,
        ack,
        limit,
    }
}

/// A link that dials and is answered after 30 ms, one unit, and its acknowledgement.
#[test]
fn a_link_and_its_pacer(rt: HostRuntime) -> Result<(), Fail> {
    let far = Address {
        network: Network(0x11),
        node: Node([0, 0, 10, 0, 1, 20]),
        socket: Socket(0x4002),
    };
    let mut sender = Sender {
        link: Link::dial(rt.alloc(), 1, Socket(0x4001), far, 8, 0)?,
        pacer: Pacer::new(rt.alloc())?,
    };
    assert_eq!(rt; sender.plan(0).window, 10);
    assert_eq!(rt; sender.poll(0), Some(SentKind::Request));
    assert_eq!(rt; sender.hear(&system(0, 7), &[], 30), Received::Joined);
    let mut units = Vec::new(rt.alloc());
    let mut body = Fragment::new();
    body.push(b'a');
    units.push(Unit {
        stream: 0,
        last: true,
        body,
    })?;
    sender.link.offer(rt.alloc(), units)?;
    assert_eq!(rt; sender.plan(30).window, 10);
    assert_eq!(rt; sender.poll(30), Some(SentKind::Unit));
    assert_eq!(rt; sender.plan(30).window, 10);
    assert_eq!(rt; sender.pacer.next_due(30), Some(230));
    assert_eq!(rt; sender.hear(&system(1, 8), &[], 60), Received::System);
    assert_eq!(rt; sender.pacer.next_due(60), None);
    Ok(())
}
