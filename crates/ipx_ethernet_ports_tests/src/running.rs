//! A router whose one port is an Ethernet port with three remotes.

use crate::fixture::{FIRST, PORT, ethernet, frame, three_ends};
use ipx_carrier::{PortDriverFilters, RouterCore, SteppedClock, run_over_ports};
use ipx_router::{Port, Router};
use ipx_wire::Node;
use std::test::Fail;

/// Each remote gets each packet of the router's start, in a broadcast frame. What stations send to
/// each other is forwarded, and the router receives only what is for it.
#[test]
fn a_router_on_a_wire(rt: HostRuntime) -> Result<(), Fail> {
    let alloc = rt.alloc();
    let port = Port {
        network: PORT.network,
        node: PORT.own,
        cost: 1,
    };
    let router = Router::new(alloc, vec![in alloc; port]?)?;
    let mut core = RouterCore::new(alloc, router);
    let mut ends = three_ends(alloc)?;
    ends.put(0, 0, &frame(FIRST, Node([2, 0, 0, 0, 0, 0x44])))?;
    ends.put(0, 1, &frame(PORT.own, FIRST))?;
    let mut ethernet = ethernet(alloc, ends)?;
    let mut clock = SteppedClock::new(0, 10);
    let first = run_over_ports(alloc, &mut core, &mut ethernet, &mut clock, 1)?;
    assert_eq!(rt; first.heard, 0);
    assert_eq!(rt; first.sent, 2);
    assert_eq!(rt; first.unmapped, 0);
    // The frame of the station to both other remotes, and then what the router asks: a request of
    // RIP and one of SAP, to each of three.
    let sent = ethernet.sockets().went();
    assert_eq!(rt; sent.len(), 8);
    let all = [
        0xff, 0xff, 0xff, 0xff, 0xff, 0xff, 2, 0, 0, 0, 0, 1, 0x81, 0x37,
    ];
    for (place, told) in sent[2..].iter().enumerate() {
        assert_eq!(rt; told.end, place % 3);
        assert_eq!(rt; &told.bytes[..14], all.as_slice());
    }
    let second = run_over_ports(alloc, &mut core, &mut ethernet, &mut clock, 1)?;
    assert_eq!(rt; second.heard, 1);
    assert_eq!(rt; ethernet.filtered(), 1);
    Ok(())
}
