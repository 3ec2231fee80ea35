//! The debug text of a link.

ghost use Rattle.std.specs.Prelude.{◌≤◌, length};

use crate::end::{HERE, one_unit, system, there, unit};
use ipx_wire::SpxHeader;
use spx_link::{Links, Received, Sent};
use std::alloc::Global;
use std::process::Abort;
use std::test::Fail;

/// A peer's id, with letters in hex.
const PEER: u16 = 0xbeef;

#[test]
fn text_of_a_link_that_asks(rt: HostRuntime) -> Result<(), Fail> {
    let mut links = Links::new(rt.alloc());
    links.dial(rt.alloc(), HERE, there(), 8, 0)?;
    let said = format!(in rt.alloc(); "{:?}", links.get(1))?;
    let wanted = "Some(Link { state: Opening, own: 0001, peer: ffff, local: 4001, \
        remote: 00000011:00007f000004:4000, next: 0, expected: 0, room: 0, queued: 0, out: 0, \
        held: 0, ahead: 0, buffers: 8, .. })";
    assert_eq!(rt; said.as_str(), wanted);
    Ok(())
}

/// Three units are queued, and two of them are sent. Of the peer's units 0 and 3 were received, and
/// 1 and 2 are missing.
#[test]
fn text_of_a_link_at_work(rt: HostRuntime) -> Result<(), Fail> {
    let alloc = rt.alloc();
    let mut links = Links::new(alloc);
    links.dial(alloc, HERE, there(), 8, 0)?;
    reads(&rt, &mut links, &system(0, 7), b"", Received::Joined);
    for byte in [0x61, 0x62, 0x63] {
        assert!(rt; links.get(1).is_some());
        links.offer(alloc, 1, one_unit(alloc, byte)?)?;
    }
    sends_a_unit(&rt, &mut links);
    sends_a_unit(&rt, &mut links);
    reads(&rt, &mut links, &unit(0, 0), b"a", Received::Kept);
    reads(&rt, &mut links, &unit(0, 3), b"d", Received::Kept);
    let said = format!(in alloc; "{:?}", links.get(1))?;
    let wanted = "Some(Link { state: Live, own: 0001, peer: beef, local: 4001, \
        remote: 00000011:00007f000004:4000, next: 2, expected: 1, room: 6, queued: 3, out: 2, \
        held: 1, ahead: 1, buffers: 8, .. })";
    assert_eq!(rt; said.as_str(), wanted);
    Ok(())
}

/// A packet of the peer is received.
fn reads(rt: &impl Abort, links: &mut Links, header: &SpxHeader, body: &[u8], answer: Received)
    requires { length body.now ≤ 534 }
{
    let header = SpxHeader {
        from_id: PEER,
        ..*header
    };
    assert!(rt; links.get(1).is_some());
    assert_eq!(rt; links.receive(1, &header, body, 0), answer);
}

fn sends_a_unit(rt: &impl Abort, links: &mut Links) {
    assert!(rt; links.get(1).is_some());
    assert_eq!(rt;
        links.poll(1, 0).map(|packet| packet.what),
        Some(Sent::Unit)
    );
}
