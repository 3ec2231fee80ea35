//! What an endpoint refuses, with literal values.

use crate::hosts::{Host, joins, passes};
use crate::units::message;
use ipx_wire::{IpxFault, SpxFault};
use spx_link::{LinksFault, OfferFault, State};
use spx_messages::{Arrived, EndFault, MessageFault};
use std::process::Abort;
use std::test::Fail;

/// A packet of type 5 for the far host, with a body of 11 bytes.
const SHORT_BODY: [u8; 41] = [
    0xff, 0xff, 0, 0x29, 0, 5, 0, 0, 0, 0x11, 0, 0, 0x7f, 0, 0, 4, 0x40, 0, 0, 0, 0, 0x11, 0, 0,
    0x7f, 0, 0, 3, 0x40, 1, 0xc0, 0, 0, 1, 0xff, 0xff, 0, 0, 0, 0, 0,
];

#[test]
fn datagrams_of_no_connection(rt: HostRuntime) -> Result<(), Fail> {
    let mut far = Host::far(rt.alloc());
    far.opens()?;
    let short = far.receive(&SHORT_BODY[..29])?;
    assert_eq!(rt; short, Arrived::Bad(IpxFault::Short(29)));
    let cut = far.receive(&SHORT_BODY[..40])?;
    assert_eq!(rt; cut, Arrived::Bad(IpxFault::Truncated(41, 40)));
    let body = far.receive(&SHORT_BODY)?;
    assert_eq!(rt; body, Arrived::BadSpx(SpxFault::SpxShort(11)));
    assert_eq!(rt; far.heard(), None);
    Ok(())
}

/// A host that asked for sixteen connections accepts no request.
#[test]
fn no_room_for_a_request(rt: HostRuntime) -> Result<(), Fail> {
    let mut near = Host::near(rt.alloc());
    let mut far = Host::far(rt.alloc());
    far.opens()?;
    for _ in 0..16 {
        far.dial()?;
    }
    near.dial()?;
    assert_eq!(rt; passes(&mut near, &mut far)?, Some(Arrived::NoRoom));
    assert_eq!(rt; far.heard(), None);
    Ok(())
}

#[test]
fn sixteen_dials(rt: HostRuntime) -> Result<(), Fail> {
    let mut near = Host::near(rt.alloc());
    for id in 1..17u16 {
        assert_eq!(rt; near.dial()?, id);
    }
    assert_eq!(rt; near.dial(), Err(EndFault::Links(LinksFault::TooMany)));
    assert_eq!(rt; near.state(17), Err(EndFault::NoSuchEnd));
    near.release(3)?;
    assert_eq!(rt; near.dial()?, 17);
    Ok(())
}

/// A link that is not open yet, and one that is ending.
#[test]
fn not_open_and_ended(rt: HostRuntime) -> Result<(), Fail> {
    let mut near = Host::near(rt.alloc());
    let mut far = Host::far(rt.alloc());
    near.dial()?;
    let early = near.close();
    assert_eq!(rt; early, Err(EndFault::Offer(OfferFault::NotLive)));
    near.release(1)?;
    let mut near = Host::near(rt.alloc());
    joins(&rt, &mut near, &mut far)?;
    near.close()?;
    is_ended(&rt, &mut near)?;
    let late = near.send(&message(rt.alloc(), 0, 1)?);
    assert_eq!(rt; late, Err(EndFault::Offer(OfferFault::Ended)));
    Ok(())
}

fn is_ended(rt: &impl Abort, near: &mut Host) -> Result<(), Fail> {
    let again = near.close();
    assert_eq!(rt; again, Err(EndFault::Offer(OfferFault::Ended)));
    assert_eq!(rt; near.state(1)?, State::Ending);
    Ok(())
}

/// An unknown id is reported before a message that is too long.
#[test]
fn too_long_to_send(rt: HostRuntime) -> Result<(), Fail> {
    let mut near = Host::near(rt.alloc());
    near.dial()?;
    let long = message(rt.alloc(), 0, 65_536)?;
    let refused = near.send(&long);
    let fault = EndFault::Message(MessageFault::TooLong(65_536));
    assert_eq!(rt; refused, Err(fault));
    assert_eq!(rt; near.send_over(9, &long), Err(EndFault::NoSuchEnd));
    Ok(())
}

/// No link has id 1.
#[test]
fn unknown_ids(rt: HostRuntime) {
    let mut near = Host::near(rt.alloc());
    assert_eq!(rt; near.close(), Err(EndFault::NoSuchEnd));
    assert_eq!(rt; near.take().err(), Some(EndFault::NoSuchEnd));
    assert_eq!(rt; near.held(), Err(EndFault::NoSuchEnd));
    assert_eq!(rt; near.next_stream(), Err(EndFault::NoSuchEnd));
}
