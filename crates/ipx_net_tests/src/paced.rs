//! An end whose link has a window, and retransmits manually.

use crate::made::{dial, net_at_last};
use ipx_net::{Answer, Event, Member, Net, NetFault, Place};
use spx_messages::{Message, Taken};
use std::alloc::Global;
use std::process::Abort;
use std::test::Fail;

/// The parcel that a host gives, if it gives one.
fn poll(alloc: Global, net: &mut Net, from: usize) -> Result<Option<usize>, NetFault> {
    let member = Member::Host(from);
    let Answer::Parcels(numbers) = net.step(alloc, Event::Poll { member })? else {
        return Ok(None);
    };
    Ok(numbers.first().copied())
}

fn deliver(alloc: Global, net: &mut Net, parcel: usize, to: usize) -> Result<(), NetFault> {
    let place = Place::Host(to);
    net.step(alloc, Event::Deliver { parcel, place })?;
    Ok(())
}

/// Passes the packet of a host to the other one, if there is one.
fn pass(alloc: Global, net: &mut Net, from: usize, to: usize) -> Result<bool, NetFault> {
    let Some(parcel) = poll(alloc, net, from)? else {
        return Ok(false);
    };
    deliver(alloc, net, parcel, to)?;
    Ok(true)
}

/// A message of two bytes is handed in at end 0.
fn send(alloc: Global, net: &mut Net) -> Result<Answer, Fail> {
    let body = vec![in alloc; 7, 8]?;
    let message = Message { stream: 0, body };
    Ok(net.step(alloc, Event::Send { who: 0, message })?)
}

fn pace(rt: &impl Abort, alloc: Global, net: &mut Net, window: u16) -> Result<(), NetFault> {
    let manual = true;
    let who = 0;
    let paced = net.step(
        alloc,
        Event::Pace {
            who,
            window,
            manual,
        },
    )?;
    assert!(rt; matches!(paced, Answer::Done));
    Ok(())
}

/// A unit waits for the window, is sent, and is sent again before it is delivered. Then both
/// arrive, and the far end takes the message once and unchanged. The two events make no entry.
#[test]
fn paced_in_a_network(rt: HostRuntime) -> Result<(), Fail> {
    let alloc = rt.alloc();
    let mut net = net_at_last(&rt, alloc)?;
    dial(alloc, &mut net)?;
    assert!(rt; pass(alloc, &mut net, 0, 1)?);
    assert!(rt; pass(alloc, &mut net, 1, 0)?);
    send(alloc, &mut net)?;
    let entries = net.log().len();
    pace(&rt, alloc, &mut net, 0)?;
    assert!(rt; poll(alloc, &mut net, 0)?.is_none());
    pace(&rt, alloc, &mut net, 1)?;
    assert_eq!(rt; net.log().len(), entries);
    let first = poll(alloc, &mut net, 0)?;
    let again = net.step(alloc, Event::Again { who: 0, place: 0 })?;
    assert!(rt; matches!(again, Answer::Done));
    let second = poll(alloc, &mut net, 0)?;
    let (Some(first), Some(second)) = (first, second) else {
        return Err(Fail::from(NetFault::NoSuchParcel));
    };
    deliver(alloc, &mut net, first, 1)?;
    deliver(alloc, &mut net, second, 1)?;
    let taken = net.step(alloc, Event::Take { who: 1 })?;
    assert!(rt; matches!(taken, Answer::Taken(Taken::Whole(_))));
    assert!(rt; net.begins(1));
    assert!(rt; net.fresh());
    Ok(())
}

/// An end that does not exist, or was released.
#[test]
fn paced_no_such_end(rt: HostRuntime) -> Result<(), Fail> {
    let alloc = rt.alloc();
    let mut net = net_at_last(&rt, alloc)?;
    let absent = net.step(alloc, Event::Again { who: 0, place: 0 });
    assert!(rt; matches!(absent, Err(NetFault::NoSuchEnd)));
    dial(alloc, &mut net)?;
    pace(&rt, alloc, &mut net, 3)?;
    net.step(alloc, Event::Release { who: 0 })?;
    let (who, window, manual) = (0, 3, false);
    let released = net.step(
        alloc,
        Event::Pace {
            who,
            window,
            manual,
        },
    );
    assert!(rt; matches!(released, Err(NetFault::NoSuchEnd)));
    Ok(())
}
