//! Polls of hosts and routers while memory is refused: one that has something to send needs memory,
//! and an idle one needs none.

use crate::made::{dial, net_at_last};
use ipx_net::{Answer, Event, Member, Net, NetFault};
use std::alloc::Global;
use std::test::Fail;

/// The number of packets that a host or a router gives.
fn polled(alloc: Global, net: &mut Net, member: Member) -> Result<usize, NetFault> {
    match net.step(alloc, Event::Poll { member })? {
        Answer::Parcels(numbers) => Ok(numbers.len()),
        _ => Ok(usize::MAX),
    }
}

/// A router of two ports gives six packets at first: on each port a request for routes, one for
/// services, and the route to the other port. Run it with each request for memory refused.
#[test]
fn refused_memory_of_a_first_poll(rt: HostRuntime) -> Result<(), Fail> {
    let mut net = net_at_last(&rt, rt.alloc())?;
    match polled(rt.alloc(), &mut net, Member::Router(0)) {
        Ok(count) => assert_eq!(rt; count, 6),
        Err(fault) => {
            assert_eq!(rt; fault, NetFault::OutOfMemory);
            assert_eq!(rt; net.log().len(), 0);
        }
    }
    Ok(())
}

/// Requests so many bytes. A test run that refuses all requests from one of 77,777 bytes to one of
/// 77,778 bytes takes these two as its limits.
fn asks_for(alloc: Global, size: usize) -> bool {
    let block: Result<Vec<u8>, _> = Vec::with_capacity(alloc, size);
    block.is_ok()
}

/// A host that has sent its request, one without a connection, and a router that has advertised: at
/// the same time they have nothing to send. Between the two requests no memory is requested: run it
/// with each request between them refused.
#[test]
fn no_memory_quiet_polls(rt: HostRuntime) -> Result<(), Fail> {
    let alloc = rt.alloc();
    let mut net = net_at_last(&rt, alloc)?;
    dial(alloc, &mut net)?;
    assert_eq!(rt; polled(alloc, &mut net, Member::Host(0))?, 1);
    assert_eq!(rt; polled(alloc, &mut net, Member::Router(0))?, 6);
    let _from_here = asks_for(alloc, 77_777);
    assert_eq!(rt; polled(alloc, &mut net, Member::Host(0))?, 0);
    assert_eq!(rt; polled(alloc, &mut net, Member::Host(1))?, 0);
    assert_eq!(rt; polled(alloc, &mut net, Member::Router(0))?, 0);
    let _till_here = asks_for(alloc, 77_778);
    Ok(())
}
