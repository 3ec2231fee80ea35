//! A server is made while memory is refused.

use crate::fixture::{FIRST_NODE, PORT, enter, first_place};
use ipxnet_server::{IpxnetServer, Recipients};
use std::test::Fail;

/// If memory is refused there is no server, and the next try makes one.
#[test]
fn refused_server(rt: HostRuntime) -> Result<(), Fail> {
    let mut server = match IpxnetServer::new(rt.alloc(), PORT, 64) {
        Ok(server) => server,
        Err(_) => IpxnetServer::new(rt.alloc(), PORT, 64)?,
    };
    enter(&mut server, first_place(), 0);
    assert_eq!(rt;
        server.give(FIRST_NODE, &[0; 40], 0),
        Ok(Recipients::One(first_place()))
    );
    Ok(())
}
