//! Ports that make a router, and ports that make none.

use crate::fixture::port;
use ipx_router::{NewFault, Router};
use ipx_wire::Network;
use std::test::Fail;

#[test]
fn hop_rows_of_too_few_and_too_many_ports(rt: HostRuntime) -> Result<(), Fail> {
    let none = Router::new(rt.alloc(), Vec::new(rt.alloc()));
    assert!(rt; matches!(none, Err(NewFault::NoPorts)));
    let many = Router::new(rt.alloc(), vec![in rt.alloc(); port(0x11, 1, 1); 17]?);
    assert!(rt; matches!(many, Err(NewFault::TooManyPorts(17))));
    Ok(())
}

#[test]
fn hop_rows_of_ports_on_one_network(rt: HostRuntime) -> Result<(), Fail> {
    let ports = vec![in rt.alloc(); port(0x11, 1, 1), port(0x22, 2, 1), port(0x11, 3, 1)]?;
    let twins = Router::new(rt.alloc(), ports);
    assert!(rt; matches!(twins, Err(NewFault::TwinNetwork(Network(0x11)))));
    Ok(())
}

#[test]
fn two_ports(rt: HostRuntime) -> Result<(), Fail> {
    let ports = vec![in rt.alloc(); port(0x11, 1, 1), port(0x22, 2, 1)]?;
    let router = Router::new(rt.alloc(), ports)?;
    assert_eq!(rt; router.ports().len(), 2);
    Ok(())
}
