//! Nodes and IP addresses.

use ipx_carrier::{CarrierFault, RunFault, ip_of, node_of};
use ipx_wire::Node;

#[test]
fn nodes_and_addresses(rt: HostRuntime) {
    let unmapped = ip_of(Node([0, 1, 0x7f, 0, 0, 1]));
    assert!(rt; matches!(unmapped, Err(CarrierFault::NotMapped)));
    let mapped = ip_of(Node([0, 0, 0x7f, 0, 0, 1]));
    assert!(rt; mapped == Ok([127, 0, 0, 1]));
    let node = node_of([127, 0, 0, 1]);
    assert!(rt; node == Node([0, 0, 0x7f, 0, 0, 1]));
}

#[test]
fn fault_numbers(rt: HostRuntime) {
    let fault = CarrierFault::NotMapped;
    assert_eq!(rt; fault.number(), 38);
    let device = RunFault::Device;
    assert_eq!(rt; device.number(), 39);
    let memory = RunFault::OutOfMemory;
    assert_eq!(rt; memory.number(), 14);
}
