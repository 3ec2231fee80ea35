//! Tests of Ethernet ports, with literal values. They call what `ipx_ethernet_ports` makes public,
//! and no crate depends on this one.
#![tactic(auto)]

#[cfg(test)]
mod circle;
#[cfg(test)]
mod fixture;
#[cfg(test)]
mod learned;
#[cfg(test)]
mod refused;
#[cfg(test)]
mod running;
#[cfg(test)]
mod sending;
#[cfg(test)]
mod sockets;
#[cfg(test)]
mod tunnels;
