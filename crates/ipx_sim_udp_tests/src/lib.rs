//! Tests of `do_udp` over loopback sockets, with literal values. Each has its own UDP port.
#![tactic(auto)]

#[cfg(test)]
mod faults;
#[cfg(test)]
mod refused;
#[cfg(test)]
mod rows;
