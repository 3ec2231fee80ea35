//! Tests of ports with ipxnet servers, with literal values. They call what `ipx_ipxnet_ports` makes
//! public, and no crate depends on this one.
#![tactic(auto)]

#[cfg(test)]
mod circle;
#[cfg(test)]
mod failing;
#[cfg(test)]
mod fixture;
#[cfg(test)]
mod joined_rows;
#[cfg(test)]
mod long;
#[cfg(test)]
mod moments;
#[cfg(test)]
mod refused;
#[cfg(test)]
mod row_world;
#[cfg(test)]
mod rows;
#[cfg(test)]
mod running;
#[cfg(test)]
mod sending;
#[cfg(test)]
mod sites;
#[cfg(test)]
mod sockets;
