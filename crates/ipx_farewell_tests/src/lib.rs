//! Tests of what a router takes back as it stops, with literal values. They call what
//! `ipx_farewell` makes public, and no crate depends on this one.
#![tactic(auto)]

#[cfg(test)]
mod fixture;
#[cfg(test)]
mod heard;
#[cfg(test)]
mod packets;
#[cfg(test)]
mod refused;
