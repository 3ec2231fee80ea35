//! Tests of source checks, with literal packets. They call what `ipx_source_checks` makes public,
//! and no crate depends on this one.
#![tactic(auto)]

#[cfg(test)]
mod ears;
#[cfg(test)]
mod packets;
#[cfg(test)]
mod refused;
#[cfg(test)]
mod routers;
