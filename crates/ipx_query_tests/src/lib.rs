//! Tests of a host that asks, with literal values. They call what `ipx_query` makes public, and no
//! crate depends on this one.
#![tactic(auto)]

#[cfg(test)]
mod answers;
#[cfg(test)]
mod between;
#[cfg(test)]
mod ends;
#[cfg(test)]
mod fixture;
#[cfg(test)]
mod pings;
#[cfg(test)]
mod queries;
#[cfg(test)]
mod refused;
#[cfg(test)]
mod strangers;
