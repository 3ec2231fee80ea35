//! Tests of what a router knows as text, with literal values. They call what `ipx_table_dump` makes
//! public, and no crate depends on this one.
#![tactic(auto)]

#[cfg(test)]
mod clients;
#[cfg(test)]
mod fixture;
#[cfg(test)]
mod heard;
#[cfg(test)]
mod hearings;
#[cfg(test)]
mod random;
#[cfg(test)]
mod refused;
#[cfg(test)]
mod texts;
