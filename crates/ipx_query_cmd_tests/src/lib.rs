//! Tests of what an operator is shown, with literal values. They call what `ipx_query_cmd` makes
//! public, and no crate depends on this one.
#![tactic(auto)]

#[cfg(test)]
mod known;
#[cfg(test)]
mod lines;
#[cfg(test)]
mod pings;
