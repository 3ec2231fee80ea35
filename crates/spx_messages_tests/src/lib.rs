//! Tests of messages, of units and of endpoints, with literal values. They call the public
//! functions of those crates. No crate depends on this one.
#![tactic(auto)]

#[cfg(test)]
mod calls;
#[cfg(test)]
mod endpoint_rows;
#[cfg(test)]
mod hosts;
#[cfg(test)]
mod no_memory;
#[cfg(test)]
mod refusals;
#[cfg(test)]
mod refused;
#[cfg(test)]
mod refused_calls;
#[cfg(test)]
mod units;
