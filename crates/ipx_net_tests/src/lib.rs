//! Tests of the network in memory, with literal values. They call the public functions of that
//! crate. No crate depends on this one.
#![tactic(auto)]

#[cfg(test)]
mod book;
#[cfg(test)]
mod made;
#[cfg(test)]
mod paced;
#[cfg(test)]
mod polled;
#[cfg(test)]
mod refused;
#[cfg(test)]
mod spent;
#[cfg(test)]
mod two_routers;
