//! Tests of the pacing of a connection, with literal values, and over simulated lines with a clock
//! of their own. They call the public functions of that crate, and no crate depends on this one.
#![tactic(auto)]

#[cfg(test)]
mod caller;
#[cfg(test)]
mod line;
#[cfg(test)]
mod longer;
#[cfg(test)]
mod numbers;
#[cfg(test)]
mod refused;
#[cfg(test)]
mod repairs;
#[cfg(test)]
mod rounds;
#[cfg(test)]
mod rows;
#[cfg(test)]
mod speed;
#[cfg(test)]
mod waits;
