//! Tests of SPX packets and of links, with literal values. They call the public functions of those
//! crates, and no crate depends on this one.
#![tactic(auto)]

#[cfg(test)]
mod ahead;
#[cfg(test)]
mod by_id;
#[cfg(test)]
mod closing;
#[cfg(test)]
mod drawn;
#[cfg(test)]
mod due;
#[cfg(test)]
mod end;
#[cfg(test)]
mod ipx;
#[cfg(test)]
mod messages;
#[cfg(test)]
mod no_memory;
#[cfg(test)]
mod paced;
#[cfg(test)]
mod pair;
#[cfg(test)]
mod refusals;
#[cfg(test)]
mod refused;
#[cfg(test)]
mod rounds;
#[cfg(test)]
mod rows;
#[cfg(test)]
mod spx;
#[cfg(test)]
mod texts;
#[cfg(test)]
mod windows;
#[cfg(test)]
mod wire_texts;
