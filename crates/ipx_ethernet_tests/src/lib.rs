//! Tests of Ethernet frames that hold an IPX packet, and of a switch, with literal values. They call what
//! `ipx_ethernet` makes public, and no crate depends on this one.
#![tactic(auto)]

#[cfg(test)]
mod apart;
#[cfg(test)]
mod between;
#[cfg(test)]
mod caller;
#[cfg(test)]
mod encapsulations;
#[cfg(test)]
mod fixture;
#[cfg(test)]
mod heard;
#[cfg(test)]
mod known;
#[cfg(test)]
mod largest;
#[cfg(test)]
mod lines;
#[cfg(test)]
mod notices;
#[cfg(test)]
mod refusals;
#[cfg(test)]
mod refused;
#[cfg(test)]
mod refused_by_others;
#[cfg(test)]
mod sending;
#[cfg(test)]
mod switch_caller;
#[cfg(test)]
mod switch_fixture;
#[cfg(test)]
mod switch_sending;
#[cfg(test)]
mod texts;
#[cfg(test)]
mod tunnels;
#[cfg(test)]
mod wires;
