//! Tests of routers and hosts over datagrams in memory and over UDP, with literal values. They call
//! what `ipx_carrier` makes public, and no crate depends on this one.
#![tactic(auto)]

#[cfg(test)]
mod again;
#[cfg(test)]
mod bursts;
#[cfg(test)]
mod connections;
#[cfg(test)]
mod course;
#[cfg(test)]
mod courses;
#[cfg(test)]
mod drawn_sites;
#[cfg(test)]
mod draws;
#[cfg(test)]
mod fixture;
#[cfg(test)]
mod flood;
#[cfg(test)]
mod hosts;
#[cfg(test)]
mod mapping;
#[cfg(test)]
mod port_drivers;
#[cfg(test)]
mod port_marks;
#[cfg(test)]
mod premises;
#[cfg(test)]
mod processes;
#[cfg(test)]
mod queues;
#[cfg(test)]
mod refused;
#[cfg(test)]
mod refused_calls;
#[cfg(test)]
mod refused_turns;
#[cfg(test)]
mod sites;
#[cfg(test)]
mod turns;
#[cfg(test)]
mod udp;
