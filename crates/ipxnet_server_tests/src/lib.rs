//! Tests of an ipxnet server, with literal values. They call what `ipxnet_server` makes public, and
//! no crate depends on this one.
#![tactic(auto)]

#[cfg(test)]
mod again;
#[cfg(test)]
mod between;
#[cfg(test)]
mod caller;
#[cfg(test)]
mod dropped;
#[cfg(test)]
mod fixture;
#[cfg(test)]
mod floods;
#[cfg(test)]
mod giving;
#[cfg(test)]
mod joined;
#[cfg(test)]
mod notes;
#[cfg(test)]
mod pinging;
#[cfg(test)]
mod pings;
#[cfg(test)]
mod refused;
#[cfg(test)]
mod registering;
#[cfg(test)]
mod repeats;
#[cfg(test)]
mod restart;
#[cfg(test)]
mod room;
#[cfg(test)]
mod router;
#[cfg(test)]
mod silent;
#[cfg(test)]
mod sites;
#[cfg(test)]
mod telling;
