//! Tests of RIP and SAP packets, of tables and of a router, with literal values. They call the
//! public functions of those crates. No crate depends on this one.
#![tactic(auto)]

#[cfg(test)]
mod alike;
#[cfg(test)]
mod all_asked;
#[cfg(test)]
mod cut;
#[cfg(test)]
mod fixture;
#[cfg(test)]
mod full;
#[cfg(test)]
mod in_place;
#[cfg(test)]
mod index;
#[cfg(test)]
mod metrics;
#[cfg(test)]
mod new_router;
#[cfg(test)]
mod nothing;
#[cfg(test)]
mod offers;
#[cfg(test)]
mod order;
#[cfg(test)]
mod prefixes;
#[cfg(test)]
mod refusals;
#[cfg(test)]
mod refused;
#[cfg(test)]
mod rip;
#[cfg(test)]
mod routes;
#[cfg(test)]
mod sap;
#[cfg(test)]
mod services;
