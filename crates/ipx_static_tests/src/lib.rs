//! Tests of static routes and services, with literal values. They call what `ipx_static` makes
//! public, and no crate depends on this one.
#![tactic(auto)]

#[cfg(test)]
mod again;
#[cfg(test)]
mod ears;
#[cfg(test)]
mod far;
#[cfg(test)]
mod fixture;
#[cfg(test)]
mod moments;
#[cfg(test)]
mod refused;
#[cfg(test)]
mod routers;
#[cfg(test)]
mod words;
