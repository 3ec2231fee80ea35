//! Tests of `sim` that are not rows: a reader or a writer that fails, a routing loop, and what
//! takes too many packets. The rows are data: tests/system/rows.
#![tactic(auto)]

#[cfg(test)]
mod faults;
#[cfg(test)]
mod full;
#[cfg(test)]
mod loop_row;
