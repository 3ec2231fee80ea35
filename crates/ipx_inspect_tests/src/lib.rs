//! Tests of the commands for what the built program cannot show: a reader or a writer that fails,
//! and out of memory. What it can show is tested by rows of data: tests/system/rows.
#![tactic(auto)]

#[cfg(test)]
mod faults;
#[cfg(test)]
mod refused;
#[cfg(test)]
mod texts;
