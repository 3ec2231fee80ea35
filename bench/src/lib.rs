//! The proved router, links and endpoints beside plain ones: the same inputs, loops and answers.

pub mod hosts;
pub mod inputs;
pub mod ours;
pub mod pairs;
pub mod plain;
pub mod rows;
pub mod scripts;
pub mod theirs;
