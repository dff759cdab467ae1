//! The figures.

pub mod chain;
pub mod distance;
pub mod recovery;
pub mod sparse;
pub mod star;
pub mod trees;
pub mod waits;
