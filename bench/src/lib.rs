//! The proved agent and a plain one at the same calls.

pub mod calls;
pub mod datagram;
pub mod losses;
pub mod meter;
pub mod moments;
pub mod outages;
pub mod plain;
pub mod sessions;
pub mod teller;
pub mod words;
pub mod workload;
