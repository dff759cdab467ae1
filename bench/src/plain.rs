//! A member's agent in plain Rust, written for speed, with the behaviour of the proved one.
//!
//! What is known of a stream stands in rows of places by number, in place of maps by name. No order of timers is kept, but the
//! least end of each block of places. Nothing is copied that isn't handed out. It takes memory where it needs it, and stops where
//! there is none.

mod agent;
mod bucket;
mod feed;
mod hearing;
mod row;
mod table;
mod ticking;

pub use agent::{Agent, Arm, Config, Outcome, State, Ticked};
pub use feed::PageMsg;
