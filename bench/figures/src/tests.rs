//! The simulator at topologies that are worked out by hand.

mod bounds;
mod losses;
mod numbers;
mod outages;
mod topologies;
