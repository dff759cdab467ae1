//! How durations are spread.

use std::time::Duration;

/// The median of some durations, the least, the greatest, and the 99th of 100.
pub struct Spread {
    pub median: Duration,
    pub least: Duration,
    pub greatest: Duration,
    pub late: Duration,
}

impl Spread {
    /// Measures the spread of these durations. Precondition: there is one at least.
    pub fn of(durations: Vec<Duration>) -> Spread {
        let mut durations = durations;
        durations.sort();
        let count = durations.len();
        Spread {
            median: durations[count / 2],
            least: durations[0],
            greatest: durations[count - 1],
            late: durations[count * 99 / 100],
        }
    }
}
