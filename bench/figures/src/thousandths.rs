//! Numbers in thousandths, without floating point, so that each machine works out the same.

use std::fmt;
use std::iter::Sum;

/// A number that is rounded to a thousandth.
#[derive(Clone, Copy, Debug, Default, PartialEq, Eq, PartialOrd, Ord)]
pub struct Thousandths(pub u64);

impl Thousandths {
    pub fn whole(number: u64) -> Thousandths {
        Thousandths(number * 1_000)
    }

    /// A fraction. A half is rounded up.
    pub fn of(numerator: u64, denominator: u64) -> Thousandths {
        Thousandths((numerator * 2_000 + denominator) / (2 * denominator))
    }
}

impl fmt::Display for Thousandths {
    fn fmt(&self, out: &mut fmt::Formatter) -> fmt::Result {
        write!(out, "{}.{:03}", self.0 / 1_000, self.0 % 1_000)
    }
}

impl Sum for Thousandths {
    fn sum<I: Iterator<Item = Thousandths>>(numbers: I) -> Thousandths {
        Thousandths(numbers.map(|number| number.0).sum())
    }
}

/// The mean, the extremes, the quartiles and the median of some numbers.
#[derive(Clone, Copy, Debug, PartialEq, Eq)]
pub struct Spread {
    pub mean: Thousandths,
    pub least: Thousandths,
    pub lower: Thousandths,
    pub median: Thousandths,
    pub upper: Thousandths,
    pub most: Thousandths,
}

impl Spread {
    /// That of some numbers, at least one. Between two of them a quartile lies as far as its place does.
    pub fn of(numbers: impl IntoIterator<Item = Thousandths>) -> Spread {
        let mut sorted: Vec<Thousandths> = numbers.into_iter().collect();
        sorted.sort_unstable();
        let sum: Thousandths = sorted.iter().copied().sum();
        Spread {
            mean: Thousandths((sum.0 * 2 + sorted.len() as u64) / (2 * sorted.len() as u64)),
            least: at_quarter(&sorted, 0),
            lower: at_quarter(&sorted, 1),
            median: at_quarter(&sorted, 2),
            upper: at_quarter(&sorted, 3),
            most: at_quarter(&sorted, 4),
        }
    }
}

/// What stands so many quarters of the way from the first to the last.
fn at_quarter(sorted: &[Thousandths], quarters: usize) -> Thousandths {
    let place = (sorted.len() - 1) * quarters;
    let (index, part) = (place / 4, (place % 4) as u64);
    let (one, next) = (sorted[index].0, sorted.get(index + 1).map_or(0, |next| next.0));
    Thousandths((one * (4 - part) + next * part + 2) / 4)
}
