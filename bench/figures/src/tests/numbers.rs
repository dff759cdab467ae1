//! Fractions, quartiles and pixels.

use crate::thousandths::{Spread, Thousandths};

fn whole(numbers: &[u64]) -> Spread {
    Spread::of(numbers.iter().copied().map(Thousandths::whole))
}

#[test]
fn fractions_are_rounded_to_a_thousandth() {
    assert_eq!(Thousandths::of(2, 3).to_string(), "0.667");
    assert_eq!(Thousandths::of(1, 2_000).to_string(), "0.001");
    assert_eq!(Thousandths::of(25, 10).to_string(), "2.500");
}

#[test]
fn quartiles_stand_a_quarter_of_the_way() {
    let Spread { mean, least, lower, median, upper, most } = whole(&[5, 1, 3, 2, 4]);
    let told = [mean, least, lower, median, upper, most].map(|number| number.to_string());
    assert_eq!(told, ["3.000", "1.000", "2.000", "3.000", "4.000", "5.000"]);
}

/// Of 1, 2, 4 and 8 a quarter of the way is three quarters from the first to the second.
#[test]
fn quartiles_stand_between_numbers() {
    let Spread { lower, median, upper, .. } = whole(&[8, 4, 2, 1]);
    assert_eq!([lower, median, upper].map(|number| number.to_string()), ["1.750", "3.000", "5.000"]);
}

#[test]
fn one_number_is_its_own_spread() {
    let spread = whole(&[7]);
    assert_eq!((spread.least, spread.median, spread.most), (spread.mean, spread.mean, spread.mean));
}
