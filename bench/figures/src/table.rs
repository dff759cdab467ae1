//! Points as CSV.

use crate::thousandths::Spread;

/// Rows under one head.
pub struct Table {
    text: String,
}

impl Table {
    /// A table with these columns.
    pub fn new(columns: &[&str]) -> Table {
        Table { text: columns.join(",") + "\n" }
    }

    pub fn push(&mut self, cells: &[String]) {
        self.text.push_str(&(cells.join(",") + "\n"));
    }

    pub fn into_csv(self) -> String {
        self.text
    }
}

/// The columns of a spread.
pub fn columns_of(name: &str) -> Vec<String> {
    ["mean", "least", "lower", "median", "upper", "most"].map(|part| format!("{name}_{part}")).into()
}

/// The cells of a spread, in the order of its columns.
pub fn cells_of(spread: &Spread) -> Vec<String> {
    let Spread { mean, least, lower, median, upper, most } = spread;
    [mean, least, lower, median, upper, most].map(|number| number.to_string()).into()
}
