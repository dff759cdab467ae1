//! A point of a figure: what several losses cost.

use crate::cost::Cost;
use crate::table::{Table, cells_of, columns_of};
use crate::thousandths::{Spread, Thousandths};

/// The costs of some losses, each spread over the losses.
#[derive(Clone, Copy, Debug, PartialEq, Eq)]
pub struct Point {
    pub losses: usize,
    pub requests: Spread,
    pub repairs: Spread,
    /// How long the last member had to wait, over its round trip to the source.
    pub delay: Spread,
}

impl Point {
    pub fn of(costs: &[Cost]) -> Point {
        Point {
            losses: costs.len(),
            requests: Spread::of(costs.iter().map(|cost| Thousandths::whole(cost.requests))),
            repairs: Spread::of(costs.iter().map(|cost| Thousandths::whole(cost.repairs))),
            delay: Spread::of(costs.iter().map(|cost| cost.last().delay())),
        }
    }
}

/// A table of points, with columns in front of them that say which.
pub fn table_of(which: &[&str], points: impl IntoIterator<Item = (Vec<String>, Point)>) -> Table {
    let spreads: Vec<String> = ["requests", "repairs", "delay"].iter().flat_map(|name| columns_of(name)).collect();
    let mut columns = which.to_vec();
    columns.push("losses");
    columns.extend(spreads.iter().map(String::as_str));
    let mut table = Table::new(&columns);
    for (mut cells, point) in points {
        cells.push(point.losses.to_string());
        for spread in [&point.requests, &point.repairs, &point.delay] {
            cells.extend(cells_of(spread));
        }
        table.push(&cells);
    }
    table
}
