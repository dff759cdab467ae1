//! Plots as SVG, in the looks of `srm picture`.

mod frame;
mod marks;
mod pixels;

use crate::thousandths::{Spread, Thousandths};
use frame::{write_axes, write_head, write_legend};
use marks::write_series;
use pixels::Area;

/// From a tick to the next, in thousandths.
const STEPS: [u64; 9] = [10, 50, 100, 500, 1_000, 2_000, 4_000, 8_000, 16_000];

/// An axis has no more steps.
const MOST_STEPS: u64 = 6;

/// How a series is drawn. No two series share a colour or a shape.
#[derive(Clone, Copy, Debug, PartialEq, Eq)]
pub enum Look {
    First,
    Second,
    Third,
}

impl Look {
    /// Its class in the style.
    fn class(self) -> &'static str {
        match self {
            Look::First => "first",
            Look::Second => "second",
            Look::Third => "third",
        }
    }
}

/// What is drawn in a panel.
pub enum Series {
    /// A line through points, with a dot at each.
    Line(Look, Vec<(u64, Thousandths)>),
    /// The same, with a bar from the lower to the upper quartile at each.
    Means(Look, Vec<(u64, Spread)>),
    /// At each place a box from the lower to the upper quartile, with the median and the mean in it, and a line to the extremes.
    Boxes(Look, Vec<(u64, Spread)>),
    /// What an estimate gives: a thin dashed line.
    Estimate(Look, Vec<(u64, Thousandths)>),
}

impl Series {
    /// The greatest number that is drawn.
    fn most(&self) -> Thousandths {
        let most = match self {
            Series::Line(_, points) | Series::Estimate(_, points) => points.iter().map(|(_, y)| *y).max(),
            Series::Means(_, points) => points.iter().map(|(_, spread)| spread.upper.max(spread.mean)).max(),
            Series::Boxes(_, points) => points.iter().map(|(_, spread)| spread.most).max(),
        };
        most.unwrap_or_default()
    }
}

/// One axis, from its first number to its last, with a tick at each of some.
pub struct Axis {
    pub label: String,
    pub first: Thousandths,
    pub last: Thousandths,
    pub ticks: Vec<Thousandths>,
}

impl Axis {
    /// An axis of whole numbers with a tick at each step.
    pub fn whole(label: &str, first: u64, last: u64, step: usize) -> Axis {
        let ticks = (first..=last).step_by(step).map(Thousandths::whole).collect();
        Axis { label: label.into(), first: Thousandths::whole(first), last: Thousandths::whole(last), ticks }
    }

    /// The same with some room at both ends, and a tick at each of these numbers.
    pub fn at(label: &str, numbers: &[u64], room: Thousandths) -> Axis {
        let ticks: Vec<Thousandths> = numbers.iter().copied().map(Thousandths::whole).collect();
        let first = Thousandths(ticks[0].0.saturating_sub(room.0));
        let last = Thousandths(ticks[ticks.len() - 1].0 + room.0);
        Axis { label: label.into(), first, last, ticks }
    }

    /// An axis from 0 in a few steps, as far as what is drawn.
    pub fn over(label: &str, series: &[Series]) -> Axis {
        let most = series.iter().map(Series::most).max().unwrap_or_default();
        let step = STEPS.iter().find(|&&step| most.0 <= MOST_STEPS * step).copied().unwrap_or(most.0);
        let count = most.0.div_ceil(step);
        let ticks = (0..=count).map(|index| Thousandths(index * step)).collect();
        Axis { label: label.into(), first: Thousandths(0), last: Thousandths(count * step), ticks }
    }
}

/// One plot of several side by side. The label of `y` stands above it.
pub struct Panel {
    pub x: Axis,
    pub y: Axis,
    pub series: Vec<Series>,
}

/// What the legend says of a look.
pub enum Entry {
    Points(Look, String),
    Box(Look, String),
    Estimate(String),
    Note(String),
}

/// Panels in rows, with one legend below them.
pub struct Plot {
    pub title: String,
    pub columns: usize,
    /// Of each panel, in pixels.
    pub height: i64,
    pub panels: Vec<Panel>,
    pub legend: Vec<Vec<Entry>>,
}

impl Plot {
    pub fn svg(&self) -> String {
        let mut out = String::new();
        write_head(&mut out, &self.title, self.total_height());
        for (index, panel) in self.panels.iter().enumerate() {
            let area = self.area(index, panel);
            write_axes(&mut out, panel, &area);
            for series in &panel.series {
                write_series(&mut out, series, &panel.series, &area);
            }
        }
        write_legend(&mut out, &self.legend, self.legend_top());
        out.push_str("</svg>\n");
        out
    }

    fn legend_top(&self) -> i64 {
        let rows = self.panels.len().div_ceil(self.columns) as i64;
        frame::HEAD + rows * self.height + 14
    }

    fn total_height(&self) -> i64 {
        self.legend_top() + self.legend.len() as i64 * frame::LEGEND_LINE + 2
    }

    /// Where a panel's points stand.
    fn area(&self, index: usize, panel: &Panel) -> Area {
        let (row, column) = ((index / self.columns) as i64, (index % self.columns) as i64);
        let width = frame::INNER / self.columns as i64;
        Area {
            left: frame::MARGIN + column * width + 34,
            right: frame::MARGIN + (column + 1) * width - 12,
            top: frame::HEAD + row * self.height + 26,
            bottom: frame::HEAD + (row + 1) * self.height - 42,
            x: (panel.x.first, panel.x.last),
            y: (panel.y.first, panel.y.last),
        }
    }
}
