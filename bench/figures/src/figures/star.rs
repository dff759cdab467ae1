//! Figure 2: members around a middle, all as far from it.

use crate::cost::Cost;
use crate::figure::{Figure, waits, words_of};
use crate::parallel;
use crate::plot::{Axis, Entry, Look, Panel, Plot, Series};
use crate::session::Session;
use crate::shapes::{LINK, star};
use crate::table::{Table, cells_of, columns_of};
use crate::thousandths::{Spread, Thousandths};
use srm_bench::losses::Waits;

const SIZES: [(usize, Look); 3] = [(8, Look::First), (16, Look::Second), (32, Look::Third)];

/// How wide the range is from which a wait is chosen, in distances.
const WIDTHS: [u8; 10] = [1, 2, 3, 4, 6, 8, 10, 12, 14, 16];

const LOSSES: u32 = 200;

/// Between two members, in microseconds.
const DISTANCE: u64 = 2 * LINK as u64;

/// Who chooses a wait from the range.
#[derive(Clone, Copy, Debug, PartialEq, Eq)]
enum Side {
    /// All but the source, which miss the drawop: what is counted are requests, against `c2`.
    Requests,
    /// All but one, which hold it: repairs, against `d2`.
    Repairs,
}

#[derive(Clone, Copy)]
struct Run {
    side: Side,
    members: usize,
    width: u8,
}

/// What is shown of a run.
struct Shown {
    sent: Spread,
    /// From when the range begins until the first speaks, over the length of the range.
    first: Spread,
}

pub fn figure(seed: u32) -> Figure {
    let mut runs = Vec::new();
    for side in [Side::Requests, Side::Repairs] {
        for (members, _) in SIZES {
            runs.extend(WIDTHS.map(|width| Run { side, members, width }));
        }
    }
    let jobs: Vec<(usize, Run)> = runs.iter().copied().enumerate().collect();
    let shown = parallel::map(&jobs, |(index, run)| play(seed, *index, run));
    let rows: Vec<(Run, Shown)> = runs.into_iter().zip(shown).collect();
    Figure { name: "star", csv: table(&rows).into_csv(), svg: Some(plot(&rows).svg()), facts: Vec::new() }
}

fn play(seed: u32, index: usize, run: &Run) -> Shown {
    let tree = star(run.members);
    let session = Session::new(&tree, (1..=run.members).collect());
    // Each leg has the name of its member's node: lost on the source's, all miss it; lost on the last, its member alone.
    let (link, waits) = match run.side {
        Side::Requests => (1, waits([2, run.width, 1, 1])),
        Side::Repairs => (run.members, waits([2, 2, 1, run.width])),
    };
    let costs = session.lose(link, waits, LOSSES, &mut words_of(seed, 2, index));
    Shown {
        sent: Spread::of(costs.iter().map(|cost| {
            Thousandths::whole(match run.side {
                Side::Requests => cost.requests,
                Side::Repairs => cost.repairs,
            })
        })),
        first: Spread::of(costs.iter().map(|cost| first(run, waits, cost))),
    }
}

fn first(run: &Run, waits: Waits, cost: &Cost) -> Thousandths {
    let (began, spoke, least) = match run.side {
        Side::Requests => (cost.recoveries[0].missed, cost.first_request, waits.c1),
        Side::Repairs => (cost.first_heard, cost.first_repair, waits.d1),
    };
    Thousandths::of(spoke - began - u64::from(least) * DISTANCE, u64::from(run.width) * DISTANCE)
}

impl Run {
    /// The estimate of how many speak: the first, and of the others those whose waits end within a distance behind it.
    fn estimate(&self) -> Thousandths {
        let estimate = Thousandths(1_000 + Thousandths::of(self.members as u64 - 2, self.width.into()).0);
        estimate.min(Thousandths::whole(self.members as u64 - 1))
    }

    /// How many speak on average, worked out: 1 + (G - 1) / c - 1 / c^(G - 1), for G - 1 waits that are chosen evenly from a range of c.
    fn expected(&self) -> Thousandths {
        let others = self.members as u32 - 1;
        let power = u128::from(self.width).pow(others);
        let rest = (2_000 + power) / (2 * power);
        Thousandths(1_000 + Thousandths::of(others.into(), self.width.into()).0 - rest as u64)
    }

    /// When the first speaks, on average: of G - 1 waits the least stands one part in G of the range.
    fn first_estimate(&self) -> Thousandths {
        Thousandths::of(1, self.members as u64)
    }
}

fn table(rows: &[(Run, Shown)]) -> Table {
    let (sent, first) = (columns_of("sent"), columns_of("first"));
    let mut columns = vec!["side", "members", "width", "losses"];
    columns.extend(sent.iter().map(String::as_str));
    columns.extend(["estimate", "expected"]);
    columns.extend(first.iter().map(String::as_str));
    columns.push("first_estimate");
    let mut table = Table::new(&columns);
    for (run, shown) in rows {
        let side = if run.side == Side::Requests { "requests" } else { "repairs" };
        let mut cells = vec![side.into(), run.members.to_string(), run.width.to_string(), LOSSES.to_string()];
        cells.extend(cells_of(&shown.sent));
        cells.extend([run.estimate().to_string(), run.expected().to_string()]);
        cells.extend(cells_of(&shown.first));
        cells.push(run.first_estimate().to_string());
        table.push(&cells);
    }
    table
}

fn plot(rows: &[(Run, Shown)]) -> Plot {
    let sent = |side, label: &str| panel(rows, side, label, |shown| shown.sent, Run::estimate);
    let first = |side, label: &str| panel(rows, side, label, |shown| shown.first, Run::first_estimate);
    let looks = SIZES.map(|(members, look)| Entry::Points(look, format!("{members} members")));
    let mut legend = vec![looks.into_iter().collect::<Vec<_>>()];
    legend[0].push(Entry::Estimate("estimates: 1 + (G - 2) / c2, and 1 / G".into()));
    legend.push(vec![Entry::Note(format!("Means and quartiles of {LOSSES} losses a point"))]);
    Plot {
        title: "A star with equal legs".into(),
        columns: 2,
        height: 230,
        panels: vec![
            sent(Side::Requests, "Requests, where all but the source miss it"),
            first(Side::Requests, "First request, in parts of the range"),
            sent(Side::Repairs, "Repairs, where one misses it"),
            first(Side::Repairs, "First repair, in parts of the range"),
        ],
        legend,
    }
}

fn panel(
    rows: &[(Run, Shown)],
    side: Side,
    label: &str,
    part: fn(&Shown) -> Spread,
    estimate: fn(&Run) -> Thousandths,
) -> Panel {
    let mut series = Vec::new();
    for (members, look) in SIZES {
        let of = || rows.iter().filter(|(run, _)| run.side == side && run.members == members);
        series.push(Series::Estimate(look, of().map(|(run, _)| (run.width.into(), estimate(run))).collect()));
        series.push(Series::Means(look, of().map(|(run, shown)| (run.width.into(), part(shown))).collect()));
    }
    let width = if side == Side::Requests { "c2" } else { "d2" };
    Panel { x: Axis::whole(width, 0, 16, 4), y: Axis::over(label, &series), series }
}
