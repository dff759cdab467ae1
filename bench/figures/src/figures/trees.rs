//! Figure 3: random labelled trees in which each node is a member.

use crate::figure::{Figure, spelled, waits, words_of};
use crate::parallel;
use crate::plot::{Axis, Entry, Look, Panel, Plot, Series};
use crate::point::{Point, table_of};
use crate::session::Session;
use crate::shapes::{below, labelled};
use crate::thousandths::{Spread, Thousandths};
use srm_bench::losses::Waits;

const SIZES: [u64; 8] = [4, 8, 12, 16, 20, 24, 28, 32];

/// Trees of each size.
const TREES: usize = 20;

/// Losses in each tree, on one link.
const LOSSES: u32 = 10;

/// How the waits are chosen.
#[derive(Clone, Copy, Debug, PartialEq, Eq)]
enum Choice {
    Usual,
    /// `d1` and `d2` are the logarithm of the group's size to the base 10, rounded up.
    ByLogarithm,
}

impl Choice {
    fn waits(self, members: u64) -> Waits {
        // The least power of ten that is at least the size.
        let logarithm = if members <= 10 { 1 } else { 2 };
        match self {
            Choice::Usual => waits([2, 2, 1, 1]),
            Choice::ByLogarithm => waits([2, 2, logarithm, logarithm]),
        }
    }
}

const CHOICES: [(Choice, Look); 2] = [(Choice::Usual, Look::First), (Choice::ByLogarithm, Look::Second)];

type Run = (Choice, u64);

pub fn figure(seed: u32) -> Figure {
    let runs: Vec<Run> = CHOICES.iter().flat_map(|(choice, _)| SIZES.map(|size| (*choice, size))).collect();
    let points = parallel::map(&runs, |(choice, size)| play(seed, *choice, *size));
    let rows: Vec<(Run, Point)> = runs.into_iter().zip(points).collect();
    let table = table_of(
        &["waits", "members"],
        rows.iter().map(|((choice, size), point)| (vec![spelled(choice.waits(*size)), size.to_string()], *point)),
    );
    Figure { name: "trees", csv: table.into_csv(), svg: Some(plot(&rows).svg()), facts: Vec::new() }
}

/// Both choices have the same trees, sources and links.
fn play(seed: u32, choice: Choice, size: u64) -> Point {
    let nodes = size as usize;
    let costs = (0..TREES).flat_map(|tree| {
        let mut words = words_of(seed, 3, nodes * TREES + tree);
        let tree = labelled(nodes, &mut words);
        let source = below(&mut words, nodes);
        let link = 1 + below(&mut words, nodes - 1);
        let others = (0..nodes).filter(|&node| node != source);
        let session = Session::new(&tree, std::iter::once(source).chain(others).collect());
        session.lose(link, choice.waits(size), LOSSES, &mut words)
    });
    Point::of(&costs.collect::<Vec<_>>())
}

fn plot(rows: &[(Run, Point)]) -> Plot {
    let panel = |label: &str, part: fn(&Point) -> Spread| {
        let series: Vec<Series> = CHOICES
            .iter()
            .map(|(choice, look)| {
                let of = rows.iter().filter(|((other, _), _)| other == choice);
                Series::Boxes(*look, of.map(|((_, size), point)| (*size, part(point))).collect())
            })
            .collect();
        Panel { x: Axis::at("members", &SIZES, Thousandths::whole(2)), y: Axis::over(label, &series), series }
    };
    let note = format!(
        "{TREES} trees a size, {LOSSES} losses on one link of each: medians, quartiles, extremes, and means as dots"
    );
    Plot {
        title: "Random labelled trees in which each node is a member".into(),
        columns: 1,
        height: 200,
        panels: vec![
            panel("Requests", |point| point.requests),
            panel("Repairs", |point| point.repairs),
            panel("Delay of the last member / its round trip", |point| point.delay),
        ],
        legend: vec![
            vec![
                Entry::Box(Look::First, "waits 2,2,1,1".into()),
                Entry::Box(Look::Second, "d1 = d2 = log10 of the members, rounded up".into()),
            ],
            vec![Entry::Note(note)],
        ],
    }
}
