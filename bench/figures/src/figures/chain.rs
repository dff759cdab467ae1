//! Figure 1: members in a row, each next to the other.

use crate::figure::{Fact, Figure, spelled, waits, words_of};
use crate::parallel;
use crate::plot::{Axis, Entry, Look, Panel, Plot, Series};
use crate::point::{Point, table_of};
use crate::session::Session;
use crate::shapes::chain;
use crate::thousandths::{Spread, Thousandths};
use srm_bench::losses::Waits;

const MEMBERS: usize = 32;

/// With these nothing is left to chance.
const FIXED: Waits = waits([1, 0, 1, 0]);

/// Nor with these, and who asked hears the repair before it would ask again.
const PATIENT: Waits = waits([2, 0, 1, 0]);

const USUAL: Waits = waits([2, 2, 1, 1]);

/// Losses on each link with the usual waits.
const LOSSES: u32 = 100;

/// One link that fails.
#[derive(Clone, Copy)]
struct Run {
    waits: Waits,
    /// The node at which the source stands.
    source: usize,
    /// How many links it is from the source to the far end of the link that fails, towards the last node or, where the source stands in the
    /// middle, also towards the first.
    hops: usize,
    is_towards_first: bool,
    losses: u32,
}

pub fn figure(seed: u32) -> Figure {
    let runs = runs();
    let jobs: Vec<(usize, Run)> = runs.iter().copied().enumerate().collect();
    let points = parallel::map(&jobs, |(index, run)| play(seed, *index, run));
    let rows: Vec<(Run, Point)> = runs.into_iter().zip(points).collect();
    let table = table_of(
        &["waits", "source", "towards", "link"],
        rows.iter().map(|(run, point)| {
            let towards = if run.is_towards_first { "first" } else { "last" };
            (vec![spelled(run.waits), run.source.to_string(), towards.into(), run.hops.to_string()], *point)
        }),
    );
    let facts = vec![deterministic(&rows), first_link(&rows), patient(&rows)];
    Figure { name: "chain", csv: table.into_csv(), svg: Some(plot(&rows).svg()), facts }
}

fn runs() -> Vec<Run> {
    let mut runs = Vec::new();
    for (waits, losses) in [(FIXED, 1), (PATIENT, 1), (USUAL, LOSSES)] {
        for source in [0, MEMBERS / 2] {
            if source > 0 && losses > 1 {
                continue;
            }
            let run = |is_towards_first| move |hops| Run { waits, source, hops, is_towards_first, losses };
            runs.extend((1..MEMBERS - source).map(run(false)));
            runs.extend((1..=source).map(run(true)));
        }
    }
    runs
}

fn play(seed: u32, index: usize, run: &Run) -> Point {
    let tree = chain(MEMBERS);
    let others = (0..MEMBERS).filter(|&node| node != run.source);
    let session = Session::new(&tree, std::iter::once(run.source).chain(others).collect());
    // A link has the name of its end that is farther from node 0.
    let link = if run.is_towards_first { run.source - run.hops + 1 } else { run.source + run.hops };
    Point::of(&session.lose(link, run.waits, run.losses, &mut words_of(seed, 1, index)))
}

/// Whether all that is spread is one number.
fn is_always(spread: &Spread, number: u64) -> bool {
    (spread.least, spread.most) == (Thousandths::whole(number), Thousandths::whole(number))
}

fn costs(point: &Point, requests: u64, repairs: u64) -> bool {
    is_always(&point.requests, requests) && is_always(&point.repairs, repairs)
}

fn fact(rows: &[(Run, Point)], text: &str, is_meant: impl Fn(&Run) -> bool, requests: u64) -> Fact {
    let meant: Vec<&Point> = rows.iter().filter(|(run, _)| is_meant(run)).map(|(_, point)| point).collect();
    let holds = !meant.is_empty() && meant.iter().all(|point| costs(point, requests, 1));
    Fact { text: format!("{text} ({} links)", meant.len()), holds }
}

fn deterministic(rows: &[(Run, Point)]) -> Fact {
    let text = "chain, waits 1,0,1,0: one request and one repair, whatever link fails but one next to the source";
    fact(rows, text, |run| run.waits == FIXED && run.hops > 1, 1)
}

fn first_link(rows: &[(Run, Point)]) -> Fact {
    let text = "chain, waits 1,0,1,0: two requests and one repair where a link next to the source fails";
    fact(rows, text, |run| run.waits == FIXED && run.hops == 1, 2)
}

fn patient(rows: &[(Run, Point)]) -> Fact {
    let text = "chain, waits 2,0,1,0: one request and one repair, whatever link fails";
    fact(rows, text, |run| run.waits == PATIENT, 1)
}

fn plot(rows: &[(Run, Point)]) -> Plot {
    let panel = |label: &str, part: fn(&Point) -> &Spread| {
        let of = |waits: Waits| rows.iter().filter(move |(run, _)| run.waits == waits && run.source == 0);
        let means = of(USUAL).map(|(run, point)| (run.hops as u64, *part(point))).collect();
        let line = of(FIXED).map(|(run, point)| (run.hops as u64, part(point).mean)).collect();
        let series = vec![Series::Means(Look::Second, means), Series::Line(Look::First, line)];
        Panel {
            x: Axis::whole("failed link, counted from the source", 0, MEMBERS as u64, 8),
            y: Axis::over(label, &series),
            series,
        }
    };
    Plot {
        title: format!("A chain of {MEMBERS} members"),
        columns: 3,
        height: 230,
        panels: vec![
            panel("Requests", |point| &point.requests),
            panel("Repairs", |point| &point.repairs),
            panel("Last delay / round trip", |point| &point.delay),
        ],
        legend: vec![vec![
            Entry::Points(Look::First, "waits 1,0,1,0: always the same".into()),
            Entry::Points(Look::Second, format!("waits 2,2,1,1: mean and quartiles of {LOSSES} losses")),
        ]],
    }
}
