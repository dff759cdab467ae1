//! Figure 5: how far the link that fails is from the source.

use crate::figure::{Figure, waits, words_of};
use crate::parallel;
use crate::plot::{Axis, Entry, Look, Panel, Plot, Series};
use crate::point::{Point, table_of};
use crate::session::Session;
use crate::shapes::{bounded, draw_nodes};
use crate::thousandths::Spread;
use crate::tree::Tree;
use srm_bench::losses::Waits;
use srm_bench::words::Pcg;

const NODES: usize = 1_000;
const MEMBERS: usize = 32;

/// Trees by the degree of their nodes, each with the greatest distance at which a link fails.
const DEGREES: [(usize, u64, Look); 3] = [(3, 14, Look::First), (4, 11, Look::Second), (8, 8, Look::Third)];

/// Sessions for each distance.
const SESSIONS: usize = 50;

/// Losses in each session, on one link.
const LOSSES: u32 = 4;

const WAITS: Waits = waits([2, 2, 1, 1]);

/// A degree, and how many links it is from the source to the far end of the link that fails.
type Run = (usize, u64);

pub fn figure(seed: u32) -> Figure {
    let runs: Vec<Run> =
        DEGREES.iter().flat_map(|&(degree, farthest, _)| (1..=farthest).map(move |hops| (degree, hops))).collect();
    let points = parallel::map(&runs, |(degree, hops)| play(seed, *degree, *hops));
    let rows: Vec<(Run, Point)> = runs.into_iter().zip(points).collect();
    let table = table_of(
        &["degree", "link"],
        rows.iter().map(|((degree, hops), point)| (vec![degree.to_string(), hops.to_string()], *point)),
    );
    Figure { name: "distance", csv: table.into_csv(), svg: Some(plot(&rows).svg()), facts: Vec::new() }
}

fn play(seed: u32, degree: usize, hops: u64) -> Point {
    let tree = bounded(NODES, degree);
    let costs = (0..SESSIONS).flat_map(|session| {
        let mut words = words_of(seed, 5, (degree * 100 + hops as usize) * SESSIONS + session);
        let (session, link) = draw_session(&tree, hops as usize, &mut words);
        session.lose(link, WAITS, LOSSES, &mut words)
    });
    Point::of(&costs.collect::<Vec<_>>())
}

/// Members are drawn until one is so far from the source. The link that fails leads to the first of these.
fn draw_session<'a>(tree: &'a Tree, hops: usize, words: &mut Pcg) -> (Session<'a>, usize) {
    loop {
        let nodes = draw_nodes(NODES, MEMBERS, words);
        let distances = tree.hops_from(nodes[0]);
        if let Some(member) = nodes.iter().position(|&node| distances[node] as usize >= hops) {
            let session = Session::new(tree, nodes);
            let link = session.path_to(member)[hops - 1];
            return (session, link);
        }
    }
}

fn plot(rows: &[(Run, Point)]) -> Plot {
    let panel = |label: &str, part: fn(&Point) -> Spread| {
        let series: Vec<Series> = DEGREES
            .iter()
            .map(|(degree, _, look)| {
                let of = rows.iter().filter(|((other, _), _)| other == degree);
                Series::Means(*look, of.map(|((_, hops), point)| (*hops, part(point))).collect())
            })
            .collect();
        Panel {
            x: Axis::whole("failed link, counted from the source", 0, 14, 2),
            y: Axis::over(label, &series),
            series,
        }
    };
    let note = format!(
        "Means and quartiles: {SESSIONS} sessions of {MEMBERS} members a point, {LOSSES} losses on one link of each, waits 2,2,1,1"
    );
    let looks = DEGREES.map(|(degree, _, look)| Entry::Points(look, format!("degree {degree}")));
    Plot {
        title: "Trees of 1,000 nodes, by how far the failed link is from the source".into(),
        columns: 3,
        height: 230,
        panels: vec![
            panel("Requests", |point| point.requests),
            panel("Repairs", |point| point.repairs),
            panel("Last delay / round trip", |point| point.delay),
        ],
        legend: vec![looks.into_iter().collect(), vec![Entry::Note(note)]],
    }
}
