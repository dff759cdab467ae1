//! Figure 4: few members among many nodes that only forward.

use crate::figure::{Figure, waits, words_of};
use crate::parallel;
use crate::plot::{Axis, Entry, Look, Panel, Plot, Series};
use crate::point::{Point, table_of};
use crate::session::Session;
use crate::shapes::{bounded, draw_nodes};
use crate::thousandths::{Spread, Thousandths};
use srm_bench::losses::Waits;

const NODES: usize = 1_000;
const DEGREE: usize = 4;
const SIZES: [u64; 4] = [8, 16, 24, 32];

/// Sessions of each size.
const SESSIONS: usize = 20;

/// Losses in each session, on one link.
const LOSSES: u32 = 10;

const WAITS: Waits = waits([2, 2, 1, 1]);

/// Where the link stands that fails, on the path from the source to a member.
#[derive(Clone, Copy, Debug, PartialEq, Eq)]
enum Place {
    Source,
    Middle,
    Member,
}

impl Place {
    fn name(self) -> &'static str {
        match self {
            Place::Source => "next to the source",
            Place::Middle => "in the middle",
            Place::Member => "next to a member",
        }
    }

    fn of(self, path: &[usize]) -> usize {
        match self {
            Place::Source => path[0],
            Place::Middle => path[path.len() / 2],
            Place::Member => path[path.len() - 1],
        }
    }
}

const PLACES: [(Place, Look); 3] =
    [(Place::Source, Look::First), (Place::Middle, Look::Second), (Place::Member, Look::Third)];

type Run = (Place, u64);

pub fn figure(seed: u32) -> Figure {
    let runs: Vec<Run> = PLACES.iter().flat_map(|(place, _)| SIZES.map(|size| (*place, size))).collect();
    let points = parallel::map(&runs, |(place, size)| play(seed, *place, *size));
    let rows: Vec<(Run, Point)> = runs.into_iter().zip(points).collect();
    let table = table_of(
        &["link", "members"],
        rows.iter().map(|((place, size), point)| (vec![place.name().into(), size.to_string()], *point)),
    );
    Figure { name: "sparse", csv: table.into_csv(), svg: Some(plot(&rows).svg()), facts: Vec::new() }
}

/// All places have the same members, and the path to the same one of them.
fn play(seed: u32, place: Place, size: u64) -> Point {
    let tree = bounded(NODES, DEGREE);
    let costs = (0..SESSIONS).flat_map(|session| {
        let mut words = words_of(seed, 4, size as usize * SESSIONS + session);
        let session = Session::new(&tree, draw_nodes(NODES, size as usize, &mut words));
        let link = place.of(&session.path_to(1));
        session.lose(link, WAITS, LOSSES, &mut words)
    });
    Point::of(&costs.collect::<Vec<_>>())
}

fn plot(rows: &[(Run, Point)]) -> Plot {
    let panel = |label: &str, part: fn(&Point) -> Spread| {
        let series: Vec<Series> = PLACES
            .iter()
            .map(|(place, look)| {
                let of = rows.iter().filter(|((other, _), _)| other == place);
                Series::Boxes(*look, of.map(|((_, size), point)| (*size, part(point))).collect())
            })
            .collect();
        Panel { x: Axis::at("members", &SIZES, Thousandths::whole(4)), y: Axis::over(label, &series), series }
    };
    let note = format!(
        "{SESSIONS} sessions a size, {LOSSES} losses on one link of each, waits 2,2,1,1: medians, quartiles, extremes, and means as dots"
    );
    let looks = PLACES.map(|(place, look)| Entry::Box(look, place.name().into()));
    Plot {
        title: "Few members in a tree of 1,000 nodes of degree 4, by the failed link".into(),
        columns: 3,
        height: 230,
        panels: vec![
            panel("Requests", |point| point.requests),
            panel("Repairs", |point| point.repairs),
            panel("Last delay / round trip", |point| point.delay),
        ],
        legend: vec![looks.into_iter().collect(), vec![Entry::Note(note)]],
    }
}
