//! Figure 7: how long losses last, beside the bound of the laws of recovery.

use crate::figure::{Fact, Figure, spelled, waits, words_of};
use crate::parallel;
use crate::plot::{Axis, Entry, Look, Panel, Plot, Series};
use crate::recovered::{ALL, Bound, DRAWN, Recovered, Setting};
use crate::session::Session;
use crate::shapes::{below, chain, labelled, star};
use crate::table::{Table, cells_of, columns_of};
use crate::thousandths::{Spread, Thousandths};
use crate::timing::SECOND;
use crate::tree::Tree;
use srm_bench::words::Pcg;

/// Sessions of each shape, setting and time.
const SESSIONS: usize = 20;

/// Seconds in which the network loses.
const TIMES: [u64; 4] = [1, 2, 3, 4];

/// At least so many losses are compared with their bounds.
const LOSSES: usize = 1_000;

const SETTINGS: [(Setting, Look, &str); 3] = [
    (
        Setting {
            waits: waits([2, 2, 1, 1]),
            rate: 1_000_000,
            depth: 100_000,
            least_distance: 1,
            tick: 10_000,
            lost: 192,
        },
        Look::First,
        "waits 2,2,1,1, 1,000,000 bytes a second, a tick each 10 ms, three of four datagrams lost",
    ),
    (
        Setting {
            waits: waits([4, 4, 2, 2]),
            rate: 64_000,
            depth: 4_204,
            least_distance: 5_000,
            tick: 10_000,
            lost: 192,
        },
        Look::Second,
        "waits 4,4,2,2, 64,000 bytes a second, a tick each 10 ms, three of four datagrams lost",
    ),
    (
        Setting { waits: waits([2, 2, 2, 2]), rate: 32_000, depth: 1_051, least_distance: 1, tick: 20_000, lost: ALL },
        Look::Third,
        "waits 2,2,2,2, 32,000 bytes a second, a tick each 20 ms, all datagrams lost",
    ),
];

/// Where members stand. Each node is a member, but for the middle of a star.
#[derive(Clone, Copy, Debug, PartialEq, Eq)]
enum Shape {
    Chain,
    Star,
    Tree,
}

impl Shape {
    fn name(self) -> &'static str {
        match self {
            Shape::Chain => "chain",
            Shape::Star => "star",
            Shape::Tree => "tree",
        }
    }

    fn members(self) -> usize {
        match self {
            Shape::Chain => 8,
            Shape::Star => 16,
            Shape::Tree => 24,
        }
    }

    /// A link of a star takes 20 ms, others take 5.
    fn tree(self, words: &mut Pcg) -> Tree {
        match self {
            Shape::Chain => chain(self.members()).slower(5),
            Shape::Star => star(self.members()).slower(20),
            Shape::Tree => labelled(self.members(), words).slower(5),
        }
    }

    /// The nodes of the members, the source first. It is any.
    fn nodes(self, words: &mut Pcg) -> Vec<usize> {
        let first = usize::from(self == Shape::Star);
        let mut nodes: Vec<usize> = (first..first + self.members()).collect();
        nodes.swap(0, below(words, self.members()));
        nodes
    }
}

const SHAPES: [Shape; 3] = [Shape::Chain, Shape::Star, Shape::Tree];

/// Sessions that are alike but for their source, the link that fails and all random numbers.
#[derive(Clone, Copy)]
struct Run {
    shape: Shape,
    /// Its place among the settings.
    setting: usize,
    seconds: u64,
}

impl Run {
    fn setting(&self) -> &'static Setting {
        &SETTINGS[self.setting].0
    }
}

pub fn figure(seed: u32) -> Figure {
    let mut runs = Vec::new();
    for shape in SHAPES {
        for setting in 0..SETTINGS.len() {
            runs.extend(TIMES.map(|seconds| Run { shape, setting, seconds }));
        }
    }
    let jobs: Vec<(usize, Run)> = runs.iter().copied().enumerate().collect();
    let played = parallel::map(&jobs, |(index, run)| play(seed, *index, run));
    let rows: Vec<(Run, Vec<Recovered>)> = runs.into_iter().zip(played).collect();
    Figure { name: "recovery", csv: table(&rows).into_csv(), svg: Some(plot(&rows).svg()), facts: facts(&rows) }
}

/// The sessions of a run in which a drawop was lost.
fn play(seed: u32, index: usize, run: &Run) -> Vec<Recovered> {
    let sessions = (0..SESSIONS).map(|session| {
        let mut words = words_of(seed, 7, index * SESSIONS + session);
        let tree = run.shape.tree(&mut words);
        let session = Session::new(&tree, run.shape.nodes(&mut words));
        let link = 1 + below(&mut words, tree.nodes() - 1);
        Recovered::of(&session, link, run.setting(), run.seconds * SECOND, &mut words)
    });
    sessions.filter(|recovered| recovered.losses > 0).collect()
}

fn facts(rows: &[(Run, Vec<Recovered>)]) -> Vec<Fact> {
    let all: Vec<&Recovered> = rows.iter().flat_map(|(_, sessions)| sessions).collect();
    let losses: usize = all.iter().map(|recovered| recovered.losses).sum();
    let above = |bound: fn(&Recovered) -> u64| -> usize {
        let late = all.iter().filter(|recovered| !recovered.is_whole_within(bound(recovered)));
        late.map(|recovered| recovered.losses).sum()
    };
    let (above_bound, above_closer) = (above(|recovered| recovered.bound.whole()), above(Recovered::closer_bound));
    vec![
        Fact {
            text: format!("recovery: {losses} losses in {} sessions, at least {LOSSES}", all.len()),
            holds: losses >= LOSSES,
        },
        Fact {
            text: format!("recovery: {above_bound} of them last longer than the bound of their settings"),
            holds: above_bound == 0,
        },
        Fact {
            text: format!("recovery: {above_closer} of them last longer than that with the waits that timers had"),
            holds: above_closer == 0,
        },
        Fact {
            text: "recovery: timers, hold-offs and buckets keep to the terms of each bound".into(),
            holds: all.iter().all(|recovered| recovered.is_met),
        },
    ]
}

/// One that never came counts as the longest that can be written.
fn seconds(micros: Option<u64>) -> Thousandths {
    micros.map_or(Thousandths::whole(999_999), |micros| Thousandths::of(micros, SECOND))
}

fn wholes(sessions: &[Recovered]) -> Spread {
    Spread::of(sessions.iter().map(|recovered| seconds(recovered.whole)))
}

/// How much of a bound each session took.
fn parts(sessions: &[Recovered], bound: fn(&Recovered) -> u64) -> Spread {
    Spread::of(sessions.iter().map(|recovered| {
        recovered.whole.map_or(Thousandths::whole(999_999), |whole| Thousandths::of(whole, bound(recovered)))
    }))
}

/// The least bound of some sessions, which is the one that is drawn.
fn least_bound(sessions: &[Recovered]) -> Bound {
    let bounds = sessions.iter().map(|recovered| recovered.bound);
    bounds.min_by_key(Bound::whole).expect("a session lost a drawop")
}

fn table(rows: &[(Run, Vec<Recovered>)]) -> Table {
    let spreads: Vec<String> = ["whole", "part", "closer_part"].iter().flat_map(|name| columns_of(name)).collect();
    let mut columns = vec!["shape", "members", "waits", "rate", "depth", "least_distance", "tick", "lost", "seconds"];
    columns.extend(["sessions", "losses"]);
    columns.extend(spreads.iter().map(String::as_str));
    columns.extend(["delay", "emptying", "repair_wait", "hold_off", "request_wait", "interval"]);
    columns.extend(["settling_time", "knowing_time", "repair_time", "least_bound"]);
    let mut table = Table::new(&columns);
    for (run, sessions) in rows {
        let Setting { waits, rate, depth, least_distance, tick, lost } = *run.setting();
        let mut cells = vec![run.shape.name().into(), run.shape.members().to_string(), spelled(waits)];
        cells.extend([rate, depth, least_distance, tick, lost].map(|number| number.to_string()));
        let losses: usize = sessions.iter().map(|recovered| recovered.losses).sum();
        cells.extend([run.seconds.to_string(), sessions.len().to_string(), losses.to_string()]);
        cells.extend(cells_of(&wholes(sessions)));
        cells.extend(cells_of(&parts(sessions, |recovered| recovered.bound.whole())));
        cells.extend(cells_of(&parts(sessions, Recovered::closer_bound)));
        cells.extend(terms(&least_bound(sessions)).map(|term| term.to_string()));
        table.push(&cells);
    }
    table
}

/// The terms of a bound and their sums, in microseconds, in the order of the columns.
fn terms(bound: &Bound) -> [u64; 10] {
    let Bound { timing, interval, request_wait } = bound;
    [
        timing.delay,
        timing.emptying,
        timing.repair_wait,
        timing.hold_off,
        *request_wait,
        *interval,
        timing.settling_time(),
        bound.known(),
        timing.repair_time(*request_wait),
        bound.whole(),
    ]
}

fn plot(rows: &[(Run, Vec<Recovered>)]) -> Plot {
    let mut legend: Vec<Vec<Entry>> =
        SETTINGS.iter().map(|(_, look, text)| vec![Entry::Box(*look, (*text).into())]).collect();
    legend.push(vec![Entry::Estimate(
        "above: the least of the bounds of these sessions; below: the bound with the waits that timers had".into(),
    )]);
    let note = format!("{SESSIONS} sessions each, in which any member draws {DRAWN} drawops and any link fails");
    legend.push(vec![Entry::Note(note)]);
    legend.push(vec![Entry::Note("Medians, quartiles, extremes, and means as dots".into())]);
    Plot {
        title: "From when the network delivers again until all is whole".into(),
        columns: 3,
        height: 230,
        panels: SHAPES
            .iter()
            .map(|shape| seconds_panel(rows, *shape))
            .chain(SHAPES.map(|shape| parts_panel(rows, shape)))
            .collect(),
        legend,
    }
}

/// A panel with a series of boxes and one dashed line for each setting: of the sessions of each time.
fn panel(
    rows: &[(Run, Vec<Recovered>)],
    shape: Shape,
    label: &str,
    boxed: fn(&[Recovered]) -> Spread,
    dashed: fn(&[Recovered]) -> Thousandths,
) -> Panel {
    let mut series = Vec::new();
    for (setting, (_, look, _)) in SETTINGS.iter().enumerate() {
        let of = || rows.iter().filter(move |(run, _)| (run.shape, run.setting) == (shape, setting));
        series.push(Series::Estimate(*look, of().map(|(run, all)| (run.seconds, dashed(all))).collect()));
        series.push(Series::Boxes(*look, of().map(|(run, all)| (run.seconds, boxed(all))).collect()));
    }
    Panel { x: Axis::at("seconds of losing", &TIMES, Thousandths(500)), y: Axis::over(label, &series), series }
}

fn seconds_panel(rows: &[(Run, Vec<Recovered>)], shape: Shape) -> Panel {
    let label = format!("Seconds, {} of {} members", shape.name(), shape.members());
    panel(rows, shape, &label, wholes, |all| seconds(Some(least_bound(all).whole())))
}

fn parts_panel(rows: &[(Run, Vec<Recovered>)], shape: Shape) -> Panel {
    let parts = |all: &[Recovered]| parts(all, Recovered::closer_bound);
    panel(rows, shape, "Part of the closer bound", parts, |_| Thousandths::whole(1))
}
