//! Figure 6: the table of waits, which docs/PROTOCOL.md has.

use crate::cost::Cost;
use crate::figure::{Fact, Figure, spelled, waits};
use crate::parallel;
use crate::session::Session;
use crate::table::Table;
use crate::thousandths::Thousandths;
use crate::tree::Tree;
use srm_bench::losses::Waits;
use srm_bench::words::Pcg;

/// A member's leg has at least so many microseconds.
const SHORTEST_LEG: u32 = 5_000;

/// And so many more at most, but for one.
const LEGS: u64 = 20_000;

/// Groups of each size, whose legs are drawn.
const GROUPS: u32 = 10;

/// Drawops that each loses.
const LOSSES: u32 = 10;

const SIZES: [usize; 4] = [4, 8, 16, 32];

const WAITS: [Waits; 6] = [
    waits([2, 2, 1, 1]),
    waits([2, 2, 1, 2]),
    waits([2, 2, 2, 2]),
    waits([2, 4, 1, 4]),
    waits([2, 8, 1, 8]),
    waits([2, 16, 1, 16]),
];

/// Those that the page shows.
const SHOWN: [Waits; 4] = [WAITS[0], WAITS[2], WAITS[4], WAITS[5]];

/// Who misses a drawop.
#[derive(Clone, Copy, Debug, PartialEq, Eq)]
enum Missing {
    One,
    AllButTheSource,
}

#[derive(Clone, Copy)]
struct Run {
    missing: Missing,
    waits: Waits,
    size: usize,
}

/// Sums over all losses of a run.
#[derive(Clone, Copy)]
struct Sums {
    requests: u64,
    repairs: u64,
    /// Microseconds, from when the next drawop is drawn until all have the lost one.
    micros: u64,
}

/// The table, and whether the page has it.
pub fn figure(page: &str) -> Figure {
    let mut runs = Vec::new();
    for missing in [Missing::One, Missing::AllButTheSource] {
        for waits in WAITS {
            runs.extend(SIZES.map(|size| Run { missing, waits, size }));
        }
    }
    let sums = parallel::map(&runs, play);
    let rows: Vec<(Run, Sums)> = runs.into_iter().zip(sums).collect();
    let lines = lines(&rows);
    let lacking = lines.iter().filter(|line| !page.lines().any(|other| other == *line));
    let mut facts: Vec<Fact> =
        lacking.map(|line| Fact { text: format!("docs/PROTOCOL.md lacks {line}"), holds: false }).collect();
    if facts.is_empty() {
        facts.push(Fact {
            text: format!("docs/PROTOCOL.md has the {} rows of its tables of waits", lines.len()),
            holds: true,
        });
    }
    Figure { name: "waits", csv: table(&rows).into_csv(), svg: None, facts }
}

fn play(run: &Run) -> Sums {
    let costs: Vec<Cost> = (0..GROUPS).flat_map(|group| lose(run, group)).collect();
    Sums {
        requests: costs.iter().map(|cost| cost.requests).sum(),
        repairs: costs.iter().map(|cost| cost.repairs).sum(),
        micros: costs.iter().map(|cost| cost.last().gained - cost.shown).sum(),
    }
}

fn lose(run: &Run, group: u32) -> Vec<Cost> {
    let mut words = Pcg::new(group.into());
    let mut seeds = Vec::new();
    let mut legs = Vec::new();
    for _ in 0..run.size {
        seeds.push(words.word());
        legs.push((0, SHORTEST_LEG + (words.word() % LEGS) as u32));
    }
    let tree = Tree::new(&legs);
    let session = Session::new(&tree, (1..=run.size).collect());
    let link = match run.missing {
        Missing::One => run.size,
        Missing::AllButTheSource => 1,
    };
    session.lose_by(&seeds, link, run.waits, LOSSES)
}

impl Sums {
    fn each(sum: u64) -> Thousandths {
        Thousandths::of(sum, u64::from(GROUPS * LOSSES))
    }

    fn cells(self) -> [Thousandths; 3] {
        [
            Sums::each(self.requests),
            Sums::each(self.repairs),
            Thousandths::of(self.micros, 1_000 * u64::from(GROUPS * LOSSES)),
        ]
    }
}

fn table(rows: &[(Run, Sums)]) -> Table {
    let mut table = Table::new(&["missing", "waits", "members", "losses", "requests", "repairs", "milliseconds"]);
    for (run, sums) in rows {
        let missing = match run.missing {
            Missing::One => "one",
            Missing::AllButTheSource => "all but the source",
        };
        let mut cells = vec![missing.into(), spelled(run.waits), run.size.to_string(), (GROUPS * LOSSES).to_string()];
        cells.extend(sums.cells().map(|number| number.to_string()));
        table.push(&cells);
    }
    table
}

/// The rows as the page has them.
fn lines(rows: &[(Run, Sums)]) -> Vec<String> {
    let mut lines = Vec::new();
    for missing in [Missing::One, Missing::AllButTheSource] {
        for waits in SHOWN {
            let of = rows.iter().filter(|(run, _)| run.missing == missing && run.waits == waits);
            let cells: String = of.map(|(_, sums)| cell(*sums)).collect();
            lines.push(format!("| {} |{cells}", spelled(waits).replace(' ', ",")));
        }
    }
    lines
}

fn cell(sums: Sums) -> String {
    let [requests, repairs, millis] = sums.cells();
    format!(" {} / {} / {} |", tenths(requests), tenths(repairs), (millis.0 + 500) / 1_000)
}

fn tenths(number: Thousandths) -> String {
    let tenths = (number.0 + 50) / 100;
    format!("{}.{}", tenths / 10, tenths % 10)
}
