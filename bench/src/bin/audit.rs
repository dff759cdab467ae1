//! What it costs to put the journals of a session together: processor time of a process that does, beyond one that only makes them, and
//! instructions where valgrind is there. With the words of one run it makes that run alone, as `refuse-audit` does with memory refused to it.

use srm_bench::sessions::{Fault, Kind, MEMBERS, play};
use std::mem::MaybeUninit;
use std::process::{Command, ExitCode};

unsafe extern "C" {
    fn clock_gettime(clock: i32, time: *mut Time) -> i32;
}

/// As the C library has it.
#[repr(C)]
struct Time {
    seconds: i64,
    nanoseconds: i64,
}

/// The clock of the processor time of a process, on Linux.
const PROCESS_TIME: i32 = 2;

/// The least of so many times counts.
const ROUNDS: usize = 5;

/// How many entries the journals should have, about.
const SIZES: [usize; 3] = [100_000, 300_000, 1_000_000];

/// How many turns show how many entries a turn has.
const FEW: u32 = 500;

fn main() -> ExitCode {
    let words: Vec<String> = std::env::args().skip(1).collect();
    if let Some(run) = Run::read(&words) {
        return run.make();
    }
    report_all();
    ExitCode::SUCCESS
}

/// What a process does.
#[derive(Clone, Copy)]
struct Run {
    kind: Kind,
    turns: u32,
    reconciles: bool,
}

impl Run {
    /// The words by which this program is told to do it.
    fn words(self) -> [String; 3] {
        [format!("{:?}", self.kind), self.turns.to_string(), self.reconciles.to_string()]
    }

    fn read(words: &[String]) -> Option<Run> {
        let [kind, turns, reconciles] = words else { return None };
        let kind = [Kind::Mingle, Kind::Talk].into_iter().find(|one| format!("{one:?}") == *kind)?;
        Some(Run { kind, turns: turns.parse().ok()?, reconciles: reconciles.parse().ok()? })
    }

    /// Does it, and prints how many entries there are and how many seconds it took. The status is 4 where memory ran out, and 1 where the
    /// journals don't fit.
    fn make(self) -> ExitCode {
        match play(self.kind, self.turns, self.reconciles) {
            Ok(entries) => {
                println!("{entries} {}", process_seconds());
                ExitCode::SUCCESS
            }
            Err(Fault::Memory) => ExitCode::from(4),
            Err(Fault::Mismatch) => ExitCode::FAILURE,
        }
    }

    /// How many entries a process of its own has that does it, and how many seconds that took.
    fn time(self) -> (usize, f64) {
        let output = Command::new(program()).args(self.words()).output().expect("the program starts");
        let said = String::from_utf8_lossy(&output.stdout).into_owned();
        let (entries, seconds) = said.trim().split_once(' ').unwrap_or_else(|| panic!("it said: {said}"));
        (entries.parse().expect("a count"), seconds.parse().expect("a time"))
    }

    /// The instructions of a process of its own that does it, where valgrind is there.
    fn instructions(self) -> Option<f64> {
        let output = Command::new("valgrind")
            .args(["--tool=callgrind", "--callgrind-out-file=/dev/null"])
            .arg(program())
            .args(self.words())
            .output()
            .ok()?;
        let said = String::from_utf8_lossy(&output.stderr);
        said.lines().find_map(|line| line.split_once("Collected :")?.1.trim().parse().ok())
    }
}

fn program() -> std::path::PathBuf {
    std::env::current_exe().expect("the program knows where it stands")
}

fn report_all() {
    println!("{MEMBERS} members {:>13} {:>9} {:>14} {:>18}", "entries", "seconds", "to make them", "instructions each");
    for kind in [Kind::Mingle, Kind::Talk] {
        for size in SIZES {
            report(kind, size);
        }
    }
}

fn report(kind: Kind, size: usize) {
    let few = play(kind, FEW, false).expect("a session");
    let turns = size as f64 / few as f64 * f64::from(FEW);
    let making = Run { kind, turns: turns as u32, reconciles: false };
    let whole = Run { reconciles: true, ..making };
    let (made, least) = least_of(making);
    let (entries, seconds) = least_of(whole);
    assert_eq!(entries, made, "the trace has all entries and takes");
    let beyond = whole.instructions().zip(making.instructions()).map(|(all, some)| (all - some) / entries as f64);
    let each = beyond.map_or("-".to_string(), |each| format!("{each:.0}"));
    let title = format!("{kind:?}");
    println!("{title:<12} {entries:>12} {:>9.2} {least:>14.2} {each:>18}", seconds - least);
}

/// The run that took the least time of some.
fn least_of(run: Run) -> (usize, f64) {
    let rounds = (0..ROUNDS).map(|_| run.time());
    rounds.min_by(|one, other| one.1.total_cmp(&other.1)).expect("there are rounds")
}

fn process_seconds() -> f64 {
    let mut time = MaybeUninit::<Time>::uninit();
    // Sound: where the call answers 0 it wrote the time.
    let time = unsafe {
        assert_eq!(clock_gettime(PROCESS_TIME, time.as_mut_ptr()), 0);
        time.assume_init()
    };
    time.seconds as f64 + time.nanoseconds as f64 / 1e9
}
