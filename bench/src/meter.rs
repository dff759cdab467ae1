//! What a run costs.

use crate::calls::Calls;
use crate::moments;
use crate::workload::{SETUP, workloads};
use std::hint::black_box;
use std::process::Command;
use std::time::{Duration, Instant};

/// The least of so many times counts.
const ROUNDS: usize = 25;

/// Whose calls are made.
#[derive(Clone, Copy, Debug, PartialEq, Eq)]
pub enum Agent {
    Proved,
    Plain,
}

/// What is run, in a process of its own where instructions are counted.
#[derive(Clone, Copy)]
pub enum Run {
    /// A workload by its place; whole, or with what is measured resting.
    Calls { place: usize, agent: Agent, rests: bool },
    /// Moments of so many names; cleared and set, or only found.
    Moments { names: u32, sets: bool },
}

/// What is ready to run.
enum Ready {
    Calls(Calls, Agent),
    Moments { names: u32, sets: bool },
}

impl Run {
    /// The words by which this program is told to run it.
    fn words(self) -> Vec<String> {
        match self {
            Run::Calls { place, agent, rests } => vec![place.to_string(), format!("{agent:?}"), rests.to_string()],
            Run::Moments { names, sets } => vec![names.to_string(), sets.to_string()],
        }
    }

    /// What the words tell to run.
    pub fn read(words: &[String]) -> Option<Run> {
        match words {
            [place, agent, rests] => {
                let agent = [Agent::Proved, Agent::Plain].into_iter().find(|one| format!("{one:?}") == *agent)?;
                Some(Run::Calls { place: place.parse().ok()?, agent, rests: rests.parse().ok()? })
            }
            [names, sets] => Some(Run::Moments { names: names.parse().ok()?, sets: sets.parse().ok()? }),
            _ => None,
        }
    }

    fn ready(self) -> Ready {
        match self {
            Run::Calls { place, agent, rests } => {
                let [whole, resting] = workloads()[place].both();
                Ready::Calls(if rests { resting } else { whole }, agent)
            }
            Run::Moments { names, sets } => Ready::Moments { names, sets },
        }
    }

    pub fn make(self) {
        self.ready().make();
    }
}

impl Ready {
    fn make(&self) {
        match self {
            Ready::Calls(calls, Agent::Proved) => {
                black_box(calls.proved(SETUP, &mut []));
            },
            Ready::Calls(calls, Agent::Plain) => {
                black_box(calls.plain(SETUP, false));
            }
            Ready::Moments { names, sets } => {
                black_box(moments::turn(*names, *sets));
            }
        }
    }

    fn least_time(&self) -> Duration {
        let time = |_| {
            let start = Instant::now();
            self.make();
            start.elapsed()
        };
        (0..ROUNDS).map(time).min().unwrap_or_default()
    }
}

/// How costs are measured.
#[derive(Clone, Copy)]
pub enum Meter {
    Instructions,
    Nanoseconds,
}

impl Meter {
    /// Instructions where valgrind is there, else times.
    pub fn find() -> Meter {
        match Command::new("valgrind").arg("--version").output() {
            Ok(output) if output.status.success() => Meter::Instructions,
            _ => Meter::Nanoseconds,
        }
    }

    pub fn unit(self) -> &'static str {
        match self {
            Meter::Instructions => "instructions",
            Meter::Nanoseconds => "nanoseconds, the least of 25 rounds",
        }
    }

    /// What one run costs beyond another.
    pub fn beyond(self, run: Run, less: Run) -> f64 {
        match self {
            Meter::Instructions => instructions(run) - instructions(less),
            Meter::Nanoseconds => {
                run.ready().least_time().saturating_sub(less.ready().least_time()).as_nanos() as f64
            }
        }
    }
}

/// The instructions of a process that makes one run.
fn instructions(run: Run) -> f64 {
    let program = std::env::current_exe().expect("the program knows where it stands");
    let output = Command::new("valgrind")
        .args(["--tool=callgrind", "--callgrind-out-file=/dev/null"])
        .arg(program)
        .args(run.words())
        .output()
        .expect("valgrind starts");
    let said = String::from_utf8_lossy(&output.stderr);
    let collected = said.lines().find_map(|line| line.split_once("Collected :")?.1.trim().parse().ok());
    collected.unwrap_or_else(|| panic!("callgrind counts instructions, and said: {said}"))
}
