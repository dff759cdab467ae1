//! What the command line says.

use crate::ticks::Counting;
use std::env;
use std::ffi::OsString;
use std::path::PathBuf;

/// How the program is called.
pub const USAGE: &str = "\
usage: srm-bench-node PROGRAM [PEERS] [--before PROGRAM] [--ticks SHIM] [--sessions N] [--runs N] [--seconds N] [--paces N,N..]

PROGRAM is the binary of srm, PEERS the folder of NORM's peers.
  --before PROGRAM  an older binary: what a message costs is told of both, and nothing else
  --ticks SHIM    what is preloaded into members so that they count their ticks; if left out, these aren't told
  --sessions N    sessions of each size, and of strokes that are typed at once; 5 if left out
  --runs N        runs at each pace, in which losses are counted; 10 if left out
  --seconds N     seconds of such a run, also of those whose ticks are told, and seconds in which idle members are watched; 10 if left out
  --paces N,N..   strokes a second that each of three members draws in such a run; 3000,6000 if left out";

/// So many strokes a stream holds, and a live member draws all of its strokes in one.
const STREAM: usize = 65_536;

/// What is measured, and how long.
pub struct Arguments {
    pub program: PathBuf,
    pub peers: Option<PathBuf>,
    /// An older program, if it is to be measured too.
    pub before: Option<PathBuf>,
    /// How members count their ticks, if they can.
    pub counting: Option<Counting>,
    /// Sessions of each size, and of strokes that are typed at once.
    pub sessions: usize,
    /// Runs at each pace, and their seconds.
    pub runs: usize,
    pub seconds: usize,
    /// Strokes a second that each member draws in a run.
    pub paces: Vec<usize>,
}

/// Reads the words behind the program's name. Fails with what is wrong with them.
pub fn read(words: impl IntoIterator<Item = OsString>) -> Result<Arguments, String> {
    let mut words = words.into_iter();
    let mut arguments = Arguments {
        program: PathBuf::new(),
        peers: None,
        before: None,
        counting: None,
        sessions: 5,
        runs: 10,
        seconds: 10,
        paces: vec![3_000, 6_000],
    };
    let mut paths = Vec::new();
    while let Some(word) = words.next() {
        match word.to_str().filter(|word| word.starts_with("--")) {
            Some(name) => arguments.set(name, words.next())?,
            None => paths.push(PathBuf::from(word)),
        }
    }
    arguments.check_paces()?;
    let mut paths = paths.into_iter();
    arguments.program = paths.next().ok_or("PROGRAM is missing")?;
    arguments.peers = paths.next();
    match paths.next() {
        Some(path) => Err(format!("'{}' is one path too many", path.display())),
        None => Ok(arguments),
    }
}

impl Arguments {
    // Sets what an option names.
    fn set(&mut self, name: &str, value: Option<OsString>) -> Result<(), String> {
        let value = value.ok_or(format!("{name} lacks its value"))?;
        if name == "--ticks" {
            self.counting = Some(Counting {
                shim: PathBuf::from(value),
                folder: env::temp_dir(),
            });
            return Ok(());
        }
        if name == "--before" {
            self.before = Some(PathBuf::from(value));
            return Ok(());
        }
        let value = value.to_string_lossy();
        match name {
            "--sessions" => self.sessions = number(name, &value)?,
            "--runs" => self.runs = number(name, &value)?,
            "--seconds" => self.seconds = number(name, &value)?,
            "--paces" => {
                let paces = value.split(',').map(|pace| number(name, pace));
                self.paces = paces.collect::<Result<_, _>>()?;
            }
            _ => return Err(format!("there is no option '{name}'")),
        }
        Ok(())
    }

    // A run that draws more strokes than a stream holds would lack the rest.
    fn check_paces(&self) -> Result<(), String> {
        let seconds = self.seconds;
        match self.paces.iter().find(|pace| *pace * seconds > STREAM) {
            Some(pace) => Err(format!(
                "a member draws at most {STREAM} strokes, and {pace} a second for {seconds} s are more"
            )),
            None => Ok(()),
        }
    }
}

// A number from 1 to a million: more strokes a second, or seconds, no run has.
fn number(name: &str, text: &str) -> Result<usize, String> {
    match text.parse() {
        Ok(number @ 1..=1_000_000) => Ok(number),
        _ => Err(format!("{name}: '{text}' is no number from 1 to 1000000")),
    }
}
