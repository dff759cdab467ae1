//! Where figures stand, and what is said of them.

use crate::figure::Figure;
use std::fs;
use std::path::{Path, PathBuf};
use std::process::ExitCode;

/// What is done with figures.
#[derive(Clone, Copy, Debug, PartialEq, Eq)]
pub enum Way {
    Write,
    /// They are compared with what stands there, byte for byte.
    Compare,
}

/// Prints a line for each file and each fact, and counts them.
pub struct Report {
    top: PathBuf,
    way: Way,
    passed: u32,
    failed: u32,
}

impl Report {
    pub fn new(top: &Path, way: Way) -> Report {
        Report { top: top.into(), way, passed: 0, failed: 0 }
    }

    pub fn add(&mut self, figure: &Figure) {
        for fact in &figure.facts {
            self.say(&fact.text, fact.holds.then_some("holds").ok_or("doesn't hold".into()));
        }
        self.file(&format!("bench/figures/stored/{}.csv", figure.name), &figure.csv);
        if let Some(svg) = &figure.svg {
            self.file(&format!("docs/pictures/figures/{}.svg", figure.name), svg);
        }
    }

    /// Says how many passed. The status is 1 where any failed.
    pub fn end(&self) -> ExitCode {
        println!("{} passed, {} failed", self.passed, self.failed);
        ExitCode::from(u8::from(self.failed > 0))
    }

    fn file(&mut self, name: &str, text: &str) {
        let path = self.top.join(name);
        let outcome = match self.way {
            Way::Write => write(&path, text).map(|()| "written").map_err(|error| error.to_string()),
            Way::Compare => compare(&path, text).map(|()| "the same"),
        };
        self.say(name, outcome);
    }

    fn say(&mut self, what: &str, outcome: Result<&str, String>) {
        match outcome {
            Ok(word) => {
                self.passed += 1;
                println!("{what}: {word}");
            }
            Err(why) => {
                self.failed += 1;
                println!("{what}: FAILED: {why}");
            }
        }
    }
}

fn write(path: &Path, text: &str) -> std::io::Result<()> {
    if let Some(folder) = path.parent() {
        fs::create_dir_all(folder)?;
    }
    fs::write(path, text)
}

fn compare(path: &Path, text: &str) -> Result<(), String> {
    let stored = fs::read_to_string(path).map_err(|error| error.to_string())?;
    if stored == text {
        return Ok(());
    }
    let line = stored.lines().zip(text.lines()).take_while(|(one, other)| one == other).count() + 1;
    Err(format!("another from line {line} on; bench/figures/run writes it anew"))
}
