//! How long nodes go from one tick to the next.

use std::fs;
use std::path::{Path, PathBuf};

/// Each counter's bytes.
const BYTES: usize = 4;

/// What is preloaded into members so that they count, and the folder for what they count.
#[derive(Clone)]
pub struct Counting {
    pub shim: PathBuf,
    pub folder: PathBuf,
}

impl Counting {
    /// Where the member with this number counts.
    pub fn file(&self, number: usize) -> PathBuf {
        self.folder.join(format!("ticks-{number}"))
    }
}

/// How often so many microseconds passed from a tick to the next, by their number. The last place counts all that took longer.
pub struct Ticks {
    counts: Vec<u32>,
}

impl Ticks {
    /// What members counted so far, in these files.
    pub fn read(files: &[PathBuf]) -> Result<Ticks, String> {
        let mut all = Ticks { counts: Vec::new() };
        for file in files {
            all.add(&counts_in(file)?);
        }
        Ok(all)
    }

    fn add(&mut self, counts: &[u32]) {
        self.counts.resize(self.counts.len().max(counts.len()), 0);
        for (all, count) in self.counts.iter_mut().zip(counts) {
            *all += count;
        }
    }

    /// What was counted since.
    pub fn since(mut self, before: &Ticks) -> Ticks {
        for (count, earlier) in self.counts.iter_mut().zip(&before.counts) {
            *count -= earlier;
        }
        self
    }

    pub fn count(&self) -> u64 {
        self.counts.iter().map(|count| u64::from(*count)).sum()
    }

    /// The time, in microseconds, that so many of 100 took at most.
    pub fn longest_of(&self, percent: u64) -> u64 {
        let wanted = (self.count() * percent).div_ceil(100);
        let mut seen = 0;
        for (micros, count) in self.counts.iter().enumerate() {
            seen += u64::from(*count);
            if seen >= wanted {
                return micros as u64;
            }
        }
        0
    }
}

fn counts_in(file: &Path) -> Result<Vec<u32>, String> {
    let bytes =
        fs::read(file).map_err(|error| format!("cannot read {}: {error}", file.display()))?;
    let (counts, _) = bytes.as_chunks::<BYTES>();
    Ok(counts
        .iter()
        .map(|count| u32::from_ne_bytes(*count))
        .collect())
}
