//! What a figure is made of.

use srm_bench::losses::Waits;
use srm_bench::words::Pcg;

/// A figure: its points and its plot, and what is asserted of it.
pub struct Figure {
    /// Beside their folders, without an ending.
    pub name: &'static str,
    pub csv: String,
    pub svg: Option<String>,
    pub facts: Vec<Fact>,
}

/// Something that is asserted of what was simulated.
pub struct Fact {
    pub text: String,
    pub holds: bool,
}

/// Waits by their four numbers.
pub const fn waits([c1, c2, d1, d2]: [u8; 4]) -> Waits {
    Waits { c1, c2, d1, d2 }
}

/// As `--waits` has them, with no comma that would end a cell.
pub fn spelled(Waits { c1, c2, d1, d2 }: Waits) -> String {
    format!("{c1} {c2} {d1} {d2}")
}

/// The random numbers of one run of one figure: those that no other run has.
pub fn words_of(seed: u32, figure: u8, run: usize) -> Pcg {
    Pcg::new(u64::from(seed) << 32 | u64::from(figure) << 24 | run as u64)
}
