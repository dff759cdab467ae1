//! How long a live member stays once its input ended: the rule of `srm_live`, `Staying` and `Lingering`.

/// In microseconds: it stays so long in any case, lingers so long at most, waits so long for what it misses, and looks so often.
const STAY: u64 = 1_000_000;
const LONGEST: u64 = 30_000_000;
const PATIENCE: u64 = 5_000_000;
const NAP: u64 = 250_000;
const LOOK: u64 = 10_000;
/// So many session messages tell of its last stroke.
const SESSIONS: u32 = 2;

/// What a member shows at the end of a turn.
#[derive(Clone, Copy, Default)]
pub struct Shown {
    /// How often another's request set repair timers.
    pub asked: u32,
    /// Whether a repair timer runs, or requests or repairs wait for the rate.
    pub is_needed: bool,
    pub missing: u32,
    /// How many session messages it sent since its last stroke.
    pub sessions: u32,
}

/// A stay that began at a moment.
pub struct Stay {
    linger: u64,
    begun: u64,
    next_look: u64,
    asked: u32,
    missing: u32,
    /// How long it had lingered when it was needed last.
    needed: u64,
}

impl Stay {
    pub fn begin(linger: u64, shown: Shown, now: u64) -> Stay {
        Stay { linger, begun: now, next_look: now, asked: shown.asked, missing: shown.missing, needed: 0 }
    }

    /// Whether the member leaves now.
    pub fn is_over(&mut self, shown: Shown, now: u64) -> bool {
        if now < self.next_look {
            return false;
        }
        let passed = now - self.begun;
        if passed < STAY {
            self.asked = shown.asked;
            self.next_look = now + (STAY - passed).min(NAP);
            return false;
        }
        self.next_look = now + LOOK;
        self.lingers_no_more(shown, passed - STAY)
    }

    fn lingers_no_more(&mut self, shown: Shown, lingered: u64) -> bool {
        if shown.is_needed || shown.asked != self.asked || shown.missing != self.missing {
            (self.asked, self.missing, self.needed) = (shown.asked, shown.missing, lingered);
        }
        let waits = if shown.missing > 0 && self.linger > 0 { self.linger.max(PATIENCE) } else { self.linger };
        let is_quiet = lingered - self.needed >= waits;
        let has_told = self.linger == 0 || shown.sessions >= SESSIONS;
        lingered >= LONGEST || is_quiet && has_told
    }
}
