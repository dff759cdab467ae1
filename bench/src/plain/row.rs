//! What is known of the numbers of one stream.

use crate::datagram::{Body, DRAWOPS};

/// So many numbers make a block.
const BLOCK: usize = 256;

/// The end of a timer that doesn't run.
pub const NEVER: u64 = u64::MAX;

/// Who asked, where nobody did.
const NOBODY: u8 = u8::MAX;

/// A request timer; the exponent stands in the lowest byte of `wait_and_exponent`.
#[derive(Clone, Copy)]
pub struct Ask {
    set: u64,
    wait_and_exponent: u64,
}

impl Ask {
    pub fn new(set: u64, wait: u64, exponent: u8) -> Ask {
        Ask { set, wait_and_exponent: wait << 8 | u64::from(exponent) }
    }

    fn wait(self) -> u64 {
        self.wait_and_exponent >> 8
    }

    fn exponent(self) -> u8 {
        self.wait_and_exponent as u8
    }

    /// The exponent when it is set again.
    pub fn next_exponent(self) -> u8 {
        (self.exponent() + 1).min(8)
    }

    pub fn end(self) -> u64 {
        self.set + self.wait()
    }

    /// Whether a request of another member sets it again.
    pub fn backs_off(self, now: u64) -> bool {
        self.exponent() == 0 || self.set + self.wait() / 2 <= now
    }
}

/// What is known of one number, in 24 bytes.
pub enum Place {
    Unknown,
    Missing(Ask),
    Held { stamp: u64, body: Body },
}

/// The places of a block; no request timer among them ends before `first`.
struct Block {
    first: u64,
    places: [Place; BLOCK],
}

impl Block {
    fn new() -> Block {
        Block { first: NEVER, places: [const { Place::Unknown }; BLOCK] }
    }

    /// Calls for the index and the timer of each that ran out, and sets what the call answers.
    fn ask_again(&mut self, now: u64, again: &mut impl FnMut(usize, Ask) -> Ask) {
        self.first = NEVER;
        for (index, place) in self.places.iter_mut().enumerate() {
            let Place::Missing(ask) = place else { continue };
            if ask.end() <= now {
                *ask = again(index, *ask);
            }
            self.first = self.first.min(ask.end());
        }
    }
}

/// What requests and repairs told of the numbers of a block; no repair timer among them ends before `first`.
struct Answers {
    first: u64,
    ends: [u64; BLOCK],
    holds: [u64; BLOCK],
    askers: [u8; BLOCK],
}

impl Answers {
    fn new() -> Answers {
        Answers { first: NEVER, ends: [NEVER; BLOCK], holds: [0; BLOCK], askers: [NOBODY; BLOCK] }
    }
}

/// A number as the place of its block and the index in it.
fn split(number: u32) -> (usize, usize) {
    let index = number as usize - 1;
    (index / BLOCK, index % BLOCK)
}

/// The number at a place and an index.
fn join(block: usize, index: usize) -> u32 {
    (block * BLOCK + index + 1) as u32
}

/// The block at a place, made where it isn't there.
fn block_at<T>(blocks: &mut Vec<Option<Box<T>>>, place: usize, new: fn() -> T) -> &mut T {
    if blocks.len() <= place {
        blocks.resize_with(place + 1, || None);
    }
    blocks[place].get_or_insert_with(|| Box::new(new()))
}

/// The numbers of one stream.
pub struct Row {
    pub known: u32,
    pub released: u32,
    /// No request timer of the stream ends before it.
    pub first_ask: u64,
    /// No repair timer of the stream ends before it.
    pub first_fix: u64,
    blocks: Vec<Option<Box<Block>>>,
    answers: Vec<Option<Box<Answers>>>,
}

impl Row {
    pub fn new() -> Row {
        Row { known: 0, released: 0, first_ask: NEVER, first_fix: NEVER, blocks: Vec::new(), answers: Vec::new() }
    }

    pub fn place(&self, number: u32) -> &Place {
        let (block, index) = split(number);
        match self.blocks.get(block) {
            Some(Some(block)) => &block.places[index],
            _ => &Place::Unknown,
        }
    }

    pub fn held(&self, number: u32) -> Option<(u64, &Body)> {
        match self.place(number) {
            Place::Held { stamp, body } => Some((*stamp, body)),
            _ => None,
        }
    }

    fn block(&mut self, place: usize) -> &mut Block {
        block_at(&mut self.blocks, place, Block::new)
    }

    fn answers(&mut self, number: u32) -> (&mut Answers, usize) {
        let (block, index) = split(number);
        (block_at(&mut self.answers, block, Answers::new), index)
    }

    /// Holds what the member itself drew.
    pub fn draw(&mut self, number: u32, stamp: u64, body: Body) {
        let (block, index) = split(number);
        self.block(block).places[index] = Place::Held { stamp, body };
        self.known = number;
        self.released = number;
    }

    /// Holds a drawop where none is held. A request timer that ran is gone with its place.
    pub fn insert(&mut self, number: u32, stamp: u64, bytes: &[u8]) {
        let (block, index) = split(number);
        let place = &mut self.block(block).places[index];
        if matches!(place, Place::Held { .. }) {
            return;
        }
        *place = Place::Held { stamp, body: Body::from(bytes) };
        while self.released < DRAWOPS && matches!(self.place(self.released + 1), Place::Held { .. }) {
            self.released += 1;
        }
    }

    pub fn set_ask(&mut self, number: u32, ask: Ask) {
        let (block, index) = split(number);
        let block = self.block(block);
        block.places[index] = Place::Missing(ask);
        block.first = block.first.min(ask.end());
        self.first_ask = self.first_ask.min(ask.end());
    }

    pub fn set_fix(&mut self, number: u32, end: u64) {
        let (answers, index) = self.answers(number);
        answers.ends[index] = end;
        answers.first = answers.first.min(end);
        self.first_fix = self.first_fix.min(end);
    }

    /// How many numbers are missing. Each has a request timer.
    pub fn missing(&self) -> u32 {
        if self.first_ask == NEVER {
            return 0;
        }
        (1..=self.known).filter(|number| matches!(self.place(*number), Place::Missing(_))).count() as u32
    }

    /// Whether a repair timer runs.
    pub fn repairs(&self) -> bool {
        let runs = |block: &Answers| block.first != NEVER && block.ends.iter().any(|end| *end != NEVER);
        self.answers.iter().flatten().any(|block| runs(block))
    }

    /// Whether a request sets a repair timer: none runs, and the name isn't held off.
    pub fn is_free(&self, number: u32, now: u64) -> bool {
        let (block, index) = split(number);
        match self.answers.get(block) {
            Some(Some(answers)) => answers.ends[index] == NEVER && answers.holds[index] <= now,
            _ => true,
        }
    }

    /// Keeps who asked first.
    pub fn note_asker(&mut self, number: u32, asker: u8) {
        let (answers, index) = self.answers(number);
        if answers.askers[index] == NOBODY {
            answers.askers[index] = asker;
        }
    }

    /// It was repaired: no timer runs, and it is held off for three distances to who asked first, or else to its source.
    pub fn repaired(&mut self, number: u32, source: u8, distances: &[u64], now: u64) {
        let (answers, index) = self.answers(number);
        answers.ends[index] = NEVER;
        let asker = if answers.askers[index] == NOBODY { source } else { answers.askers[index] };
        let until = now + 3 * distances[usize::from(asker)];
        answers.holds[index] = answers.holds[index].max(until);
    }

    /// Calls for the number and the timer of each request timer that ran out, by rising number, and sets what the call answers.
    pub fn ask_again(&mut self, now: u64, mut again: impl FnMut(u32, Ask) -> Ask) {
        if self.first_ask > now {
            return;
        }
        self.first_ask = NEVER;
        for (place, block) in self.blocks.iter_mut().enumerate() {
            let Some(block) = block else { continue };
            if block.first <= now {
                block.ask_again(now, &mut |index, ask| again(join(place, index), ask));
            }
            self.first_ask = self.first_ask.min(block.first);
        }
    }

    /// Calls for each number whose repair timer ran out, by rising number. Each of them is repaired next.
    pub fn due_fixes(&mut self, now: u64, mut due: impl FnMut(u32)) {
        if self.first_fix > now {
            return;
        }
        self.first_fix = NEVER;
        for (place, answers) in self.answers.iter_mut().enumerate() {
            let Some(answers) = answers else { continue };
            if answers.first <= now {
                answers.first = NEVER;
                for (index, end) in answers.ends.iter().enumerate() {
                    if *end <= now {
                        due(join(place, index));
                    } else {
                        answers.first = answers.first.min(*end);
                    }
                }
            }
            self.first_fix = self.first_fix.min(answers.first);
        }
    }
}
