//! What bytes spell, as far as it is looked at.

use srm_bench::calls::SESSION;
use srm_bench::datagram::{Drawop, Name, View, numbers};

/// What a datagram names, and the drawop of data or a repair.
pub struct Spelled {
    pub names: Vec<Name>,
    pub drawop: Option<Drawop>,
}

impl Spelled {
    /// None where the bytes are no datagram of the session.
    pub fn read(bytes: &[u8]) -> Option<Spelled> {
        let (names, drawop) = match View::decode(SESSION, bytes)? {
            View::Drawop { name, stamp, body, .. } => {
                let drawop = Drawop { name, stamp, body: body.into() };
                (vec![name], Some(drawop))
            }
            View::Request { name, mask, .. } => {
                let asked = numbers(name.number, 1 | u64::from(mask) << 1);
                (asked.map(|number| Name { number, ..name }).collect(), None)
            }
            View::Session { rows, .. } => (rows, None),
        };
        Some(Spelled { names, drawop })
    }
}
