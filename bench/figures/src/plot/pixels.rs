//! From numbers to pixels, in whole tenths of a pixel.

use crate::thousandths::Thousandths;
use std::fmt;

/// Tenths of a pixel.
#[derive(Clone, Copy, Debug, PartialEq, Eq)]
pub struct Tenths(pub i64);

impl fmt::Display for Tenths {
    fn fmt(&self, out: &mut fmt::Formatter) -> fmt::Result {
        match self.0 % 10 {
            0 => write!(out, "{}", self.0 / 10),
            part => write!(out, "{}.{part}", self.0 / 10),
        }
    }
}

/// Where the points of a panel stand, in pixels, and which numbers its edges are.
pub struct Area {
    pub left: i64,
    pub right: i64,
    pub top: i64,
    pub bottom: i64,
    pub x: (Thousandths, Thousandths),
    pub y: (Thousandths, Thousandths),
}

impl Area {
    pub fn x(&self, number: Thousandths) -> Tenths {
        Tenths(between(self.left, self.right, number, self.x))
    }

    pub fn y(&self, number: Thousandths) -> Tenths {
        Tenths(between(self.bottom, self.top, number, self.y))
    }
}

/// Where a number stands between two edges.
fn between(from: i64, to: i64, number: Thousandths, edges: (Thousandths, Thousandths)) -> i64 {
    let (first, last) = (edges.0.0 as i64, edges.1.0 as i64);
    let (part, whole) = (number.0 as i64 - first, last - first);
    let length = (to - from) * 10 * part;
    from * 10 + (2 * length + whole * length.signum()) / (2 * whole)
}
