//! Pages and the names of strokes.
#![forbid(unsafe_code)]

use crate::sys;
use std::fmt;

/// A page: who began it, and its number among that member's pages.
#[derive(Clone, Copy, Debug, PartialEq, Eq, PartialOrd, Ord, Hash)]
pub struct Page {
    /// 0 to 31.
    pub creator: u8,
    /// From 0.
    pub number: u16,
}

impl Page {
    /// The page that each member has from the start, in slot 0.
    pub const FIRST: Page = Page { creator: 0, number: 0 };

    pub(crate) fn of(raw: sys::Page) -> Page {
        Page { creator: raw.creator, number: raw.number }
    }

    pub(crate) fn raw(self) -> sys::Page {
        sys::Page { creator: self.creator, number: self.number }
    }
}

impl fmt::Display for Page {
    fn fmt(&self, f: &mut fmt::Formatter<'_>) -> fmt::Result {
        write!(f, "{}.{}", self.creator, self.number)
    }
}

/// The name of a stroke, which is never given to another.
#[derive(Clone, Copy, Debug, PartialEq, Eq, Hash)]
pub struct Name {
    /// The page that it is on.
    pub page: Page,
    /// Who drew it, 0 to 31.
    pub source: u8,
    /// Its number among the source's strokes on the page, from 1.
    pub number: u32,
}

impl Name {
    pub(crate) fn of(raw: sys::Name) -> Name {
        Name { page: Page::of(raw.page), source: raw.source, number: raw.number }
    }
}
