//! What a page is given.
#![forbid(unsafe_code)]

use crate::names::{Name, Page};
use crate::sys;

/// A message of a page's feed.
#[derive(Clone, Debug, PartialEq, Eq)]
pub enum Message {
    /// The slot's page. It comes first.
    Open(Page),
    /// The next stroke of its source.
    Draw {
        /// Its name.
        name: Name,
        /// The moment at which it was drawn, in microseconds of its source's clock.
        stamp: u64,
        /// Its bytes.
        body: Vec<u8>,
    },
    /// This member left, and all that it drew on the page was given.
    Left(u8),
    /// Nothing more comes.
    Close,
}

impl Message {
    pub(crate) fn of(raw: &sys::Message) -> Message {
        match raw.kind {
            1 => Message::Open(Page::of(raw.name.page)),
            2 => Message::Draw { name: Name::of(raw.name), stamp: raw.stamp, body: raw.body[..raw.length].to_vec() },
            3 => Message::Left(raw.name.source),
            _ => Message::Close,
        }
    }
}
