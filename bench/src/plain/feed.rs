//! What page workers are given.

use super::agent::{Agent, State};
use crate::datagram::{Drawop, MEMBERS, Name, Page};

#[derive(Clone, Debug)]
pub enum PageMsg {
    Open(Page),
    Draw(Drawop),
    Left(u8),
    Close,
}

/// What the worker of one slot was given.
#[derive(Default)]
pub struct Feed {
    opened: bool,
    closed: bool,
    numbers: [u32; MEMBERS as usize],
    left: [bool; MEMBERS as usize],
}

impl Agent {
    /// The next message of a slot.
    pub fn give(&mut self, slot: usize) -> Option<PageMsg> {
        if self.feeds[slot].closed {
            return None;
        }
        let message = self.next_message(slot)?;
        let feed = &mut self.feeds[slot];
        match &message {
            PageMsg::Open(_) => feed.opened = true,
            PageMsg::Draw(drawop) => feed.numbers[usize::from(drawop.name.source)] += 1,
            PageMsg::Left(source) => feed.left[usize::from(*source)] = true,
            PageMsg::Close => feed.closed = true,
        }
        Some(message)
    }

    fn next_message(&self, slot: usize) -> Option<PageMsg> {
        let close = (self.state == State::Gone).then_some(PageMsg::Close);
        let Some(page) = self.table.pages.get(slot).copied() else {
            return close;
        };
        let feed = &self.feeds[slot];
        if !feed.opened {
            return Some(PageMsg::Open(page));
        }
        for source in 0..self.config.members {
            let given = feed.numbers[usize::from(source)];
            let row = self.table.row(slot, source);
            if given < row.released {
                let (stamp, body) = row.held(given + 1)?;
                let name = Name { source, page, number: given + 1 };
                return Some(PageMsg::Draw(Drawop { name, stamp, body: body.clone() }));
            }
            if !feed.left[usize::from(source)] && self.last_of(source, page) == Some(given) {
                return Some(PageMsg::Left(source));
            }
        }
        close
    }
}
