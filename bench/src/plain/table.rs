//! Pages by slot, and a row for each stream.

use super::row::Row;
use crate::datagram::{Name, Page};

/// So many pages find a slot.
pub const PAGES: usize = 8;

/// The page that has the first slot from the start.
pub const FIRST_PAGE: Page = Page { creator: 0, number: 0 };

pub struct Table {
    members: usize,
    pub pages: Vec<Page>,
    /// The slots in the order of their pages.
    in_order: Vec<u8>,
    /// By slot and source.
    rows: Vec<Row>,
}

impl Table {
    pub fn new(members: u8) -> Table {
        let (pages, in_order) = (Vec::with_capacity(PAGES), Vec::with_capacity(PAGES));
        let mut table = Table { members: members.into(), pages, in_order, rows: Vec::new() };
        table.add_page(FIRST_PAGE);
        table
    }

    pub fn slot(&self, page: Page) -> Option<usize> {
        self.pages.iter().position(|other| *other == page)
    }

    /// The slot of a page for which there is room.
    pub fn slot_for(&mut self, page: Page) -> usize {
        self.slot(page).unwrap_or_else(|| self.add_page(page))
    }

    #[cold]
    fn add_page(&mut self, page: Page) -> usize {
        let slot = self.pages.len();
        self.pages.push(page);
        self.in_order.push(slot as u8);
        self.in_order.sort_unstable_by_key(|slot| self.pages[usize::from(*slot)]);
        self.rows.resize_with((slot + 1) * self.members, Row::new);
        slot
    }

    pub fn row(&self, slot: usize, source: u8) -> &Row {
        &self.rows[slot * self.members + usize::from(source)]
    }

    pub fn row_mut(&mut self, slot: usize, source: u8) -> &mut Row {
        &mut self.rows[slot * self.members + usize::from(source)]
    }

    /// Calls for each stream's source and page with its row, by source and then page.
    pub fn for_each(&self, mut call: impl FnMut(u8, Page, &Row)) {
        for source in 0..self.members {
            for slot in &self.in_order {
                let slot = usize::from(*slot);
                call(source as u8, self.pages[slot], &self.rows[slot * self.members + source]);
            }
        }
    }

    /// Calls for each stream's source and page with its row, by source and then page.
    pub fn for_each_mut(&mut self, mut call: impl FnMut(u8, Page, &mut Row)) {
        for source in 0..self.members {
            for slot in &self.in_order {
                let slot = usize::from(*slot);
                call(source as u8, self.pages[slot], &mut self.rows[slot * self.members + source]);
            }
        }
    }

    pub fn known(&self, source: u8, page: Page) -> u32 {
        match self.slot(page) {
            Some(slot) if usize::from(source) < self.members => self.row(slot, source).known,
            _ => 0,
        }
    }

    pub fn has_room(&self, page: Page) -> bool {
        self.pages.len() < PAGES || self.pages.contains(&page)
    }

    /// Whether the pages of all these find slots.
    pub fn have_room(&self, rows: &[Name]) -> bool {
        let mut more = [FIRST_PAGE; PAGES];
        let mut count = 0;
        for row in rows {
            if self.pages.contains(&row.page) || more[..count].contains(&row.page) {
                continue;
            }
            if self.pages.len() + count == PAGES {
                return false;
            }
            more[count] = row.page;
            count += 1;
        }
        true
    }
}
