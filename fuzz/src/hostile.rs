//! Datagrams of whoever wants to do harm, by a seed.

use crate::random::Random;
use srm_bench::calls::SESSION;
use srm_bench::datagram::{DRAWOPS, Datagram, Drawop, Echo, MEMBERS, Name, Page};
use srm_bench::plain::Agent;

/// Who makes datagrams, and for which session.
pub struct Hostile {
    pub random: Random,
    pub me: u8,
    pub members: u8,
    /// Whether numbers may lie any distance ahead of what is known.
    pub is_far: bool,
    /// Whether what is missing may become more.
    pub may_gap: bool,
    pub now: u64,
}

impl Hostile {
    /// The next datagram, given what the agent knows.
    pub fn datagram(&mut self, agent: &Agent) -> Vec<u8> {
        match self.random.below(100) {
            0..8 => {
                let count = self.random.below(1_500) as usize;
                self.random.bytes(count)
            }
            8..15 => self.begun(),
            15..30 => self.changed(agent),
            30..38 => self.cut(agent),
            38..43 => self.joined(agent),
            43..50 => self.misspelled(agent),
            _ => self.well_formed(agent).encode(SESSION),
        }
    }

    /// A good head with any bytes behind it.
    fn begun(&mut self) -> Vec<u8> {
        let version = 1 + self.random.one_in(4) as u8;
        let kind = 1 + self.random.below(4) as u8;
        let mut bytes = vec![0x53, 0x52, version, kind, 0, 0, 0, SESSION as u8, self.random.below(40) as u8];
        let count = self.random.below(60) as usize;
        // Small numbers are more often in range.
        bytes.extend((0..count).map(|_| (self.random.word() & self.random.word() & 3) as u8));
        bytes
    }

    fn changed(&mut self, agent: &Agent) -> Vec<u8> {
        let mut bytes = self.well_formed(agent).encode(SESSION);
        for _ in 0..=self.random.below(3) {
            let at = self.random.below(bytes.len() as u64) as usize;
            bytes[at] = match self.random.below(6) {
                0 => 0,
                1 => 1,
                2 => 0x7f,
                3 => 0x80,
                4 => 0xff,
                _ => self.random.word() as u8,
            };
        }
        bytes
    }

    fn cut(&mut self, agent: &Agent) -> Vec<u8> {
        let mut bytes = self.well_formed(agent).encode(SESSION);
        bytes.truncate(self.random.below(bytes.len() as u64) as usize);
        bytes
    }

    fn joined(&mut self, agent: &Agent) -> Vec<u8> {
        let mut bytes = self.well_formed(agent).encode(SESSION);
        let count = 1 + self.random.below(40) as usize;
        match self.random.one_in(2) {
            true => bytes.extend(self.well_formed(agent).encode(SESSION)),
            false => bytes.extend(self.random.bytes(count)),
        }
        bytes
    }

    /// What has every field, but one that no datagram may have.
    fn misspelled(&mut self, agent: &Agent) -> Vec<u8> {
        let name = self.name(agent);
        let sender = self.random.below(u64::from(MEMBERS)) as u8;
        match self.random.below(5) {
            // Data of another source.
            0 => {
                let mut bytes = Datagram::Data(self.drawop(name)).encode(SESSION);
                bytes[8] = (name.source + 1) % MEMBERS;
                bytes
            }
            // A mask that names nothing, or numbers past the limit.
            1 => {
                let mut bytes = Datagram::Request { sender, name, mask: 1 }.encode(SESSION);
                bytes[20] = 0;
                bytes
            }
            2 => {
                let name = Name { number: DRAWOPS, ..name };
                Datagram::Request { sender, name, mask: 1 << self.random.below(32) }.encode(SESSION)
            }
            // Two rows of one stream.
            3 => self.session(sender, false, vec![name, name], Vec::new()).encode(SESSION),
            // A farewell with a row of another.
            _ => {
                let row = Name { source: (sender + 1) % MEMBERS, ..name };
                self.session(sender, true, vec![row], Vec::new()).encode(SESSION)
            }
        }
    }

    /// What spells a datagram of the session, true or not.
    fn well_formed(&mut self, agent: &Agent) -> Datagram {
        let name = self.name(agent);
        let sender = self.sender();
        match self.random.below(100) {
            0..35 => {
                let drawop = self.drawop(name);
                Datagram::Data(drawop)
            }
            35..60 => Datagram::Repair { sender, drawop: self.drawop(name) },
            60..70 => Datagram::Request { sender, name: self.bounded(name, agent), mask: 0 },
            70..80 => {
                let name = self.bounded(name, agent);
                let room = (DRAWOPS - name.number).min(32);
                let ahead = agent.known(name.source, name.page).saturating_sub(name.number);
                let room = if self.may_gap { room } else { room.min(ahead) };
                let mask = self.random.word() as u32 & ((1u64 << room) - 1) as u32;
                Datagram::Request { sender, name, mask }
            }
            80..99 => {
                let rows = self.rows(agent);
                let echoes = self.echoes();
                self.session(sender, false, rows, echoes)
            }
            _ => self.farewell(sender, agent),
        }
    }

    /// A farewell that says too little, enough, or too much. Some members never leave, so that there is always somebody to lie about.
    fn farewell(&mut self, sender: u8, agent: &Agent) -> Datagram {
        let lie = self.random.below(3);
        let is_believed = sender >= self.members / 2 && self.random.one_in(20);
        let mut rows: Vec<Name> = (0..12)
            .map(|place| first_pages(place))
            .map(|page| Name { source: sender, page, number: agent.known(sender, page) })
            .filter(|row| row.number > 0)
            .collect();
        rows.sort_unstable();
        if !is_believed || lie == 0 {
            rows.pop();
            return self.session(sender, !rows.is_empty() || is_believed, rows, Vec::new());
        }
        if let Some(row) = rows.last_mut().filter(|_| lie == 2) {
            let gap = self.gap();
            row.number = (row.number + gap).min(DRAWOPS);
        }
        self.session(sender, true, rows, Vec::new())
    }

    fn session(&mut self, sender: u8, farewell: bool, rows: Vec<Name>, echoes: Vec<Echo>) -> Datagram {
        let shown = self.page();
        Datagram::Session { sender, sent: self.moment(), farewell, shown, rows, echoes }
    }

    fn rows(&mut self, agent: &Agent) -> Vec<Name> {
        let most = if self.is_far && self.random.one_in(3) { 255 } else { 6 };
        let mut rows: Vec<Name> = (0..self.random.below(most)).map(|_| self.name(agent)).collect();
        for row in &mut rows {
            *row = self.bounded(*row, agent);
        }
        rows.sort_unstable();
        rows.dedup_by_key(|row| (row.source, row.page));
        rows
    }

    fn echoes(&mut self) -> Vec<Echo> {
        let mut echoes: Vec<Echo> = (0..self.random.below(6))
            .map(|_| Echo { member: self.sender(), t1: self.moment(), delay: self.delay() })
            .collect();
        echoes.sort_unstable_by_key(|echo| echo.member);
        echoes.dedup_by_key(|echo| echo.member);
        echoes
    }

    /// A moment that is past, now, or still to come.
    fn moment(&mut self) -> u64 {
        match self.random.below(4) {
            0 => self.random.below(self.now + 1),
            1 => self.now + self.random.below(1_000_000),
            2 => self.random.below(1 << 48),
            _ => self.now,
        }
    }

    fn delay(&mut self) -> u64 {
        match self.random.below(3) {
            0 => 0,
            1 => self.random.below(1_000_000),
            _ => 1 << 48,
        }
    }

    /// A member, in the roster or a little past it; sometimes the one that is attacked.
    fn sender(&mut self) -> u8 {
        match self.random.below(40) {
            0 => self.me,
            1 => self.random.below(u64::from(MEMBERS)) as u8,
            _ => self.random.below(u64::from(self.members)) as u8,
        }
    }

    /// One of twelve pages, of which a table has room for eight.
    fn page(&mut self) -> Page {
        let place = if self.random.one_in(8) { self.random.below(12) } else { self.random.below(6) };
        first_pages(place)
    }

    /// A name that is known, the next one, or one ahead.
    fn name(&mut self, agent: &Agent) -> Name {
        let (source, page) = (self.sender(), self.page());
        let known = agent.known(source, page);
        if self.is_far && self.random.one_in(2) {
            return Name { source, page, number: (known + self.gap()).min(DRAWOPS) };
        }
        let ahead = match self.random.below(10) {
            0..4 if known > 0 => return Name { source, page, number: 1 + self.random.below(u64::from(known)) as u32 },
            0..8 if known > 0 => {
                let number = known - self.random.below(u64::from(known.min(40))) as u32;
                return Name { source, page, number };
            }
            8 if self.may_gap => self.gap(),
            _ => 1,
        };
        Name { source, page, number: (known + ahead).min(DRAWOPS) }
    }

    /// The name, or where no more may be missing the last one that is known.
    fn bounded(&self, name: Name, agent: &Agent) -> Name {
        let known = agent.known(name.source, name.page).max(1);
        if self.may_gap { name } else { Name { number: name.number.min(known), ..name } }
    }

    fn gap(&mut self) -> u32 {
        match self.is_far {
            true => 1 + self.random.below(u64::from(DRAWOPS)) as u32,
            false => 1 + self.random.below(GAP.into()) as u32,
        }
    }

    /// The drawop that all agree on under this name, or now and then another one.
    fn drawop(&mut self, name: Name) -> Drawop {
        let lie = if self.random.one_in(10) { 1 + self.random.below(3) } else { 0 };
        let mut body = Random::new(u64::from(name.number) << 16 | u64::from(name.source) << 8 | u64::from(name.page.number));
        let length = if body.one_in(50) { 1_024 } else { body.below(40) };
        let mut body = body.bytes(length as usize);
        let mut stamp = u64::from(name.number);
        match lie {
            1 => stamp += 1,
            2 => body = vec![lie as u8; 1 + self.random.below(1_024) as usize],
            3 => body.push(0),
            _ => {}
        }
        body.truncate(1_024);
        Drawop { name, stamp, body: body.into() }
    }
}

/// The farthest that a number lies ahead of what is known, where numbers don't lie any distance ahead.
pub const GAP: u32 = 64;

fn first_pages(place: u64) -> Page {
    Page { creator: (place / 4) as u8, number: (place % 4) as u16 }
}
