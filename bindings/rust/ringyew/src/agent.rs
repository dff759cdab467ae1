//! One member of a session.
#![forbid(unsafe_code)]

use crate::config::Config;
use crate::error::Error;
use crate::heard::{Heard, State, Ticked};
use crate::message::Message;
use crate::names::{Name, Page};
use crate::outstanding::Outstanding;
use crate::sys;
use std::fmt;
use std::time::Duration;

/// One member of a session.
///
/// Call [`draw`](Agent::draw), [`show`](Agent::show) and [`leave`](Agent::leave) when the user does so, and [`hear`](Agent::hear) when a
/// datagram comes. After each call ask [`next_due`](Agent::next_due) again, and [`tick`](Agent::tick) when that moment has come; then send
/// all [`datagrams`](Agent::datagrams). After each call, too, hand on the [`messages`](Agent::messages) of each slot.
///
/// An agent may move to another thread; one call of it runs at a time:
///
/// ```
/// fn is_send<T: Send>() {}
/// is_send::<ringyew::Agent>();
/// ```
///
/// ```compile_fail
/// fn is_sync<T: Sync>() {}
/// is_sync::<ringyew::Agent>();
/// ```
///
/// Dropping it frees all that it holds and sends nothing. To take leave of the others, [`leave`](Agent::leave) and tick until the state is
/// [`State::Gone`].
pub struct Agent {
    handle: sys::Handle,
}

impl Agent {
    /// Makes an agent at a moment. Members choose their waits by their seeds: give each another, or they ask and answer all at once.
    ///
    /// # Errors
    /// [`Error::Config`], [`Error::Moment`], [`Error::Memory`].
    pub fn new(config: &Config, seed: u64, now: u64) -> Result<Agent, Error> {
        let handle = sys::Handle::new(&config.raw(), seed, now).map_err(Error::of)?;
        Ok(Agent { handle })
    }

    /// Draws a stroke of at most [`BODY_MAX`](crate::BODY_MAX) bytes on a page, which enters the page table if it isn't there, and returns its name. A
    /// later tick sends it, when the rate lets it go.
    ///
    /// # Errors
    /// The first that holds: [`Error::Moment`], [`Error::Page`], [`Error::Gone`], [`Error::Leaving`], [`Error::BodyLong`],
    /// [`Error::PageLimit`], [`Error::StreamFull`]; [`Error::Memory`] may come in place of the last five.
    pub fn draw(&mut self, page: Page, body: &[u8], now: u64) -> Result<Name, Error> {
        self.handle.draw(page.raw(), body, now).map(Name::of).map_err(Error::of)
    }

    /// Whether a stroke of so many bytes, drawn at this moment, would have to wait for no other: nothing waits that goes before it, or the
    /// bucket covers all of that and the stroke.
    pub fn admits(&mut self, length: usize, now: u64) -> bool {
        self.handle.admits(length, now)
    }

    /// From which moment on [`admits`](Agent::admits) is true, if no other call comes before; `None` where something else has to go first.
    pub fn admits_from(&mut self, length: usize) -> Option<u64> {
        or_none(self.handle.admits_from(length))
    }

    /// The page of this member's own that it would begin next; `None` where the table is full or all page numbers are used.
    pub fn new_page(&mut self) -> Option<Page> {
        self.handle.new_page().map(Page::of).ok()
    }

    /// Shows a page, which enters the page table if it isn't there. Requests and repairs for it go first.
    ///
    /// # Errors
    /// The first that holds: [`Error::Moment`], [`Error::Page`], [`Error::Gone`], [`Error::PageLimit`], [`Error::Memory`].
    pub fn show(&mut self, page: Page, now: u64) -> Result<(), Error> {
        self.handle.show(page.raw(), now).map_err(Error::of)
    }

    /// Begins to leave: the member draws nothing new, and once all that it drew was sent, a tick sends its farewell.
    ///
    /// # Errors
    /// The first that holds: [`Error::Moment`], [`Error::Gone`], [`Error::Leaving`].
    pub fn leave(&mut self, now: u64) -> Result<(), Error> {
        self.handle.leave(now).map_err(Error::of)
    }

    /// Hears bytes that came from the network, whatever they are.
    ///
    /// # Errors
    /// [`Error::Moment`]; [`Error::Memory`], which only a datagram of this session can meet. What isn't heard counts as lost.
    pub fn hear(&mut self, bytes: &[u8], now: u64) -> Result<Heard, Error> {
        self.handle.hear(bytes, now).map(Heard::of).map_err(Error::of)
    }

    /// Does what is due. It drops what an earlier tick left and nobody took, as if that were lost on its way.
    ///
    /// # Errors
    /// [`Error::Moment`], [`Error::Memory`]; what an earlier tick left stays then.
    pub fn tick(&mut self, now: u64) -> Result<Ticked, Error> {
        self.handle.tick(now).map(Ticked::of).map_err(Error::of)
    }

    /// Takes the datagrams that the last tick left, one after the other. Send each to all other members, once.
    pub fn datagrams(&mut self) -> Datagrams<'_> {
        Datagrams { agent: self }
    }

    /// Takes the next datagram that the last tick left, copies it to the front of a buffer, and returns its length; `None` where there is none.
    ///
    /// # Errors
    /// [`Error::Buffer`] where it doesn't fit: it stays the next. [`DATAGRAM_MAX`](crate::DATAGRAM_MAX) bytes always do.
    pub fn next_datagram(&mut self, buffer: &mut [u8]) -> Result<Option<usize>, Error> {
        match self.handle.next_datagram(buffer) {
            (sys::OK, length) => Ok(Some(length)),
            (sys::NOTHING, _) => Ok(None),
            (sys::BUFFER, length) => Err(Error::Buffer(length)),
            (code, _) => Err(Error::of(code)),
        }
    }

    /// Takes the names that the last tick asked for, in order; for logs alone.
    pub fn requests(&mut self) -> Requests<'_> {
        Requests { agent: self }
    }

    /// Takes the names that the last tick repaired, in order; for logs alone.
    pub fn repairs(&mut self) -> Repairs<'_> {
        Repairs { agent: self }
    }

    /// The next moment at which a tick does something; `None` where the member is gone. It may be past [`MOMENT_MAX`](crate::MOMENT_MAX): then no tick
    /// comes to it.
    pub fn next_due(&mut self) -> Option<u64> {
        or_none(self.handle.next_due())
    }

    /// How long it is from a moment to the next at which a tick does something; `None` where the member is gone.
    pub fn wait(&mut self, now: u64) -> Option<Duration> {
        self.next_due().map(|due| Duration::from_micros(due.saturating_sub(now)))
    }

    /// Whether the member takes part.
    pub fn state(&mut self) -> State {
        State::of(self.handle.state())
    }

    /// The one-way distance to a member in microseconds. Timers wait for multiples of it.
    ///
    /// # Errors
    /// [`Error::Member`].
    pub fn distance(&mut self, member: u8) -> Result<u64, Error> {
        self.handle.distance(member).map_err(Error::of)
    }

    /// The greatest number that the member knows to exist of a source's strokes on a page, or 0.
    ///
    /// # Errors
    /// The first that holds: [`Error::Page`], [`Error::Member`].
    pub fn known(&mut self, page: Page, source: u8) -> Result<u32, Error> {
        self.handle.known(page.raw(), source).map_err(Error::of)
    }

    /// How many of a source's strokes on a page are missing: the member knows that they exist, and doesn't hold them.
    ///
    /// # Errors
    /// The first that holds: [`Error::Page`], [`Error::Member`].
    pub fn missing(&mut self, page: Page, source: u8) -> Result<u32, Error> {
        self.handle.missing(page.raw(), source).map_err(Error::of)
    }

    /// The number of the first missing stroke of a source on a page above a number; `None` where none is. Begin with 0 and go on with what it returns,
    /// to find all.
    ///
    /// # Errors
    /// The first that holds: [`Error::Page`], [`Error::Member`].
    pub fn next_missing(&mut self, page: Page, source: u8, after: u32) -> Result<Option<u32>, Error> {
        match self.handle.next_missing(page.raw(), source, after) {
            Ok(number) => Ok(Some(number)),
            Err(sys::NOTHING) => Ok(None),
            Err(code) => Err(Error::of(code)),
        }
    }

    /// What the member misses, when its timers expire, what waits to be sent, and whether it takes part.
    pub fn outstanding(&mut self) -> Outstanding {
        Outstanding::of(self.handle.outstanding())
    }

    /// Takes the next message of a slot, 0 to 7; `None` where there is none. Of each source the strokes come in order, each once.
    ///
    /// # Errors
    /// [`Error::Slot`]; [`Error::Memory`], and then the message is still to come.
    pub fn give(&mut self, slot: u8) -> Result<Option<Message>, Error> {
        match self.handle.give(slot) {
            Ok(message) => Ok(Some(Message::of(&message))),
            Err(sys::NOTHING) => Ok(None),
            Err(code) => Err(Error::of(code)),
        }
    }

    /// Takes the messages of a slot until there is none. After an error it may be gone on with.
    pub fn messages(&mut self, slot: u8) -> Messages<'_> {
        Messages { agent: self, slot }
    }
}

impl fmt::Debug for Agent {
    fn fmt(&self, f: &mut fmt::Formatter<'_>) -> fmt::Result {
        f.debug_struct("Agent").finish_non_exhaustive()
    }
}

pub(crate) fn or_none(moment: u64) -> Option<u64> {
    (moment != sys::NEVER).then_some(moment)
}

/// The datagrams that a tick left, as they are taken.
#[derive(Debug)]
pub struct Datagrams<'a> {
    agent: &'a mut Agent,
}

impl Iterator for Datagrams<'_> {
    type Item = Vec<u8>;

    fn next(&mut self) -> Option<Vec<u8>> {
        let (code, length) = self.agent.handle.next_datagram(&mut []);
        (code == sys::BUFFER).then(|| {
            let mut datagram = vec![0; length];
            self.agent.handle.next_datagram(&mut datagram);
            datagram
        })
    }
}

/// The names that a tick asked for, as they are taken.
#[derive(Debug)]
pub struct Requests<'a> {
    agent: &'a mut Agent,
}

impl Iterator for Requests<'_> {
    type Item = Name;

    fn next(&mut self) -> Option<Name> {
        self.agent.handle.next_request().map(Name::of)
    }
}

/// The names that a tick repaired, as they are taken.
#[derive(Debug)]
pub struct Repairs<'a> {
    agent: &'a mut Agent,
}

impl Iterator for Repairs<'_> {
    type Item = Name;

    fn next(&mut self) -> Option<Name> {
        self.agent.handle.next_repair().map(Name::of)
    }
}

/// The messages of a slot, as they are taken.
#[derive(Debug)]
pub struct Messages<'a> {
    agent: &'a mut Agent,
    slot: u8,
}

impl Iterator for Messages<'_> {
    type Item = Result<Message, Error>;

    fn next(&mut self) -> Option<Result<Message, Error>> {
        self.agent.give(self.slot).transpose()
    }
}
