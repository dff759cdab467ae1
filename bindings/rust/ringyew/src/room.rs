//! What the members of a session have in common.
#![forbid(unsafe_code)]

use crate::config::Config;
use crate::error::Error;
use crate::guard::Guard;
use crate::sys;
use std::ffi::CString;
use std::fmt;
use std::time::Duration;

/// What the members of a session have in common: the session, the key, names and addresses, and settings. `srm room new` writes its text.
///
/// A room may move to another thread; one call of it runs at a time.
pub struct Room {
    handle: sys::RoomHandle,
}

impl Room {
    /// Reads a room from TOML in UTF-8, of at most [`ROOM_TEXT_MAX`](crate::ROOM_TEXT_MAX) bytes.
    ///
    /// # Errors
    /// [`RoomError::Fault`] where the text is no room, [`RoomError::Memory`].
    pub fn read(text: &[u8]) -> Result<Room, RoomError> {
        match sys::RoomHandle::read(text) {
            Ok(handle) => Ok(Room { handle }),
            Err((sys::FAULT, fault)) => Err(RoomError::Fault(RoomFault::of(&fault))),
            Err(_) => Err(RoomError::Memory),
        }
    }

    /// How many members there are, 1 to 32.
    pub fn members(&mut self) -> u8 {
        self.handle.members() as u8
    }

    /// The place of a member, by its name or by the place itself as digits; `None` where the room has no such member. A member's place is its `me`.
    pub fn find(&mut self, who: &str) -> Option<u8> {
        let who = CString::new(who).ok()?;
        self.handle.find(&who).map(|place| place as u8).ok()
    }

    /// The name of the member at a place.
    ///
    /// # Errors
    /// [`Error::Member`] where the room has no such member.
    pub fn name(&mut self, place: u8) -> Result<String, Error> {
        self.handle.name(place.into()).map(text).map_err(Error::of)
    }

    /// The address of the member at a place: `IPv4:port`, `[IPv6]:port` or `host:port`, as the room has it.
    ///
    /// # Errors
    /// [`Error::Member`] where the room has no such member.
    pub fn address(&mut self, place: u8) -> Result<String, Error> {
        self.handle.address(place.into()).map(text).map_err(Error::of)
    }

    /// The settings of the agent of the member at a place. [`Agent::new`](crate::Agent::new) never refuses them.
    ///
    /// # Errors
    /// [`Error::Member`] where the room has no such member.
    pub fn config(&mut self, me: u8) -> Result<Config, Error> {
        self.handle.config(me.into()).map(Config::of).map_err(Error::of)
    }

    /// How long a member stays, after its user is done, for others that miss what it holds: until nobody asked for anything for so long.
    pub fn linger(&mut self) -> Duration {
        Duration::from_micros(self.handle.linger().into())
    }

    /// How many strokes a member may miss at once, 1 to 16,777,216. The library sets no such bound: who wants one looks at
    /// [`Outstanding::missing`](crate::Outstanding::missing).
    pub fn most_missing(&mut self) -> u32 {
        self.handle.most_missing()
    }

    /// Makes the guard of the member at a place, as [`Guard::new`] does, by the room's key.
    ///
    /// # Errors
    /// [`Error::Member`] where the room has no such member; [`Error::Memory`].
    pub fn guard(&mut self, me: u8, start: u64) -> Result<Guard, Error> {
        self.handle.guard(me.into(), start).map(Guard::of).map_err(Error::of)
    }
}

impl fmt::Debug for Room {
    fn fmt(&self, f: &mut fmt::Formatter<'_>) -> fmt::Result {
        f.debug_struct("Room").finish_non_exhaustive()
    }
}

fn text(bytes: Vec<u8>) -> String {
    String::from_utf8_lossy(&bytes).into_owned()
}

/// Why there is no room.
#[derive(Clone, Debug, PartialEq, Eq)]
pub enum RoomError {
    /// The text is no room; its first fault.
    Fault(RoomFault),
    /// Out of memory.
    Memory,
}

impl fmt::Display for RoomError {
    fn fmt(&self, f: &mut fmt::Formatter<'_>) -> fmt::Result {
        match self {
            RoomError::Fault(fault) => fault.fmt(f),
            RoomError::Memory => Error::Memory.fmt(f),
        }
    }
}

impl std::error::Error for RoomError {}

/// The first fault of a text that is no room. As text it is one line of English, which says what to write instead.
#[derive(Clone, Debug, PartialEq, Eq)]
pub struct RoomFault {
    /// What it is.
    pub kind: RoomFaultKind,
    /// The line that it is in, from 1, where one shows it.
    pub line: Option<usize>,
    text: String,
}

impl RoomFault {
    fn of(raw: &sys::RoomFault) -> RoomFault {
        RoomFault { kind: RoomFaultKind::of(raw.kind), line: (raw.line != 0).then_some(raw.line), text: sys::text_of(raw) }
    }
}

impl fmt::Display for RoomFault {
    fn fmt(&self, f: &mut fmt::Formatter<'_>) -> fmt::Result {
        f.write_str(&self.text)
    }
}

/// What is wrong with a text that is no room.
#[derive(Clone, Copy, Debug, PartialEq, Eq, Hash)]
#[non_exhaustive]
pub enum RoomFaultKind {
    /// It is no UTF-8, or too long.
    NoText,
    /// It is no TOML.
    NotToml,
    /// A key lacks.
    Lacks,
    /// What stands at a key isn't of its kind, or out of its range.
    Wrong,
    /// The key of the session is too short or too long.
    KeyLength,
    /// There is no member.
    NoMember,
    /// There are more than 32 members.
    TooMany,
    /// A name isn't 1 to 40 characters without space, control character or `=`, or is a number.
    Name,
    /// An address has no form that a room takes, or no port.
    Address,
    /// Two members have one name.
    NameTwice,
    /// Two members have one address.
    AddressTwice,
    /// There is a key that isn't known.
    Unknown,
    /// A number that this version doesn't know.
    Other(u8),
}

impl RoomFaultKind {
    fn of(number: u8) -> RoomFaultKind {
        match number {
            1 => RoomFaultKind::NoText,
            2 => RoomFaultKind::NotToml,
            3 => RoomFaultKind::Lacks,
            4 => RoomFaultKind::Wrong,
            5 => RoomFaultKind::KeyLength,
            6 => RoomFaultKind::NoMember,
            7 => RoomFaultKind::TooMany,
            8 => RoomFaultKind::Name,
            9 => RoomFaultKind::Address,
            10 => RoomFaultKind::NameTwice,
            11 => RoomFaultKind::AddressTwice,
            12 => RoomFaultKind::Unknown,
            other => RoomFaultKind::Other(other),
        }
    }
}
