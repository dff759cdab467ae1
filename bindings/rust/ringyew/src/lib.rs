//! One member of a session of Scalable Reliable Multicast: a proved state machine, without clock, socket or thread.
//!
//! What a member draws goes to all others in datagrams that may be lost, doubled or reordered. A receiver requests what it misses, and
//! any member that holds it repairs. You hand in strokes, datagrams and moments, and do what comes out:
//!
//! ```
//! use ringyew::{Agent, Config, Page};
//!
//! # fn main() -> Result<(), ringyew::Error> {
//! let mut drawer = Agent::new(&Config::new(0, 2, 7), 0, 0)?;
//! let mut listener = Agent::new(&Config::new(1, 2, 7), 1, 0)?;
//!
//! drawer.draw(Page::FIRST, b"a line", 0)?;
//! drawer.tick(0)?; // when `next_due` says
//! for datagram in drawer.datagrams() {
//!     listener.hear(&datagram, 0)?; // send it to all other members
//! }
//! for message in listener.messages(0) {
//!     println!("{:?}", message?); // its page, and then the stroke
//! }
//! # Ok(())
//! # }
//! ```
//!
//! Members of one room have a file in common. It has the key by which a [`Guard`] seals what goes to each member, and opens what comes:
//!
//! ```
//! use ringyew::{Agent, Room};
//!
//! # fn main() -> Result<(), Box<dyn std::error::Error>> {
//! # let text = br#"
//! # ringyew = 1
//! # session = 7
//! # key = "000102030405060708090a0b0c0d0e0f"
//! # [[member]]
//! # name = "ada"
//! # address = "192.0.2.7:47100"
//! # [[member]]
//! # name = "grace"
//! # address = "192.0.2.9:47100"
//! # [settings]
//! # waits = [2, 2, 1, 1]
//! # least-distance = 5000
//! # rate = 64000
//! # depth = 4204
//! # linger = 2000000
//! # most-missing = 16777216
//! # "#;
//! # let micros_since_1970 = 1_700_000_000_000_000;
//! let mut room = Room::read(text)?; // what `srm room new` wrote
//! let (ada, grace) = (room.find("ada").unwrap(), room.find("grace").unwrap());
//! let mut agent = Agent::new(&room.config(ada)?, 0, 0)?;
//! let mut hers = room.guard(ada, micros_since_1970)?;
//! let mut others = room.guard(grace, micros_since_1970)?;
//!
//! let sealed = hers.seal(grace, b"a datagram")?;
//! assert_eq!(others.open(&sealed), Ok(&b"a datagram"[..]));
//! assert!(others.open(&sealed).is_err()); // it came before
//! # agent.tick(0)?;
//! # Ok(())
//! # }
//! ```
//!
//! Moments are microseconds of the caller's own clock, from any beginning, at most [`MOMENT_MAX`]. Members' clocks needn't agree. What a
//! call refuses is an [`Error`]; nothing has changed then.
//!
//! The crate stands on `libsrm`, which the build script finds by `pkg-config`, or in the folder that `RINGYEW_LIB` names.
#![deny(unsafe_code)]

mod agent;
mod config;
mod error;
mod guard;
mod heard;
mod message;
mod names;
mod outstanding;
mod room;
mod sys;

pub use agent::{Agent, Datagrams, Messages, Repairs, Requests};
pub use config::Config;
pub use error::Error;
pub use guard::Guard;
pub use heard::{Cause, Heard, State, Ticked};
pub use message::Message;
pub use names::{Name, Page};
pub use outstanding::Outstanding;
pub use room::{Room, RoomError, RoomFault, RoomFaultKind};
pub use sys::{BODY_MAX, DATAGRAM_MAX, KEY_MAX, KEY_MIN, MEMBERS_MAX, MOMENT_MAX, NAME_MAX, ROOM_TEXT_MAX, SEAL_BYTES, SEALED_MAX, SLOTS, STROKES_MAX};

/// The version of `libsrm`, as `0.1.0`.
pub fn library_version() -> &'static str {
    sys::version()
}
