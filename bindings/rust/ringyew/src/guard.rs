//! What seals the datagrams that a member sends, and opens what comes.
#![forbid(unsafe_code)]

use crate::error::Error;
use crate::sys;
use std::fmt;

/// What seals the datagrams that a member sends, and opens what comes, by a key that all members share.
///
/// Behind each datagram to a member stand its sender, a counter and a tag of all that. So a guard opens only what somebody with the key sealed for its member, and each
/// such datagram once. A key hides nothing, and doesn't tell one member from another: a member may lie.
///
/// A guard may move to another thread; one call of it runs at a time.
pub struct Guard {
    handle: sys::GuardHandle,
}

impl Guard {
    /// Makes a guard by a key, best of 32 random bytes. Its counters begin at `start`, which must be above all that this member used under this key before, or others
    /// drop what it sends: pass the microseconds since 1970.
    ///
    /// # Errors
    /// The first that holds: [`Error::Member`] where `me` is past 31, [`Error::Key`], [`Error::Memory`].
    pub fn new(key: &[u8], me: u8, start: u64) -> Result<Guard, Error> {
        sys::GuardHandle::new(key, me.into(), start).map(Guard::of).map_err(Error::of)
    }

    pub(crate) fn of(handle: sys::GuardHandle) -> Guard {
        Guard { handle }
    }

    /// Returns a datagram, sealed for a member: [`SEAL_BYTES`](crate::SEAL_BYTES) stand behind it. Seal a datagram anew for each member, and for each time that it is sent.
    ///
    /// # Errors
    /// The first that holds: [`Error::Member`] where `to` is past 31, [`Error::Counters`].
    pub fn seal(&mut self, to: u8, datagram: &[u8]) -> Result<Vec<u8>, Error> {
        let mut sealed = vec![0; datagram.len() + sys::SEAL_BYTES];
        match self.handle.seal(to.into(), datagram, &mut sealed) {
            (sys::OK, length) => {
                sealed.truncate(length);
                Ok(sealed)
            }
            (code, _) => Err(Error::of(code)),
        }
    }

    /// Opens bytes that came from the network, whatever they are, and returns the datagram in front of them. What is refused counts as lost.
    ///
    /// # Errors
    /// [`Error::Untagged`], [`Error::Older`], [`Error::Again`].
    pub fn open<'a>(&mut self, bytes: &'a [u8]) -> Result<&'a [u8], Error> {
        let opened = self.handle.open(bytes).map_err(Error::of)?;
        bytes.get(..opened).ok_or(Error::Untagged)
    }
}

impl fmt::Debug for Guard {
    fn fmt(&self, f: &mut fmt::Formatter<'_>) -> fmt::Result {
        f.debug_struct("Guard").finish_non_exhaustive()
    }
}
