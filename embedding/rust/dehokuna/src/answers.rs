//! What a request is told.

use dehokuna_sys as sys;
use std::{error, fmt, io};

/// What a lock allows.
#[derive(Debug, Clone, Copy, PartialEq, Eq, Hash)]
pub enum Mode {
    /// Shared (F_RDLCK, LOCK_SH).
    Read,
    /// Exclusive (F_WRLCK, LOCK_EX).
    Write,
}

impl Mode {
    pub(crate) fn word(self) -> u32 {
        match self {
            Mode::Read => sys::DEHOKUNA_READ,
            Mode::Write => sys::DEHOKUNA_WRITE,
        }
    }
}

/// The mode that a word of the library tells.
pub(crate) fn mode_of(word: u32) -> Mode {
    if word == sys::DEHOKUNA_READ {
        Mode::Read
    } else {
        Mode::Write
    }
}

/// A byte lock that is in the way, or listed: its owner, and one largest range of one mode, from its first to its last byte.
#[derive(Debug, Clone, Copy, PartialEq, Eq, Hash)]
pub struct Blocker {
    /// The number that the lock was set with.
    pub owner: u64,
    /// The first byte.
    pub first: u64,
    /// The last byte.
    pub last: u64,
    /// Its mode.
    pub mode: Mode,
}

/// How many locks and waits a client has.
#[derive(Debug, Clone, Copy, PartialEq, Eq, Hash, Default)]
pub struct Counts {
    /// Byte locks: of each owner and file the largest ranges of one mode.
    pub runs: u64,
    /// flock locks.
    pub flock_locks: u64,
    /// Requests that wait, for byte locks and for flock locks.
    pub waits: u64,
}

impl Blocker {
    pub(crate) fn from_raw(told: sys::dehokuna_blocker) -> Blocker {
        Blocker { owner: told.owner, first: told.first, last: told.last, mode: mode_of(told.mode) }
    }
}

/// What came of a request that may wait.
#[derive(Debug, Clone, Copy, PartialEq, Eq, Hash)]
#[must_use = "a request that waits is answered later, by its ticket"]
pub enum Outcome {
    /// The lock is set.
    Done,
    /// The request waits: its ticket comes from `grants`, unless `cancel` ends it.
    Waits,
}

/// Why a request was refused.
#[derive(Debug, Clone, Copy, PartialEq, Eq, Hash)]
#[non_exhaustive]
pub enum Error {
    /// A lock of another owner is in the way (EAGAIN).
    Blocked,
    /// The wait would close a cycle of owners that wait for each other (EDEADLK).
    Deadlock,
    /// A wait has this ticket already, or a grant that wasn't fetched: the caller's mistake (EEXIST, this project's choice).
    TicketTaken,
    /// There was no memory (ENOLCK).
    NoMemory,
    /// The range has no bytes, or begins above the largest offset (EINVAL).
    Invalid,
}

impl Error {
    /// The number that Linux has for it, as a file server replies it.
    pub fn errno(self) -> i32 {
        match self {
            Error::Blocked => 11,
            Error::Deadlock => 35,
            Error::TicketTaken => 17,
            Error::NoMemory => 37,
            Error::Invalid => 22,
        }
    }
}

impl fmt::Display for Error {
    fn fmt(&self, f: &mut fmt::Formatter<'_>) -> fmt::Result {
        f.write_str(match self {
            Error::Blocked => "a lock of another owner is in the way",
            Error::Deadlock => "the wait would close a cycle of owners that wait for each other",
            Error::TicketTaken => "a wait has this ticket already, or a grant that was not fetched",
            Error::NoMemory => "there was no memory for the lock",
            Error::Invalid => "the range has no bytes, or begins above the largest offset",
        })
    }
}

impl error::Error for Error {}

impl From<Error> for io::Error {
    fn from(refusal: Error) -> io::Error {
        io::Error::from_raw_os_error(refusal.errno())
    }
}

/// What a status tells.
pub(crate) fn refused(status: u32) -> Result<Outcome, Error> {
    match status {
        sys::DEHOKUNA_DONE => Ok(Outcome::Done),
        sys::DEHOKUNA_WAITS => Ok(Outcome::Waits),
        sys::DEHOKUNA_BLOCKED => Err(Error::Blocked),
        sys::DEHOKUNA_DEADLOCK => Err(Error::Deadlock),
        sys::DEHOKUNA_TICKET_TAKEN => Err(Error::TicketTaken),
        sys::DEHOKUNA_NO_MEMORY => Err(Error::NoMemory),
        sys::DEHOKUNA_INVALID => Err(Error::Invalid),
        other => unreachable!("libdehokuna told a status that dehokuna.h doesn't have: {other}"),
    }
}
