//! Why bytes are no state of a server.

use dehokuna_sys as sys;
use std::{error, fmt};

/// Why no server was made of bytes.
#[derive(Debug, Clone, Copy, PartialEq, Eq, Hash)]
#[non_exhaustive]
pub enum ImportError {
    /// No server has this export.
    Invalid {
        /// What is wrong first.
        flaw: Flaw,
        /// At which byte.
        offset: usize,
    },
    /// There was no memory (ENOLCK).
    NoMemory,
}

impl fmt::Display for ImportError {
    fn fmt(&self, out: &mut fmt::Formatter<'_>) -> fmt::Result {
        match self {
            ImportError::Invalid { flaw, offset } => write!(out, "{flaw}, at byte {offset}"),
            ImportError::NoMemory => out.write_str("there was no memory"),
        }
    }
}

impl error::Error for ImportError {}

/// What is wrong with bytes that no server exports. Of bytes with more than one flaw the first in this order is told.
#[derive(Debug, Clone, Copy, PartialEq, Eq, Hash)]
#[non_exhaustive]
pub enum Flaw {
    /// They aren't of the format, or end too early or too late.
    Form,
    /// A list is not in its order, or locks of one owner overlap or should be one.
    Order,
    /// A lock conflicts with one before it on the same file.
    Conflict,
    /// A wait or a grant has the ticket of another one.
    Ticket,
    /// Nothing blocks a wait.
    Unblocked,
    /// The owner of a wait waits for itself, by way of owners that aren't crossed.
    Cycle,
    /// A crossed owner has no wait that takes part in the search for deadlocks.
    Crossed,
}

impl Flaw {
    pub(crate) fn of(word: u32) -> Flaw {
        match word {
            sys::DEHOKUNA_ORDER => Flaw::Order,
            sys::DEHOKUNA_CONFLICT => Flaw::Conflict,
            sys::DEHOKUNA_TICKET => Flaw::Ticket,
            sys::DEHOKUNA_UNBLOCKED => Flaw::Unblocked,
            sys::DEHOKUNA_CYCLE => Flaw::Cycle,
            sys::DEHOKUNA_CROSSED => Flaw::Crossed,
            _ => Flaw::Form,
        }
    }
}

impl fmt::Display for Flaw {
    fn fmt(&self, out: &mut fmt::Formatter<'_>) -> fmt::Result {
        out.write_str(match self {
            Flaw::Form => "the bytes are not of the format",
            Flaw::Order => "a list is not in its order",
            Flaw::Conflict => "two locks conflict",
            Flaw::Ticket => "a ticket is there twice",
            Flaw::Unblocked => "nothing blocks a wait",
            Flaw::Cycle => "owners wait for each other",
            Flaw::Crossed => "a crossed owner doesn't wait",
        })
    }
}
