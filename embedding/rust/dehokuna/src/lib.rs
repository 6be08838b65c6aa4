//! The advisory locks of a file server, from the proved library: record locks, open file description locks and flock locks of opaque
//! owners, with waits that are answered later.
//!
//! Files, owners, open files and tickets are numbers of the caller's choice. Byte locks and flock locks of a file never meet.
//!
//! ```
//! use dehokuna::{LockServer, Mode, Outcome, Policy};
//!
//! let mut server = LockServer::new(Policy::Held)?;
//! server.set(7, 1, 0..10, Mode::Write)?;
//! assert_eq!(server.wait(70, 7, 2, 5..=5, Mode::Read, true)?, Outcome::Waits);
//! server.flush(7, 1);
//! assert_eq!(server.grants().collect::<Vec<_>>(), [70]);
//! # Ok::<(), dehokuna::Error>(())
//! ```
//!
//! Nothing here locks a file of the machine. The proofs of the library end at its C functions; this crate is only tested.
#![warn(missing_docs)]

mod answers;
mod importing;
mod listing;
mod ranges;

pub use answers::{Blocker, Counts, Error, Mode, Outcome};
pub use dehokuna_sys::DEHOKUNA_LARGEST_OFFSET as LARGEST_OFFSET;
pub use importing::{Flaw, ImportError};
pub use listing::{FlockLock, Obstacle, OwnerWait, Waiting, Wanted};

use dehokuna_sys as sys;
use std::fmt;
use std::ops::RangeBounds;
use std::ptr;

/// Who goes first.
#[derive(Debug, Clone, Copy, PartialEq, Eq, Hash, Default)]
pub enum Policy {
    /// A request, and a wait, is given its lock where no lock of another owner conflicts with it, whoever waits (what Linux does; writers
    /// may starve).
    #[default]
    Held,
    /// A request that may wait goes behind the earlier waits that conflict with it, but where its owner has already what it is for. For
    /// more bytes or a stronger mode an owner goes behind them like anyone, and may be told `Deadlock`.
    Queue,
}

/// How a flock lock gets another mode: the old lock goes first, and may be lost.
#[derive(Debug, Clone, Copy, PartialEq, Eq, Hash, Default)]
pub enum Conversion {
    /// The waits that the old lock held back are granted, and then the request is tested (flock(2)).
    #[default]
    Stepwise,
    /// The request is tested before any wait is granted (what Linux does).
    Atomic,
}

/// The locks of any number of files.
///
/// After each call that takes it `&mut`, but `note`, whatever it told, ask [`grants`](LockServer::grants) for the tickets whose requests are
/// granted now. Threads share one behind a `Mutex`, or a `RwLock`: what only reads takes `&self`.
///
/// ```
/// fn shared<T: Send + Sync>() {}
/// shared::<dehokuna::LockServer>();
/// ```
pub struct LockServer {
    raw: sys::dehokuna_server,
}

// SAFETY: the library keeps nothing of the thread that calls it, and the server is reached by this handle alone.
unsafe impl Send for LockServer {}
// SAFETY: what takes `&self` calls a function that takes the server const, and any number of threads may be in those at once.
unsafe impl Sync for LockServer {}

impl LockServer {
    /// A server without locks and waits, which converts flock locks step by step.
    ///
    /// # Errors
    /// `NoMemory`.
    pub fn new(policy: Policy) -> Result<LockServer, Error> {
        LockServer::with_conversion(policy, Conversion::Stepwise)
    }

    /// A server without locks and waits.
    ///
    /// # Errors
    /// `NoMemory`.
    ///
    /// ```
    /// # use dehokuna::{Conversion, LockServer, Mode, Outcome, Policy};
    /// let mut server = LockServer::with_conversion(Policy::Held, Conversion::Atomic)?;
    /// server.flock(7, 1, Mode::Write)?;
    /// assert_eq!(server.flock_wait(70, 7, 2, Mode::Write)?, Outcome::Waits);
    /// server.flock(7, 1, Mode::Read)?; // before the one that waits
    /// # Ok::<(), dehokuna::Error>(())
    /// ```
    pub fn with_conversion(policy: Policy, conversion: Conversion) -> Result<LockServer, Error> {
        let mut raw = sys::dehokuna_server { at: ptr::null_mut() };
        let policy = match policy {
            Policy::Held => sys::DEHOKUNA_HELD,
            Policy::Queue => sys::DEHOKUNA_QUEUE,
        };
        let conversion = match conversion {
            Conversion::Stepwise => 0,
            Conversion::Atomic => sys::DEHOKUNA_ATOMIC,
        };
        // SAFETY: the server is zero.
        if unsafe { sys::dehokuna_create(&mut raw, policy | conversion) } {
            Ok(LockServer { raw })
        } else {
            Err(Error::NoMemory)
        }
    }

    /// The first lock that would block the owner's lock of this mode on the range: at the least byte that is blocked, of the least owner
    /// there (F_GETLK).
    ///
    /// # Errors
    /// `Invalid`.
    ///
    /// ```
    /// # use dehokuna::{Blocker, LockServer, Mode};
    /// # let mut server = LockServer::new(Default::default())?;
    /// server.set(7, 1, 10..20, Mode::Read)?;
    /// let blocker = Blocker { owner: 1, first: 10, last: 19, mode: Mode::Read };
    /// assert_eq!(server.get(7, 2, .., Mode::Write)?, Some(blocker));
    /// assert_eq!(server.get(7, 2, .., Mode::Read)?, None);
    /// # Ok::<(), dehokuna::Error>(())
    /// ```
    pub fn get(&self, file: u64, owner: u64, range: impl RangeBounds<u64>, mode: Mode) -> Result<Option<Blocker>, Error> {
        let (first, last) = ranges::ends(range);
        let mut told = sys::dehokuna_blocker::default();
        // SAFETY: the server is created, and `told` is no part of it.
        let status = unsafe { sys::dehokuna_get(&self.raw, file, owner, first, last, mode.word(), &mut told) };
        match answers::refused(status) {
            Ok(_) => Ok(None),
            Err(Error::Blocked) => Ok(Some(Blocker::from_raw(told))),
            Err(refusal) => Err(refusal),
        }
    }

    /// Sets the owner's mode on just the bytes of the range (F_SETLK, F_OFD_SETLK).
    ///
    /// # Errors
    /// `Blocked`, `NoMemory`, `Invalid`: all is as it was.
    pub fn set(&mut self, file: u64, owner: u64, range: impl RangeBounds<u64>, mode: Mode) -> Result<(), Error> {
        self.set_word(file, owner, ranges::ends(range), mode.word())
    }

    /// Removes the owner's mode from just the bytes of the range (F_SETLK with F_UNLCK).
    ///
    /// # Errors
    /// `NoMemory`, where it splits a lock in two, and `Invalid`: all is as it was.
    pub fn unlock(&mut self, file: u64, owner: u64, range: impl RangeBounds<u64>) -> Result<(), Error> {
        self.set_word(file, owner, ranges::ends(range), sys::DEHOKUNA_UNLOCK)
    }

    fn set_word(&mut self, file: u64, owner: u64, (first, last): (u64, u64), mode: u32) -> Result<(), Error> {
        // SAFETY: the server is created.
        let status = unsafe { sys::dehokuna_set(&mut self.raw, file, owner, first, last, mode) };
        answers::refused(status).map(drop)
    }

    /// Sets the owner's mode on the bytes of the range, or waits for it (F_SETLKW, F_OFD_SETLKW); `detect` has the wait take part in the
    /// search for deadlocks.
    ///
    /// # Errors
    /// `Deadlock`, `TicketTaken`, `NoMemory`, `Invalid`: all is as it was.
    pub fn wait(
        &mut self,
        ticket: u64,
        file: u64,
        owner: u64,
        range: impl RangeBounds<u64>,
        mode: Mode,
        detect: bool,
    ) -> Result<Outcome, Error> {
        let (first, last) = ranges::ends(range);
        // SAFETY: the server is created.
        let status = unsafe { sys::dehokuna_wait(&mut self.raw, ticket, file, owner, first, last, mode.word(), detect) };
        answers::refused(status)
    }

    /// Ends the wait with the ticket, of either kind (a signal: EINTR). `false`: none has it, be it granted or unknown.
    pub fn cancel(&mut self, ticket: u64) -> bool {
        // SAFETY: the server is created.
        unsafe { sys::dehokuna_cancel(&mut self.raw, ticket) }
    }

    /// Notes that the owner is seen through the open file of the file, for [`release`](LockServer::release).
    ///
    /// # Errors
    /// `NoMemory`: nothing has changed.
    pub fn note(&mut self, file: u64, owner: u64, open_file: u64) -> Result<(), Error> {
        // SAFETY: the server is created.
        if unsafe { sys::dehokuna_note(&mut self.raw, file, owner, open_file) } {
            Ok(())
        } else {
            Err(Error::NoMemory)
        }
    }

    /// Removes the owner's byte locks on the file; its waits stay (the close rule of POSIX).
    pub fn flush(&mut self, file: u64, owner: u64) {
        // SAFETY: the server is created.
        unsafe { sys::dehokuna_flush(&mut self.raw, file, owner) }
    }

    /// Removes the owner's byte locks and its waits for them, on all files.
    pub fn forget(&mut self, owner: u64) {
        // SAFETY: the server is created.
        unsafe { sys::dehokuna_forget(&mut self.raw, owner) }
    }

    /// A client is gone, whose owners are these numbers: their byte locks, flock locks and waits leave all files, and only then waits are
    /// granted. A wait that leaves is told no more. Grants that weren't fetched stay, so a ticket may be of a lock that is gone.
    ///
    /// ```
    /// # use dehokuna::{LockServer, Mode, Outcome};
    /// # let mut server = LockServer::new(Default::default())?;
    /// server.set(7, 0x1_0000, .., Mode::Write)?;
    /// server.flock(8, 0x1_0001, Mode::Write)?;
    /// assert_eq!(server.wait(70, 7, 0x2_0000, .., Mode::Read, true)?, Outcome::Waits);
    /// server.forget_owners(0x1_0000..0x2_0000);
    /// assert_eq!(server.grants().collect::<Vec<_>>(), [70]);
    /// assert!(!server.has_locks(0x1_0000..0x2_0000));
    /// # Ok::<(), dehokuna::Error>(())
    /// ```
    pub fn forget_owners(&mut self, owners: impl RangeBounds<u64>) {
        let (first, last) = ranges::numbers(owners);
        // SAFETY: the server is created.
        unsafe { sys::dehokuna_forget_owners(&mut self.raw, first, last) }
    }

    /// A file is gone: all its locks and waits go, and nothing is granted. Grants that weren't fetched stay.
    pub fn forget_file(&mut self, file: u64) {
        // SAFETY: the server is created.
        unsafe { sys::dehokuna_forget_file(&mut self.raw, file) }
    }

    /// Whether one of these owners has a byte lock or a flock lock on some file; a wait is none.
    pub fn has_locks(&self, owners: impl RangeBounds<u64>) -> bool {
        let (first, last) = ranges::numbers(owners);
        // SAFETY: the server is created.
        unsafe { sys::dehokuna_has_locks(&self.raw, first, last) }
    }

    /// How many locks and waits these owners have, on all files.
    pub fn counts(&self, owners: impl RangeBounds<u64>) -> Counts {
        let (first, last) = ranges::numbers(owners);
        let mut told = sys::dehokuna_counts::default();
        // SAFETY: the server is created, and `told` is no part of it.
        unsafe { sys::dehokuna_counts(&self.raw, first, last, &mut told) };
        Counts { runs: told.runs, flock_locks: told.flock_locks, waits: told.waits }
    }

    /// Sets or converts the owner's flock lock (LOCK_NB).
    ///
    /// # Errors
    /// `Blocked`: a lock that it had is lost. `NoMemory`: all is as it was.
    pub fn flock(&mut self, file: u64, owner: u64, mode: Mode) -> Result<(), Error> {
        // SAFETY: the server is created.
        let status = unsafe { sys::dehokuna_flock(&mut self.raw, file, owner, mode.word()) };
        answers::refused(status).map(drop)
    }

    /// Sets or converts the owner's flock lock, or waits for it; where it waits, a lock that it had is lost.
    ///
    /// # Errors
    /// `TicketTaken`, `NoMemory`: all is as it was.
    pub fn flock_wait(&mut self, ticket: u64, file: u64, owner: u64, mode: Mode) -> Result<Outcome, Error> {
        // SAFETY: the server is created.
        let status = unsafe { sys::dehokuna_flock_wait(&mut self.raw, ticket, file, owner, mode.word()) };
        answers::refused(status)
    }

    /// Removes the owner's flock lock (LOCK_UN, the last close); its waits stay.
    pub fn flock_release(&mut self, file: u64, owner: u64) {
        // SAFETY: the server is created.
        unsafe { sys::dehokuna_flock_release(&mut self.raw, file, owner) }
    }

    /// The last close of an open file: removes the byte locks of the owners that were last seen through it, and the flock lock of the flock
    /// owner, if one is given.
    pub fn release(&mut self, file: u64, open_file: u64, flock_owner: Option<u64>) {
        // SAFETY: the server is created.
        unsafe { sys::dehokuna_release(&mut self.raw, file, open_file, flock_owner.is_some(), flock_owner.unwrap_or(0)) }
    }

    /// The state as bytes: servers in the same state have the same ones, whatever each was told before, and others have others.
    ///
    /// ```
    /// # use dehokuna::{LockServer, Mode};
    /// # let (mut one, mut other) = (LockServer::new(Default::default())?, LockServer::new(Default::default())?);
    /// one.set(7, 1, 0..10, Mode::Write)?;
    /// assert_ne!(one.export(), other.export());
    /// other.set(7, 1, 5..10, Mode::Write)?;
    /// other.set(7, 1, 0..5, Mode::Write)?;
    /// assert_eq!(one.export(), other.export());
    /// # Ok::<(), dehokuna::Error>(())
    /// ```
    pub fn export(&self) -> Vec<u8> {
        // SAFETY: the server is created.
        let size = unsafe { sys::dehokuna_export_size(&self.raw) };
        let mut bytes = vec![0; size];
        // SAFETY: the server is created, and there is so much room.
        unsafe { sys::dehokuna_export(&self.raw, bytes.as_mut_ptr(), size) };
        bytes
    }

    /// The server whose [`export`](LockServer::export) is these bytes: it is in the same state as the one that wrote them.
    ///
    /// # Errors
    /// `Invalid` where they are no server's export, with what is wrong first and at which byte; `NoMemory`.
    ///
    /// ```
    /// # use dehokuna::{Flaw, ImportError, LockServer, Mode};
    /// # let mut server = LockServer::new(Default::default())?;
    /// server.set(7, 1, 0..10, Mode::Write)?;
    /// let mut bytes = server.export();
    /// assert_eq!(LockServer::from_bytes(&bytes)?.export(), bytes);
    /// bytes.push(0);
    /// let refused = LockServer::from_bytes(&bytes).err();
    /// assert_eq!(refused, Some(ImportError::Invalid { flaw: Flaw::Form, offset: bytes.len() - 1 }));
    /// # Ok::<(), Box<dyn std::error::Error>>(())
    /// ```
    pub fn from_bytes(bytes: &[u8]) -> Result<LockServer, ImportError> {
        let mut raw = sys::dehokuna_server { at: ptr::null_mut() };
        let mut fault = sys::dehokuna_fault::default();
        // SAFETY: the server is zero, there are so many bytes, and no two of these overlap.
        match unsafe { sys::dehokuna_import(&mut raw, bytes.as_ptr(), bytes.len(), &mut fault) } {
            sys::DEHOKUNA_DONE => Ok(LockServer { raw }),
            sys::DEHOKUNA_INVALID => Err(ImportError::Invalid { flaw: Flaw::of(fault.flaw), offset: fault.offset }),
            _ => Err(ImportError::NoMemory),
        }
    }

    /// The ticket of the oldest grant that wasn't told yet.
    pub fn next_grant(&mut self) -> Option<u64> {
        let mut ticket = 0;
        // SAFETY: the server is created, and `ticket` is no part of it.
        unsafe { sys::dehokuna_next_grant(&mut self.raw, &mut ticket) }.then_some(ticket)
    }

    /// The server, for the calls that only read.
    pub(crate) fn raw(&self) -> &sys::dehokuna_server {
        &self.raw
    }

    /// The tickets of all grants that weren't told yet, oldest first.
    pub fn grants(&mut self) -> Grants<'_> {
        Grants { server: self }
    }
}

impl Drop for LockServer {
    fn drop(&mut self) {
        // SAFETY: the server is created, and nobody uses it from here on.
        unsafe { sys::dehokuna_destroy(&mut self.raw) }
    }
}

impl fmt::Debug for LockServer {
    fn fmt(&self, f: &mut fmt::Formatter<'_>) -> fmt::Result {
        f.debug_struct("LockServer").finish_non_exhaustive()
    }
}

/// Fetches grants; those that it wasn't asked for stay.
#[derive(Debug)]
pub struct Grants<'a> {
    server: &'a mut LockServer,
}

impl Iterator for Grants<'_> {
    type Item = u64;

    fn next(&mut self) -> Option<u64> {
        self.server.next_grant()
    }
}
