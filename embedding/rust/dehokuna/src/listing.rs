//! What a server lists: each iterator asks for the next thing behind the last one that it gave.

use crate::answers::{mode_of, Blocker, Mode};
use crate::LockServer;
use dehokuna_sys as sys;
use std::ops::RangeInclusive;

/// A flock lock (flock(2)).
#[derive(Debug, Clone, Copy, PartialEq, Eq, Hash)]
pub struct FlockLock {
    /// The number that the lock was set with.
    pub owner: u64,
    /// Its mode.
    pub mode: Mode,
}

/// What is in the way of a wait.
#[derive(Debug, Clone, Copy, PartialEq, Eq, Hash)]
pub enum Obstacle {
    /// A byte lock: the first one, as [`LockServer::get`] tells it.
    Lock(Blocker),
    /// A flock lock: that of the least owner.
    Flock(FlockLock),
    /// No lock, but under the queue policy an earlier wait: the ticket of the first.
    Wait(u64),
}

/// What a request that waits asks for.
#[derive(Debug, Clone, Copy, PartialEq, Eq, Hash)]
pub enum Wanted {
    /// A lock on the bytes from the first to the last one.
    Bytes {
        /// The first byte.
        first: u64,
        /// The last byte.
        last: u64,
    },
    /// A flock lock.
    Flock,
}

/// A wait, with what is in its way.
#[derive(Debug, Clone, Copy, PartialEq, Eq, Hash)]
pub struct Waiting {
    /// The request's ticket.
    pub ticket: u64,
    /// Whose the lock would be.
    pub owner: u64,
    /// What it asks for.
    pub wanted: Wanted,
    /// The mode that it asks for.
    pub mode: Mode,
    /// Whether it takes part in the search for deadlocks.
    pub detect: bool,
    /// What is in its way.
    pub obstacle: Obstacle,
}

impl Waiting {
    fn from_raw(told: sys::dehokuna_waiting) -> Waiting {
        let wanted = match told.family {
            sys::DEHOKUNA_BYTES => Wanted::Bytes { first: told.first, last: told.last },
            _ => Wanted::Flock,
        };
        let obstacle = match told.obstacle {
            sys::DEHOKUNA_BY_LOCK => Obstacle::Lock(Blocker::from_raw(told.blocker)),
            sys::DEHOKUNA_BY_FLOCK => Obstacle::Flock(FlockLock { owner: told.blocker.owner, mode: mode_of(told.blocker.mode) }),
            _ => Obstacle::Wait(told.behind),
        };
        Waiting { ticket: told.ticket, owner: told.owner, wanted, mode: mode_of(told.mode), detect: told.detect, obstacle }
    }
}

/// A wait by its owner, its file and its ticket; they are ordered so.
#[derive(Debug, Clone, Copy, PartialEq, Eq, Hash, PartialOrd, Ord)]
pub struct OwnerWait {
    /// Whose the lock would be.
    pub owner: u64,
    /// On which file.
    pub file: u64,
    /// The request's ticket.
    pub ticket: u64,
}

impl OwnerWait {
    /// The least wait that can come behind this one.
    fn behind(self) -> Option<OwnerWait> {
        let OwnerWait { owner, file, ticket } = self;
        if ticket < u64::MAX {
            return Some(OwnerWait { ticket: ticket + 1, ..self });
        }
        if file < u64::MAX {
            return Some(OwnerWait { owner, file: file + 1, ticket: 0 });
        }
        Some(OwnerWait { owner: owner.checked_add(1)?, file: 0, ticket: 0 })
    }
}

impl LockServer {
    /// The files that have a lock or a wait, rising, from this number on.
    ///
    /// ```
    /// # use dehokuna::{LockServer, Mode};
    /// # let mut server = LockServer::new(Default::default())?;
    /// server.set(7, 1, 0..10, Mode::Write)?;
    /// server.flock(9, 1, Mode::Read)?;
    /// assert_eq!(server.files(0).collect::<Vec<_>>(), [7, 9]);
    /// assert_eq!(server.files(8).collect::<Vec<_>>(), [9]);
    /// # Ok::<(), dehokuna::Error>(())
    /// ```
    pub fn files(&self, from: u64) -> impl Iterator<Item = u64> + '_ {
        steps(
            Some(from),
            |file: &u64| file.checked_add(1),
            move |from| {
                let mut file = 0;
                // SAFETY: the server is created, and `file` is no part of it.
                unsafe { sys::dehokuna_next_file(self.raw(), from, &mut file) }.then_some(file)
            },
        )
    }

    /// The byte locks on the file, by owner and then by first byte: each the largest range on which its owner has the one mode.
    ///
    /// ```
    /// # use dehokuna::{Blocker, LockServer, Mode};
    /// # let mut server = LockServer::new(Default::default())?;
    /// server.set(7, 2, 0..10, Mode::Read)?;
    /// server.set(7, 1, 5..=5, Mode::Read)?;
    /// let (one, two) = (Blocker { owner: 1, first: 5, last: 5, mode: Mode::Read }, Blocker { owner: 2, first: 0, last: 9, mode: Mode::Read });
    /// assert_eq!(server.locks(7).collect::<Vec<_>>(), [one, two]);
    /// # Ok::<(), dehokuna::Error>(())
    /// ```
    pub fn locks(&self, file: u64) -> impl Iterator<Item = Blocker> + '_ {
        // A lock ends below the largest number.
        steps(
            Some((0, 0)),
            |lock: &Blocker| Some((lock.owner, lock.last + 1)),
            move |(owner, first)| {
                let mut told = sys::dehokuna_blocker::default();
                // SAFETY: the server is created, and `told` is no part of it.
                unsafe { sys::dehokuna_next_lock(self.raw(), file, owner, first, &mut told) }.then(|| Blocker::from_raw(told))
            },
        )
    }

    /// The flock locks on the file, by owner.
    pub fn flocks(&self, file: u64) -> impl Iterator<Item = FlockLock> + '_ {
        steps(
            Some(0),
            |lock: &FlockLock| lock.owner.checked_add(1),
            move |from| {
                let mut told = sys::dehokuna_flock_lock::default();
                // SAFETY: the server is created, and `told` is no part of it.
                unsafe { sys::dehokuna_next_flock(self.raw(), file, from, &mut told) }
                    .then(|| FlockLock { owner: told.owner, mode: mode_of(told.mode) })
            },
        )
    }

    /// The waits on the file in order of arrival, each with what is in its way.
    ///
    /// ```
    /// # use dehokuna::{LockServer, Mode, Obstacle};
    /// # let mut server = LockServer::new(Default::default())?;
    /// server.set(7, 1, 0..10, Mode::Write)?;
    /// let _ = server.wait(70, 7, 2, 5..=5, Mode::Read, true)?;
    /// let wait = server.waits(7).next().expect("a wait");
    /// assert!(matches!(wait.obstacle, Obstacle::Lock(lock) if lock.owner == 1));
    /// # Ok::<(), dehokuna::Error>(())
    /// ```
    pub fn waits(&self, file: u64) -> impl Iterator<Item = Waiting> + '_ {
        (0..).map_while(move |place| {
            let mut told = sys::dehokuna_waiting::default();
            // SAFETY: the server is created, and `told` is no part of it.
            unsafe { sys::dehokuna_wait_at(self.raw(), file, place, &mut told) }.then(|| Waiting::from_raw(told))
        })
    }

    /// The waits of these owners on all files, by owner, file and ticket. Each looks at each wait on each file.
    pub fn waits_of(&self, owners: RangeInclusive<u64>) -> impl Iterator<Item = OwnerWait> + '_ {
        let (first, last) = owners.into_inner();
        let from = OwnerWait { owner: first, file: 0, ticket: 0 };
        steps(
            Some(from),
            |wait: &OwnerWait| wait.behind(),
            move |from| {
                let mut told = sys::dehokuna_owner_wait::default();
                // SAFETY: the server is created, and `told` is no part of it.
                unsafe { sys::dehokuna_next_wait(self.raw(), from.owner, from.file, from.ticket, last, &mut told) }.then_some(OwnerWait {
                    owner: told.owner,
                    file: told.file,
                    ticket: told.ticket,
                })
            },
        )
    }
}

/// What is found from a place on, and then from behind each, until nothing is, or no place comes behind.
fn steps<P: Copy, T>(first: Option<P>, behind: impl Fn(&T) -> Option<P>, find: impl Fn(P) -> Option<T>) -> impl Iterator<Item = T> {
    let mut place = first;
    std::iter::from_fn(move || {
        let found = find(place?);
        place = found.as_ref().and_then(&behind);
        found
    })
}
