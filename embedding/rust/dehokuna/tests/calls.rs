//! Each call on its happy path, and each refusal but want of memory. What is right is told by fcntl(2), fcntl_locking(2) and flock(2).

use dehokuna::{
    Blocker, Conversion, Counts, Error, Flaw, FlockLock, ImportError, LockServer, Mode, Obstacle, Outcome, OwnerWait, Policy, Waiting, Wanted,
    LARGEST_OFFSET,
};
use std::io;

const FILE: u64 = 7;
const ANN: u64 = 1;
const BOB: u64 = u64::MAX;
const CAT: u64 = 3;

fn server() -> LockServer {
    LockServer::new(Policy::Held).expect("memory")
}

fn granted(server: &mut LockServer) -> Vec<u64> {
    server.grants().collect()
}

#[test]
fn a_lock_blocks_and_is_told() -> Result<(), Error> {
    let mut server = server();
    server.set(FILE, BOB, 10.., Mode::Read)?;
    let blocker = Blocker { owner: BOB, first: 10, last: LARGEST_OFFSET, mode: Mode::Read };
    assert_eq!(server.get(FILE, ANN, .., Mode::Write)?, Some(blocker));
    assert_eq!(server.get(FILE, ANN, .., Mode::Read)?, None);
    assert_eq!(server.get(FILE, BOB, .., Mode::Write)?, None);
    assert_eq!(server.set(FILE, ANN, 10..=10, Mode::Write), Err(Error::Blocked));
    server.unlock(FILE, BOB, 10..=10)?;
    server.set(FILE, ANN, 10..=10, Mode::Write)
}

#[test]
fn a_wait_is_granted_and_told_once() -> Result<(), Error> {
    let mut server = server();
    server.set(FILE, ANN, 0..10, Mode::Write)?;
    assert_eq!(server.wait(70, FILE, BOB, 5..=5, Mode::Write, true)?, Outcome::Waits);
    assert_eq!(server.wait(70, FILE, CAT, 0..1, Mode::Write, true), Err(Error::TicketTaken));
    assert_eq!(server.wait(71, FILE, CAT, 6..=6, Mode::Write, true)?, Outcome::Waits);
    assert!(server.cancel(71));
    assert!(!server.cancel(71));
    server.flush(FILE, ANN);
    assert_eq!(granted(&mut server), [70]);
    assert_eq!(server.next_grant(), None);
    assert_eq!(server.wait(72, FILE, ANN, 0..1, Mode::Write, true)?, Outcome::Done);
    server.forget(BOB);
    server.set(FILE, CAT, 5..=5, Mode::Write)
}

#[test]
fn a_cycle_is_a_deadlock() -> Result<(), Error> {
    let mut server = server();
    server.set(FILE, ANN, 0..1, Mode::Write)?;
    server.set(FILE, BOB, 1..2, Mode::Write)?;
    assert_eq!(server.wait(70, FILE, ANN, 1..2, Mode::Write, true)?, Outcome::Waits);
    assert_eq!(server.wait(71, FILE, BOB, 0..1, Mode::Write, true), Err(Error::Deadlock));
    assert_eq!(server.wait(71, FILE, BOB, 0..1, Mode::Write, false)?, Outcome::Waits);
    Ok(())
}

#[test]
fn a_client_that_is_gone_leaves_nothing() -> Result<(), Error> {
    let (mut server, client) = (server(), 0x1_0000..=0x1_ffff);
    server.set(FILE, 0x1_0000, 0..10, Mode::Write)?;
    server.set(FILE, 0x1_ffff, 10..20, Mode::Read)?;
    server.set(FILE, 0x2_0000, 20..30, Mode::Read)?;
    server.flock(FILE, 0x1_0001, Mode::Write)?;
    assert_eq!(server.wait(70, FILE, 0x2_0000, 0..20, Mode::Write, true)?, Outcome::Waits);
    assert_eq!(server.wait(71, FILE, 0x1_0002, 0..1, Mode::Read, true)?, Outcome::Waits);
    assert!(server.has_locks(client.clone()) && !server.has_locks(0x1_0002..=0x1_fffe));
    assert_eq!(server.counts(client.clone()), Counts { runs: 2, flock_locks: 1, waits: 1 });
    server.forget_owners(client.clone());
    assert_eq!(granted(&mut server), [70]);
    assert_eq!(server.counts(client.clone()), Counts::default());
    assert!(!server.has_locks(client) && server.has_locks(0x2_0000..));
    assert_eq!(server.counts(..), Counts { runs: 2, flock_locks: 0, waits: 0 });
    server.flock(FILE, ANN, Mode::Write)
}

#[test]
fn a_file_that_is_gone_grants_nothing() -> Result<(), Error> {
    let mut server = server();
    server.set(FILE, ANN, 0..10, Mode::Write)?;
    server.flock(FILE, ANN, Mode::Write)?;
    assert_eq!(server.wait(70, FILE, BOB, 0..1, Mode::Read, true)?, Outcome::Waits);
    server.forget_file(FILE);
    assert_eq!(granted(&mut server), []);
    assert_eq!(server.counts(..), Counts::default());
    server.set(FILE, CAT, .., Mode::Write)
}

#[test]
fn a_conversion_that_is_blocked_loses_the_lock() -> Result<(), Error> {
    let mut server = server();
    server.flock(FILE, ANN, Mode::Read)?;
    server.flock(FILE, BOB, Mode::Read)?;
    assert_eq!(server.flock(FILE, ANN, Mode::Write), Err(Error::Blocked));
    server.flock(FILE, BOB, Mode::Write)?;
    assert_eq!(server.flock_wait(70, FILE, ANN, Mode::Write)?, Outcome::Waits);
    server.flock_release(FILE, BOB);
    assert_eq!(granted(&mut server), [70]);
    Ok(())
}

#[test]
fn an_atomic_conversion_comes_before_the_waits() -> Result<(), Error> {
    let conversions = [(Conversion::Atomic, Ok(()), vec![]), (Conversion::Stepwise, Err(Error::Blocked), vec![70])];
    for (conversion, told, granted_then) in conversions {
        let mut server = LockServer::with_conversion(Policy::Held, conversion)?;
        server.flock(FILE, ANN, Mode::Write)?;
        assert_eq!(server.flock_wait(70, FILE, BOB, Mode::Write)?, Outcome::Waits);
        assert_eq!(server.flock(FILE, ANN, Mode::Read), told);
        assert_eq!(granted(&mut server), granted_then);
    }
    Ok(())
}

#[test]
fn the_last_close_takes_what_came_through_it() -> Result<(), Error> {
    let mut server = server();
    server.note(FILE, ANN, 40)?;
    server.set(FILE, ANN, 0..10, Mode::Write)?;
    server.note(FILE, BOB, 41)?;
    server.set(FILE, BOB, 10..20, Mode::Write)?;
    server.flock(FILE, CAT, Mode::Write)?;
    server.release(FILE, 40, Some(CAT));
    let blocker = Blocker { owner: BOB, first: 10, last: 19, mode: Mode::Write };
    assert_eq!(server.get(FILE, CAT, .., Mode::Write)?, Some(blocker));
    server.flock(FILE, ANN, Mode::Write)?;
    server.release(FILE, 41, None);
    assert_eq!(server.get(FILE, CAT, .., Mode::Write)?, None);
    assert_eq!(server.flock(FILE, CAT, Mode::Read), Err(Error::Blocked));
    Ok(())
}

#[test]
fn the_queue_lets_nobody_past() -> Result<(), Error> {
    for (policy, outcome) in [(Policy::Held, Outcome::Done), (Policy::Queue, Outcome::Waits)] {
        let mut server = LockServer::new(policy)?;
        server.set(FILE, ANN, 0..1, Mode::Read)?;
        assert_eq!(server.wait(70, FILE, BOB, 0..1, Mode::Write, true)?, Outcome::Waits);
        assert_eq!(server.wait(71, FILE, CAT, 0..1, Mode::Read, true)?, outcome);
    }
    Ok(())
}

#[test]
fn what_is_no_range_is_invalid() {
    let mut server = server();
    assert_eq!(server.set(FILE, ANN, 5..5, Mode::Write), Err(Error::Invalid));
    assert_eq!(server.unlock(FILE, ANN, 0..0), Err(Error::Invalid));
    assert_eq!(server.get(FILE, ANN, LARGEST_OFFSET + 1.., Mode::Write), Err(Error::Invalid));
    assert_eq!(server.set(FILE, ANN, 9..=u64::MAX, Mode::Write), Ok(()));
    assert_eq!(server.get(FILE, BOB, .., Mode::Read).map(|told| told.map(|lock| lock.last)), Ok(Some(LARGEST_OFFSET)));
}

#[test]
fn an_export_tells_states_apart() -> Result<(), Error> {
    let mut server = server();
    let bytes = |words: &[u64]| words.iter().flat_map(|word| word.to_le_bytes()).collect::<Vec<_>>();
    assert_eq!(server.export(), bytes(&[1, 0, 0, 0, 0, 0, 0]));
    server.set(FILE, BOB, 4..=9, Mode::Read)?;
    server.note(FILE, BOB, 12)?;
    assert_eq!(server.export(), bytes(&[1, 0, 0, 1, FILE, 1, BOB, 4, 9, 1, 0, 0, 0, 0, 1, FILE, BOB, 12]));
    Ok(())
}

#[test]
fn bytes_make_a_server() -> Result<(), Box<dyn std::error::Error>> {
    let mut server = server();
    server.set(FILE, BOB, 4..=9, Mode::Write)?;
    assert_eq!(server.wait(70, FILE, ANN, 4..=4, Mode::Read, true)?, Outcome::Waits);
    let mut other = LockServer::from_bytes(&server.export())?;
    assert_eq!(other.export(), server.export());
    other.flush(FILE, BOB);
    assert_eq!(granted(&mut other), [70]);
    Ok(())
}

#[test]
fn bytes_that_no_server_exports_are_refused() {
    let bytes = |words: &[u64]| words.iter().flat_map(|word| word.to_le_bytes()).collect::<Vec<_>>();
    let twice = bytes(&[1, 0, 0, 1, FILE, 2, ANN, 0, 9, 2, BOB, 9, 9, 1, 0, 0, 0, 0, 0]);
    let refused = |bytes: &[u8]| LockServer::from_bytes(bytes).err();
    assert_eq!(refused(&[]), Some(ImportError::Invalid { flaw: Flaw::Form, offset: 0 }));
    assert_eq!(refused(&twice), Some(ImportError::Invalid { flaw: Flaw::Conflict, offset: 80 }));
}

#[test]
fn a_refusal_has_the_number_of_the_system() {
    let would_block = io::Error::from(Error::Blocked);
    assert_eq!(would_block.kind(), io::ErrorKind::WouldBlock);
    assert_eq!(Error::NoMemory.errno(), 37);
}

#[test]
fn a_server_may_be_moved() -> Result<(), Error> {
    let mut servers = vec![server()];
    servers[0].set(FILE, ANN, 0..1, Mode::Write)?;
    servers.extend((0..64).map(|_| server()));
    let moved = servers.swap_remove(0);
    assert!(moved.get(FILE, BOB, .., Mode::Read)?.is_some());
    Ok(())
}

#[test]
fn readers_share_a_server() -> Result<(), Error> {
    let mut server = server();
    server.set(FILE, ANN, 0..1, Mode::Write)?;
    std::thread::scope(|scope| {
        for _ in 0..4 {
            scope.spawn(|| (0..10_000).for_each(|_| assert!(matches!(server.get(FILE, BOB, .., Mode::Read), Ok(Some(_))))));
        }
    });
    Ok(())
}

#[test]
fn all_is_listed_in_order() -> Result<(), Error> {
    let mut server = LockServer::new(Policy::Queue)?;
    server.set(FILE, ANN, 0..10, Mode::Write)?;
    server.unlock(FILE, ANN, 4..6)?;
    server.set(FILE, BOB, 20.., Mode::Read)?;
    server.flock(u64::MAX, BOB, Mode::Read)?;
    server.flock(u64::MAX, ANN, Mode::Read)?;
    assert_eq!(server.wait(70, FILE, CAT, 5..=30, Mode::Write, true)?, Outcome::Waits);
    assert_eq!(server.wait(u64::MAX, FILE, BOB, 10..=11, Mode::Read, false)?, Outcome::Waits);
    assert_eq!(server.flock_wait(7, u64::MAX, CAT, Mode::Write)?, Outcome::Waits);
    assert_eq!(server.files(0).collect::<Vec<_>>(), [FILE, u64::MAX]);
    assert_eq!(server.files(FILE + 1).collect::<Vec<_>>(), [u64::MAX]);
    let lock = |owner, first, last, mode| Blocker { owner, first, last, mode };
    let (one, two) = (lock(ANN, 0, 3, Mode::Write), lock(ANN, 6, 9, Mode::Write));
    let three = lock(BOB, 20, LARGEST_OFFSET, Mode::Read);
    assert_eq!(server.locks(FILE).collect::<Vec<_>>(), [one, two, three]);
    assert_eq!(server.locks(u64::MAX).count(), 0);
    let (ann, bob) = (FlockLock { owner: ANN, mode: Mode::Read }, FlockLock { owner: BOB, mode: Mode::Read });
    assert_eq!(server.flocks(u64::MAX).collect::<Vec<_>>(), [ann, bob]);
    let wanted = Wanted::Bytes { first: 5, last: 30 };
    let first = Waiting { ticket: 70, owner: CAT, wanted, mode: Mode::Write, detect: true, obstacle: Obstacle::Lock(two) };
    let wanted = Wanted::Bytes { first: 10, last: 11 };
    let second = Waiting { ticket: u64::MAX, owner: BOB, wanted, mode: Mode::Read, detect: false, obstacle: Obstacle::Wait(70) };
    assert_eq!(server.waits(FILE).collect::<Vec<_>>(), [first, second]);
    assert_eq!(server.waits(u64::MAX).map(|wait| wait.obstacle).collect::<Vec<_>>(), [Obstacle::Flock(ann)]);
    let wait = |owner, file, ticket| OwnerWait { owner, file, ticket };
    let (here, there, last) = (wait(CAT, FILE, 70), wait(CAT, u64::MAX, 7), wait(BOB, FILE, u64::MAX));
    assert_eq!(server.waits_of(0..=u64::MAX).collect::<Vec<_>>(), [here, there, last]);
    assert_eq!(server.waits_of(CAT..=CAT).collect::<Vec<_>>(), [here, there]);
    Ok(())
}
