//! Threads that share one server: whoever fetches a grant sends it to the thread that waits for it, by the channel of its ticket.
//!
//! Each of four threads locks one byte a thousand times and counts; no count is lost, since one of them has the byte at a time.

use dehokuna::{Error, LockServer, Mode, Outcome, Policy};
use std::collections::HashMap;
use std::sync::atomic::{AtomicU64, Ordering};
use std::sync::mpsc::{channel, Receiver, Sender};
use std::sync::Mutex;
use std::thread;

const FILE: u64 = 7;
const THREADS: u64 = 4;
const ROUNDS: u64 = 1000;

/// A server, and who waits for which ticket.
struct Shared {
    server: LockServer,
    waiting: HashMap<u64, Sender<()>>,
}

impl Shared {
    /// Sends each grant to the thread that waits for it.
    fn send_grants(&mut self) {
        for ticket in self.server.grants() {
            if let Some(waiter) = self.waiting.remove(&ticket) {
                waiter.send(()).expect("who waits is there");
            }
        }
    }

    /// Asks for the byte; where that waits, the grant comes by the channel.
    fn lock(&mut self, owner: u64) -> Result<Option<Receiver<()>>, Error> {
        // (an owner has one request at a time here, so its number is the ticket)
        let outcome = self.server.wait(owner, FILE, owner, 0..1, Mode::Write, true)?;
        self.send_grants();
        Ok((outcome == Outcome::Waits).then(|| {
            let (sender, receiver) = channel();
            self.waiting.insert(owner, sender);
            receiver
        }))
    }

    fn unlock(&mut self, owner: u64) {
        self.server.flush(FILE, owner);
        self.send_grants();
    }
}

fn work(shared: &Mutex<Shared>, owner: u64, counter: &AtomicU64) -> Result<(), Error> {
    for _ in 0..ROUNDS {
        let grant = shared.lock().expect("no thread panicked").lock(owner)?;
        if let Some(grant) = grant {
            grant.recv().expect("a wait is granted once");
        }
        // A load and a store: the lock alone keeps the others out.
        counter.store(counter.load(Ordering::Relaxed) + 1, Ordering::Relaxed);
        shared.lock().expect("no thread panicked").unlock(owner);
    }
    Ok(())
}

fn main() -> Result<(), Error> {
    let shared = Mutex::new(Shared { server: LockServer::new(Policy::Queue)?, waiting: HashMap::new() });
    let counter = AtomicU64::new(0);
    thread::scope(|scope| {
        let workers: Vec<_> = (0..THREADS)
            .map(|owner| {
                scope.spawn({
                    let (shared, counter) = (&shared, &counter);
                    move || work(shared, owner, counter)
                })
            })
            .collect();
        workers.into_iter().try_for_each(|worker| worker.join().expect("no thread panicked"))
    })?;
    let counted = counter.into_inner();
    println!("{counted} of {}", THREADS * ROUNDS);
    assert_eq!(counted, THREADS * ROUNDS);
    Ok(())
}
