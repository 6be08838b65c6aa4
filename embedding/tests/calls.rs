//! The library from Rust: what dehokuna.h declares, as far as this program calls it. It waits for a lock and is granted it.

use std::ffi::c_void;
use std::process::ExitCode;
use std::ptr;

/// `struct dehokuna_server`: it may be moved, and is not copied.
#[repr(C)]
struct Server {
    at: *mut c_void,
}

/// `struct dehokuna_blocker`.
#[repr(C)]
struct Blocker {
    owner: u64,
    first: u64,
    last: u64,
    mode: u32,
}

const HELD: u32 = 0;
const WRITE: u32 = 2;
const DONE: u32 = 0;
const BLOCKED: u32 = 1;
const WAITS: u32 = 2;
const INVALID: u32 = 6;

extern "C" {
    fn dehokuna_create(server: &mut Server, policy: u32) -> bool;
    fn dehokuna_destroy(server: &mut Server);
    fn dehokuna_get(server: &Server, file: u64, owner: u64, first: u64, last: u64, mode: u32, blocker: &mut Blocker) -> u32;
    fn dehokuna_set(server: &mut Server, file: u64, owner: u64, first: u64, last: u64, mode: u32) -> u32;
    fn dehokuna_wait(server: &mut Server, ticket: u64, file: u64, owner: u64, first: u64, last: u64, mode: u32, detect: bool) -> u32;
    fn dehokuna_flush(server: &mut Server, file: u64, owner: u64);
    fn dehokuna_next_grant(server: &mut Server, ticket: &mut u64) -> bool;
}

/// A server, which moves to the caller; `None` where there is no memory.
fn created() -> Option<Server> {
    let mut server = Server { at: ptr::null_mut() };
    // SAFETY: the server is zero.
    unsafe { dehokuna_create(&mut server, HELD) }.then_some(server)
}

/// Each answer, beside what is right.
fn answers(server: &mut Server) -> [(u64, u64); 9] {
    let mut ticket = 0;
    let mut told = Blocker { owner: 0, first: 0, last: 0, mode: 0 };
    // SAFETY: the server is created and not destroyed, and this is the one thread.
    unsafe {
        [
            (dehokuna_set(server, 7, 1, 0, 9, WRITE).into(), DONE.into()),
            (dehokuna_set(server, 7, 2, 5, 5, WRITE).into(), BLOCKED.into()),
            (dehokuna_wait(server, 70, 7, 2, 5, 5, WRITE, true).into(), WAITS.into()),
            {
                dehokuna_flush(server, 7, 1);
                (dehokuna_next_grant(server, &mut ticket).into(), 1)
            },
            (ticket, 70),
            (dehokuna_get(server, 7, 1, 5, u64::MAX, WRITE, &mut told).into(), BLOCKED.into()),
            (told.owner, 2),
            (told.last, 5),
            (dehokuna_get(server, 7, 1, 5, 4, WRITE, &mut told).into(), INVALID.into()),
        ]
    }
}

fn main() -> ExitCode {
    let Some(mut server) = created() else {
        return ExitCode::FAILURE;
    };
    let answers = answers(&mut server);
    // SAFETY: the server is created.
    unsafe { dehokuna_destroy(&mut server) };
    let failed = answers.iter().filter(|(answer, right)| answer != right).count();
    println!("{} passed, {failed} failed", answers.len() - failed);
    if failed == 0 { ExitCode::SUCCESS } else { ExitCode::FAILURE }
}
