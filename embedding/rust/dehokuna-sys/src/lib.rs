//! What dehokuna.h declares; the header says of each function what it does, and what its caller owes.
#![no_std]
#![allow(non_camel_case_types)]

use core::ffi::c_void;

/// A server, zero as long as there is none. It may be moved, where from then on the new place alone is used.
#[repr(C)]
#[derive(Debug)]
pub struct dehokuna_server {
    pub at: *mut c_void,
}

/// A byte lock that blocks, or that is listed.
#[repr(C)]
#[derive(Debug, Clone, Copy, PartialEq, Eq, Default)]
pub struct dehokuna_blocker {
    pub owner: u64,
    pub first: u64,
    pub last: u64,
    pub mode: u32,
}

/// A flock lock.
#[repr(C)]
#[derive(Debug, Clone, Copy, PartialEq, Eq, Default)]
pub struct dehokuna_flock_lock {
    pub owner: u64,
    pub mode: u32,
}

/// A wait, with what is in its way.
#[repr(C)]
#[derive(Debug, Clone, Copy, PartialEq, Eq, Default)]
pub struct dehokuna_waiting {
    pub ticket: u64,
    pub owner: u64,
    pub first: u64,
    pub last: u64,
    pub mode: u32,
    pub family: u32,
    pub detect: bool,
    pub obstacle: u32,
    pub blocker: dehokuna_blocker,
    pub behind: u64,
}

/// A wait by its owner, its file and its ticket.
#[repr(C)]
#[derive(Debug, Clone, Copy, PartialEq, Eq, Default)]
pub struct dehokuna_owner_wait {
    pub owner: u64,
    pub file: u64,
    pub ticket: u64,
}

/// What is wrong with bytes that no server exports.
#[repr(C)]
#[derive(Debug, Clone, Copy, PartialEq, Eq, Default)]
pub struct dehokuna_fault {
    pub flaw: u32,
    pub offset: usize,
}

/// How many locks and waits a client has.
#[repr(C)]
#[derive(Debug, Clone, Copy, PartialEq, Eq, Default)]
pub struct dehokuna_counts {
    pub runs: u64,
    pub flock_locks: u64,
    pub waits: u64,
}

/// The largest offset of a byte: a range to the end of the file ends there.
pub const DEHOKUNA_LARGEST_OFFSET: u64 = 9_223_372_036_854_775_807;

/// enum dehokuna_policy.
pub const DEHOKUNA_HELD: u32 = 0;
pub const DEHOKUNA_QUEUE: u32 = 1;

/// Or'd to the policy.
pub const DEHOKUNA_ATOMIC: u32 = 256;

/// enum dehokuna_mode.
pub const DEHOKUNA_UNLOCK: u32 = 0;
pub const DEHOKUNA_READ: u32 = 1;
pub const DEHOKUNA_WRITE: u32 = 2;

/// enum dehokuna_status.
pub const DEHOKUNA_DONE: u32 = 0;
pub const DEHOKUNA_BLOCKED: u32 = 1;
pub const DEHOKUNA_WAITS: u32 = 2;
pub const DEHOKUNA_DEADLOCK: u32 = 3;
pub const DEHOKUNA_TICKET_TAKEN: u32 = 4;
pub const DEHOKUNA_NO_MEMORY: u32 = 5;
pub const DEHOKUNA_INVALID: u32 = 6;

/// enum dehokuna_family.
pub const DEHOKUNA_BYTES: u32 = 0;
pub const DEHOKUNA_WHOLE: u32 = 1;

/// enum dehokuna_obstacle.
pub const DEHOKUNA_BY_LOCK: u32 = 0;
pub const DEHOKUNA_BY_FLOCK: u32 = 1;
pub const DEHOKUNA_BY_WAIT: u32 = 2;

/// enum dehokuna_flaw.
pub const DEHOKUNA_FORM: u32 = 0;
pub const DEHOKUNA_ORDER: u32 = 1;
pub const DEHOKUNA_CONFLICT: u32 = 2;
pub const DEHOKUNA_TICKET: u32 = 3;
pub const DEHOKUNA_UNBLOCKED: u32 = 4;
pub const DEHOKUNA_CYCLE: u32 = 5;
pub const DEHOKUNA_CROSSED: u32 = 6;

extern "C" {
    pub fn dehokuna_create(server: *mut dehokuna_server, policy: u32) -> bool;
    pub fn dehokuna_destroy(server: *mut dehokuna_server);
    pub fn dehokuna_get(
        server: *const dehokuna_server,
        file: u64,
        owner: u64,
        first: u64,
        last: u64,
        mode: u32,
        blocker: *mut dehokuna_blocker,
    ) -> u32;
    pub fn dehokuna_set(server: *mut dehokuna_server, file: u64, owner: u64, first: u64, last: u64, mode: u32) -> u32;
    pub fn dehokuna_wait(
        server: *mut dehokuna_server,
        ticket: u64,
        file: u64,
        owner: u64,
        first: u64,
        last: u64,
        mode: u32,
        detect: bool,
    ) -> u32;
    pub fn dehokuna_cancel(server: *mut dehokuna_server, ticket: u64) -> bool;
    pub fn dehokuna_note(server: *mut dehokuna_server, file: u64, owner: u64, open_file: u64) -> bool;
    pub fn dehokuna_flush(server: *mut dehokuna_server, file: u64, owner: u64);
    pub fn dehokuna_forget(server: *mut dehokuna_server, owner: u64);
    pub fn dehokuna_forget_owners(server: *mut dehokuna_server, first_owner: u64, last_owner: u64);
    pub fn dehokuna_forget_file(server: *mut dehokuna_server, file: u64);
    pub fn dehokuna_has_locks(server: *const dehokuna_server, first_owner: u64, last_owner: u64) -> bool;
    pub fn dehokuna_counts(server: *const dehokuna_server, first_owner: u64, last_owner: u64, counts: *mut dehokuna_counts);
    pub fn dehokuna_flock(server: *mut dehokuna_server, file: u64, owner: u64, mode: u32) -> u32;
    pub fn dehokuna_flock_wait(server: *mut dehokuna_server, ticket: u64, file: u64, owner: u64, mode: u32) -> u32;
    pub fn dehokuna_flock_release(server: *mut dehokuna_server, file: u64, owner: u64);
    pub fn dehokuna_release(server: *mut dehokuna_server, file: u64, open_file: u64, has_flock_owner: bool, flock_owner: u64);
    pub fn dehokuna_next_grant(server: *mut dehokuna_server, ticket: *mut u64) -> bool;
    pub fn dehokuna_export_size(server: *const dehokuna_server) -> usize;
    pub fn dehokuna_export(server: *const dehokuna_server, out: *mut u8, room: usize) -> usize;
    pub fn dehokuna_import(server: *mut dehokuna_server, bytes: *const u8, size: usize, fault: *mut dehokuna_fault) -> u32;
    pub fn dehokuna_next_file(server: *const dehokuna_server, from: u64, file: *mut u64) -> bool;
    pub fn dehokuna_next_lock(server: *const dehokuna_server, file: u64, owner: u64, first: u64, lock: *mut dehokuna_blocker) -> bool;
    pub fn dehokuna_next_flock(server: *const dehokuna_server, file: u64, from: u64, lock: *mut dehokuna_flock_lock) -> bool;
    pub fn dehokuna_wait_at(server: *const dehokuna_server, file: u64, place: u64, waiting: *mut dehokuna_waiting) -> bool;
    pub fn dehokuna_next_wait(
        server: *const dehokuna_server,
        owner: u64,
        file: u64,
        ticket: u64,
        last: u64,
        wait: *mut dehokuna_owner_wait,
    ) -> bool;
}
