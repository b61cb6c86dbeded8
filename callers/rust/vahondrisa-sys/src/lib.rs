//! The functions of `vahondrisa.h`, name for name. `vahondrisa` is the safe crate over them.
#![allow(non_camel_case_types)]
#![no_std]
use core::ffi::{c_char, c_int, c_uint, c_void};

#[repr(C)]
pub struct vah_store {
    _private: [u8; 0],
}

#[repr(C)]
pub struct vah_txn {
    _private: [u8; 0],
}

pub const VAH_KEY_MAX: usize = 255;
pub const VAH_SCAN_MAX: usize = 256;

#[repr(C)]
#[derive(Clone, Copy, Debug)]
pub struct vah_entry {
    pub rid: u64,
    pub len: u8,
    pub key: [u8; VAH_KEY_MAX],
}

#[repr(C)]
#[derive(Clone, Copy, Debug)]
pub struct vah_ref {
    pub key: *const u8,
    pub len: usize,
    pub rid: u64,
}

#[repr(C)]
#[derive(Clone, Copy, Debug, Default)]
pub struct vah_reading {
    pub left: u64,
    pub number: u32,
    pub is_half: u8,
}

pub type vah_progress = unsafe extern "C" fn(with: *mut c_void, bytes: u64) -> c_int;

pub type vah_next_entries = unsafe extern "C" fn(with: *mut c_void, entries: *mut vah_ref) -> c_int;

#[repr(C)]
#[derive(Clone, Copy, Debug)]
pub struct vah_config {
    pub size: usize,
    pub frames: u32,
    pub max_pages: u32,
    pub redo_bytes: u64,
    pub log_bytes: u64,
    pub wait_ms: u64,
    pub progress: Option<vah_progress>,
    pub with: *mut c_void,
    pub read_only: u64,
    pub cache_bytes: u64,
}

#[repr(C)]
#[derive(Clone, Copy, Debug, Default)]
pub struct vah_info {
    pub active: u64,
    pub dirty_pages: u64,
    pub durable_end: u64,
    pub redo_from: u64,
    pub redone: u64,
    pub has_failed: u64,
    pub restarts: u64,
    pub waits: u64,
    pub forces: u64,
    pub syncs: u64,
    pub page_reads: u64,
    pub page_writes: u64,
    pub log_bytes: u64,
}

pub const VAH_OK: c_int = 0;
pub const VAH_NOT_FOUND: c_int = 100;
pub const VAH_EXISTS: c_int = 101;
pub const VAH_GIVE_WAY: c_int = 102;
pub const VAH_BUSY: c_int = 103;
pub const VAH_INVALID: c_int = 104;
pub const VAH_ACTIVE: c_int = 105;
pub const VAH_FORKED: c_int = 106;
pub const VAH_DEADLOCK: c_int = 107;
pub const VAH_STOPPED: c_int = 108;
pub const VAH_CLOSED: c_int = 109;
pub const VAH_READ_ONLY: c_int = 110;
pub const VAH_NOT_EMPTY: c_int = 111;
pub const VAH_NOT_COPIED: c_int = 112;
pub const VAH_NOT_RISING: c_int = 113;
pub const VAH_NO_TRANSACTION: c_int = 1;
pub const VAH_MUST_ROLL_BACK: c_int = 2;
pub const VAH_KEY_LENGTH: c_int = 3;
pub const VAH_ROLLING_BACK: c_int = 4;
pub const VAH_PAGES_FULL: c_int = 5;
pub const VAH_CAPACITY: c_int = 6;
pub const VAH_LOG_FULL: c_int = 7;
pub const VAH_DEVICE: c_int = 8;
pub const VAH_MEMORY: c_int = 9;
pub const VAH_FAILED: c_int = 10;
pub const VAH_NOT_A_STORE: c_int = 11;
pub const VAH_TOO_MANY: c_int = 12;
pub const VAH_POOL_SIZE: c_int = 13;
pub const VAH_LOCKED: c_int = 19;
pub const VAH_NO_WAIT: c_uint = 1;
pub const VAH_NAME_ROW: c_uint = 0;
pub const VAH_NAME_GUARD: c_uint = 1;
pub const VAH_NAME_ENTRY: c_uint = 2;
pub const VAH_NAME_FIRST: c_uint = 3;
pub const VAH_NAME_LAST: c_uint = 4;
pub const VAH_NAME_PARTS: c_uint = 5;
pub const VAH_NAME_PARTS_END: c_uint = 6;
pub const VAH_REDO_GROWS: u64 = u64::MAX;
pub const VAH_LOG_GROWS: u64 = u64::MAX;
pub const VAH_CACHE_FITS: u64 = u64::MAX;

// The library's own build tests these sizes and places too.
const _: () = assert!(core::mem::size_of::<vah_entry>() == 264 && core::mem::offset_of!(vah_entry, key) == 9);
const _: () = assert!(core::mem::size_of::<vah_ref>() == 24);
const _: () = assert!(core::mem::size_of::<vah_reading>() == 16 && core::mem::offset_of!(vah_reading, is_half) == 12);
const _: () = assert!(core::mem::size_of::<vah_config>() == 72 && core::mem::offset_of!(vah_config, redo_bytes) == 16);
const _: () = assert!(core::mem::offset_of!(vah_config, wait_ms) == 32 && core::mem::offset_of!(vah_config, progress) == 40 && core::mem::offset_of!(vah_config, cache_bytes) == 64);
const _: () = assert!(core::mem::size_of::<vah_info>() == 104);

extern "C" {
    pub fn vah_strerror(code: c_int) -> *const c_char;
    pub fn vah_last_error() -> *const c_char;
    pub fn vah_version() -> c_int;
    pub fn vah_build() -> *const c_char;
    pub fn vah_open(path: *const c_char, config: *const vah_config, store: *mut *mut vah_store) -> c_int;
    pub fn vah_close(store: *mut vah_store) -> c_int;
    pub fn vah_begin_with(store: *mut vah_store, flags: c_uint, txn: *mut *mut vah_txn) -> c_int;
    pub fn vah_begin_within(store: *mut vah_store, flags: c_uint, wait_ms: u64, txn: *mut *mut vah_txn) -> c_int;
    pub fn vah_set_wait(txn: *mut vah_txn, wait_ms: u64) -> c_int;
    pub fn vah_commit(txn: *mut vah_txn) -> c_int;
    pub fn vah_again(txn: *mut vah_txn) -> c_int;
    pub fn vah_rollback(txn: *mut vah_txn) -> c_int;
    pub fn vah_savepoint(txn: *mut vah_txn, save: *mut u64) -> c_int;
    pub fn vah_roll_to(txn: *mut vah_txn, save: u64) -> c_int;
    pub fn vah_fetch(txn: *mut vah_txn, key: *const c_void, len: usize, rid: *mut u64) -> c_int;
    pub fn vah_insert(txn: *mut vah_txn, key: *const c_void, len: usize, rid: u64) -> c_int;
    pub fn vah_put(txn: *mut vah_txn, key: *const c_void, len: usize, rid: u64, was_there: *mut c_int, previous: *mut u64) -> c_int;
    pub fn vah_delete(txn: *mut vah_txn, key: *const c_void, len: usize) -> c_int;
    pub fn vah_seek(txn: *mut vah_txn, key: *const c_void, len: usize, entry: *mut vah_entry) -> c_int;
    pub fn vah_next(txn: *mut vah_txn, key: *const c_void, len: usize, entry: *mut vah_entry) -> c_int;
    pub fn vah_prev(txn: *mut vah_txn, key: *const c_void, len: usize, entry: *mut vah_entry) -> c_int;
    pub fn vah_last(txn: *mut vah_txn, entry: *mut vah_entry) -> c_int;
    pub fn vah_scan(
        txn: *mut vah_txn, lo: *const c_void, lo_len: usize, hi: *const c_void, hi_len: usize,
        entries: *mut vah_entry, max: usize, count: *mut usize,
    ) -> c_int;
    pub fn vah_scan_refs(
        txn: *mut vah_txn, lo: *const c_void, lo_len: usize, hi: *const c_void, hi_len: usize,
        refs: *mut vah_ref, max: usize, count: *mut usize,
    ) -> c_int;
    pub fn vah_checkpoint(store: *mut vah_store) -> c_int;
    pub fn vah_switch(store: *mut vah_store) -> c_int;
    pub fn vah_flush(store: *mut vah_store) -> c_int;
    pub fn vah_load(path: *const c_char, next: Option<vah_next_entries>, with: *mut c_void) -> c_int;
    pub fn vah_compact(path: *const c_char, folder: *const c_char) -> c_int;
    pub fn vah_copy(store: *mut vah_store, folder: *const c_char) -> c_int;
    pub fn vah_copy_with(store: *mut vah_store, folder: *const c_char, progress: Option<vah_progress>, with: *mut c_void) -> c_int;
    pub fn vah_name_key(
        which: c_uint, name: *const c_void, name_len: usize, key: *const c_void, key_len: usize, to: *mut u8, to_len: *mut usize,
    ) -> c_int;
    pub fn vah_long_part(
        key: *mut u8, front: usize, value: *const c_void, size: usize, number: u32, key_len: *mut usize, rid: *mut u64,
    ) -> c_int;
    pub fn vah_long_read(reading: *mut vah_reading, front: usize, key: *const c_void, len: usize, rid: u64) -> c_int;
    pub fn vah_long_key(part: *const c_void, len: usize, key: *mut u8, key_len: *mut usize, front: *mut usize) -> c_int;
    pub fn vah_stat_with(store: *mut vah_store, info: *mut vah_info, size: usize) -> c_int;
}
