//! The calls of envy.h, envy_setup.h and envy_text.h, and what crosses by them.

use std::ffi::{c_char, c_int, c_void};

#[repr(C)]
#[derive(Clone, Copy, Default)]
pub struct Setup {
    pub segments: u32,
    pub rows: u32,
    pub pages: u32,
    pub shadows: u32,
    pub frames: u32,
    pub entries: u32,
    pub policy: u32,
    pub part: u32,
    pub limit: u64,
    pub mark: u32,
    pub reserves: u32,
    pub sums: u32,
}

#[repr(C)]
#[derive(Clone, Copy, Default)]
pub struct Counts {
    pub hits: u64,
    pub misses: u64,
    pub flushes: u64,
    pub copies: u64,
    pub moves: u64,
    pub erases: u64,
    pub swaps: u64,
}

/// What a memory did and holds.
#[repr(C)]
#[derive(Default)]
pub struct Stats {
    pub counts: Counts,
    pub rows: [u64; 4],
    pub segments: u32,
    pub retired: u32,
    pub reserves: u32,
    pub least_wear: u64,
    pub most_wear: u64,
    pub file_bytes: u64,
}

/// A pair of a map.
#[repr(C)]
#[derive(Clone, Copy, Debug, Default, PartialEq, Eq)]
pub struct Pair {
    pub key: u64,
    pub value: u64,
}

/// The value that a key had, if it had one.
#[repr(C)]
#[derive(Clone, Copy, Default)]
pub struct Old {
    pub value: u64,
    pub had: u32,
}

/// A range of the array, in which a map lies.
#[repr(C)]
#[derive(Clone, Copy)]
pub struct Range {
    pub first: u32,
    pub words: u32,
}

/// A place for a memory, and what is known of its file.
#[repr(C)]
pub struct Handle {
    pub at: *mut c_void,
    pub file: *mut c_void,
}

/// A region of words.
#[repr(C)]
pub struct Words {
    pub at: *mut u64,
    pub len: usize,
}

/// A region of rows of 32 words.
#[repr(C)]
pub struct Rows {
    pub at: *mut [u64; 32],
    pub len: usize,
}

/// The sizes of the regions that a setup asks for.
#[repr(C)]
#[derive(Default)]
pub struct Sizes {
    pub rows: u64,
    pub words: u64,
    pub erases: u64,
}

pub const DONE: u32 = 0;
pub const OFF: u32 = 2;
pub const RANGE: u32 = 3;
pub const HELD: u32 = 4;
pub const FULL: u32 = 5;
pub const BUSY: u32 = 6;
pub const CLOSED: u32 = 7;
pub const BAD: u32 = 8;
pub const NO_MEMORY: u32 = 9;
pub const DEAD: u32 = 12;
pub const POWERED: u32 = 13;
pub const FLASH_SIZE: u32 = 14;
pub const SRAM_SIZE: u32 = 15;
pub const ERASES_SIZE: u32 = 16;
pub const POLICY: u32 = 17;
pub const UNFORMATTED: u32 = 18;
pub const OLDER: u32 = 19;
pub const OTHER_SHAPE: u32 = 20;
pub const FIRST_RULE: u32 = 21;
pub const FIRST_POINT: u32 = 31;
pub const RULE_OF_RESERVES: u32 = 58;
pub const RULE_OF_SUMS: u32 = 59;
pub const POINT_OF_RESERVES: u32 = 63;
pub const ABSENT: u32 = 54;
pub const MAP_FULL: u32 = 55;
pub const SLOT_OPEN: u32 = 56;
pub const MAP_SETUP: u32 = 57;
pub const BROKEN_MAP: u32 = 62;
pub const BAD_ABORTED: u32 = 80;
pub const NO_JOURNAL: u32 = 72;
pub const OTHER_JOURNAL: u32 = 73;
pub const DAMAGED: u32 = 74;
pub const APPENDED: u32 = 75;
pub const OTHER_BOARD: u32 = 76;
pub const SYSTEM: u32 = 1000;
pub const LOCKED: u32 = 1001;
pub const TOO_MANY: u32 = 1002;

pub const GREEDY: u32 = 0;
pub const FIFO: u32 = 1;
pub const LOCALITY: u32 = 2;
pub const HYBRID: u32 = 3;
pub const LIFETIME: u32 = 4;

pub const FLUSHED: u32 = 1;
pub const BEGAN: u32 = 2;
pub const MOVED: u32 = 3;
pub const COPIED: u32 = 4;
pub const SWITCHED: u32 = 5;
pub const PLACED: u32 = 6;
pub const ERASED: u32 = 7;

pub const CREATE: u32 = 1;
pub const BYTEWISE: u32 = 2;
pub const READING: u32 = 4;
pub const COMPACT: u32 = 8;
pub const READ_SIZES: u32 = 16;

extern "C" {
    pub fn envy_version() -> *const c_char;
    pub fn envy_error_text(code: u32) -> *const c_char;
    pub fn envy_setup_for(words: u64, owned_pages: u32, setup: *mut Setup) -> u32;
    pub fn envy_close(m: *mut Handle) -> u32;
    pub fn envy_leave(m: *mut Handle) -> u32;
    pub fn envy_copy(m: *mut Handle, path: *const c_char, setup: *const Setup) -> u32;
    pub fn envy_grow(m: *mut Handle, setup: *const Setup) -> u32;
    pub fn envy_stat(m: *mut Handle, stats: *mut Stats) -> u32;
    pub fn envy_open_file(m: *mut Handle, path: *const c_char, setup: *const Setup, flags: u32) -> u32;
    pub fn envy_open_mapped(m: *mut Handle, path: *const c_char, setup: *const Setup, flags: u32) -> u32;
    pub fn envy_file_shape(path: *const c_char, setup: *mut Setup) -> u32;
    pub fn envy_file_error(m: *const Handle) -> c_int;
    pub fn envy_sync(m: *mut Handle) -> u32;
    pub fn envy_compact(m: *mut Handle) -> u32;
    pub fn envy_region_sizes(setup: *const Setup, sizes: *mut Sizes) -> u32;
    pub fn envy_sram_shape(sram: *const u64, n: usize, setup: *mut Setup) -> u32;
    pub fn envy_format_regions(m: *mut Handle, setup: *const Setup, flash: Rows, sram: Words, erases: Words) -> u32;
    pub fn envy_open_regions(m: *mut Handle, setup: *const Setup, flash: Rows, sram: Words, erases: Words) -> u32;
    pub fn envy_open_sim(m: *mut Handle, setup: *const Setup, lives: u32) -> u32;
    pub fn envy_restore(m: *mut Handle, setup: *const Setup, lives: u32, image: *const u8, n: usize) -> u32;
    pub fn envy_image_size(setup: *const Setup, size: *mut u64) -> u32;
    pub fn envy_image_shape(image: *const u8, n: usize, setup: *mut Setup) -> u32;
    pub fn envy_save(m: *mut Handle, image: *mut u8, n: usize) -> u32;
    pub fn envy_arm_cut(m: *mut Handle, k: u32, g: u64) -> u32;
    pub fn envy_arm_bad(m: *mut Handle, k: u32, g: u64) -> u32;
    pub fn envy_cut_now(m: *mut Handle) -> u32;
    pub fn envy_revive(m: *mut Handle) -> u32;
    pub fn envy_lives(m: *mut Handle, left: *mut u32) -> u32;
    pub fn envy_load(m: *mut Handle, address: u32, word: *mut u64) -> u32;
    pub fn envy_look(m: *mut Handle, address: u32, word: *mut u64) -> u32;
    pub fn envy_read(m: *mut Handle, address: u32, words: *mut u64, n: usize) -> u32;
    pub fn envy_store(m: *mut Handle, address: u32, word: u64, holder: *mut u32) -> u32;
    pub fn envy_store_run(
        m: *mut Handle,
        address: u32,
        words: *const u64,
        n: usize,
        done: *mut usize,
        holder: *mut u32,
    ) -> u32;
    pub fn envy_begin(m: *mut Handle, slot: *mut u32) -> u32;
    pub fn envy_put(m: *mut Handle, slot: u32, address: u32, word: u64, holder: *mut u32) -> u32;
    pub fn envy_write(
        m: *mut Handle,
        slot: u32,
        address: u32,
        words: *const u64,
        n: usize,
        done: *mut usize,
        holder: *mut u32,
    ) -> u32;
    pub fn envy_view(m: *mut Handle, slot: u32, address: u32, word: *mut u64) -> u32;
    pub fn envy_commit(m: *mut Handle, slot: u32) -> u32;
    pub fn envy_abort(m: *mut Handle, slot: u32) -> u32;
    pub fn envy_tick(m: *mut Handle, did: *mut u32) -> u32;
    pub fn envy_counters(m: *mut Handle, counts: *mut Counts) -> u32;
    pub fn envy_worn(m: *mut Handle, retired: *mut u32, left: *mut u32) -> u32;
    pub fn envy_index_create(m: *mut Handle) -> u32;
    pub fn envy_index_get(m: *mut Handle, key: u64, value: *mut u64) -> u32;
    pub fn envy_index_insert(m: *mut Handle, key: u64, value: u64, before: *mut Old) -> u32;
    pub fn envy_index_remove(m: *mut Handle, key: u64, value: *mut u64) -> u32;
    pub fn envy_index_count(m: *mut Handle, count: *mut u64) -> u32;
    pub fn envy_index_next(m: *mut Handle, key: u64, pair: *mut Pair) -> u32;
    pub fn envy_index_above(m: *mut Handle, key: u64, pair: *mut Pair) -> u32;
    pub fn envy_index_last(m: *mut Handle, key: u64, pair: *mut Pair) -> u32;
    pub fn envy_index_scan(m: *mut Handle, key: u64, pairs: *mut Pair, n: usize, count: *mut usize) -> u32;
    pub fn envy_index_scan_down(m: *mut Handle, key: u64, pairs: *mut Pair, n: usize, count: *mut usize) -> u32;
    pub fn envy_map_begin(m: *mut Handle, slot: *mut u32) -> u32;
    pub fn envy_map_create(m: *mut Handle, slot: u32, map: *const Range) -> u32;
    pub fn envy_map_load(m: *mut Handle, map: *const Range, pairs: *const Pair, n: usize) -> u32;
    pub fn envy_map_insert(m: *mut Handle, slot: u32, map: *const Range, key: u64, value: u64, before: *mut Old) -> u32;
    pub fn envy_map_remove(m: *mut Handle, slot: u32, map: *const Range, key: u64, value: *mut u64) -> u32;
    pub fn envy_map_commit(m: *mut Handle, slot: u32) -> u32;
    pub fn envy_map_abort(m: *mut Handle, slot: u32) -> u32;
    pub fn envy_map_get(m: *mut Handle, map: *const Range, key: u64, value: *mut u64) -> u32;
    pub fn envy_map_count(m: *mut Handle, map: *const Range, count: *mut u64) -> u32;
    pub fn envy_map_check(m: *mut Handle, map: *const Range, rule: *mut u32) -> u32;
    pub fn envy_map_scan(
        m: *mut Handle,
        map: *const Range,
        key: u64,
        pairs: *mut Pair,
        n: usize,
        count: *mut usize,
    ) -> u32;
    pub fn envy_map_scan_down(
        m: *mut Handle,
        map: *const Range,
        key: u64,
        pairs: *mut Pair,
        n: usize,
        count: *mut usize,
    ) -> u32;
}
