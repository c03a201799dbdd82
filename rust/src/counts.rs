//! What a memory did.

use crate::sys;

/// How many segments in reserve are retired, and how many are left: together those of the setup.
#[derive(Clone, Copy, Debug, Default, PartialEq, Eq)]
pub struct Worn {
    pub retired: u32,
    pub left: u32,
}

/// What a memory has done since it was opened. Each counter stops at `u64::MAX`.
#[derive(Clone, Copy, Debug, Default, PartialEq, Eq)]
pub struct Counts {
    pub hits: u64,
    pub misses: u64,
    pub flushes: u64,
    pub copies: u64,
    pub moves: u64,
    pub erases: u64,
    pub swaps: u64,
}

/// What a memory did and holds.
#[derive(Clone, Copy, Debug, Default, PartialEq, Eq)]
pub struct Stats {
    pub counts: Counts,
    /// Rows of flash that are erased, that loads read, that hold the earlier words of owned pages, and that are dead.
    pub free: u64,
    pub kept: u64,
    pub shadows: u64,
    pub dead: u64,
    /// Segments, and how often the one was erased that was erased least, and most.
    pub segments: u32,
    pub least_wear: u64,
    pub most_wear: u64,
    pub worn: Worn,
    /// Bytes of the file that it was opened from, else 0.
    pub file_bytes: u64,
}

/// What a background step did.
#[derive(Clone, Copy, Debug, PartialEq, Eq)]
pub enum Did {
    Idle,
    Flushed,
    Began,
    Moved,
    Copied,
    Switched,
    Placed,
    Erased,
}

pub(crate) fn did_of(number: u32) -> Did {
    match number {
        sys::FLUSHED => Did::Flushed,
        sys::BEGAN => Did::Began,
        sys::MOVED => Did::Moved,
        sys::COPIED => Did::Copied,
        sys::SWITCHED => Did::Switched,
        sys::PLACED => Did::Placed,
        sys::ERASED => Did::Erased,
        _ => Did::Idle,
    }
}

pub(crate) fn stats_of(found: sys::Stats) -> Stats {
    let [free, kept, shadows, dead] = found.rows;
    Stats {
        counts: counts_of(found.counts),
        free,
        kept,
        shadows,
        dead,
        segments: found.segments,
        least_wear: found.least_wear,
        most_wear: found.most_wear,
        worn: Worn { retired: found.retired, left: found.reserves },
        file_bytes: found.file_bytes,
    }
}

pub(crate) fn counts_of(found: sys::Counts) -> Counts {
    Counts {
        hits: found.hits,
        misses: found.misses,
        flushes: found.flushes,
        copies: found.copies,
        moves: found.moves,
        erases: found.erases,
        swaps: found.swaps,
    }
}
