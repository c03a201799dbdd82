//! Why a call wasn't done.

use crate::sys;
use std::ffi::CStr;
use std::{fmt, io};

/// Why a call wasn't done. Nothing changed then, but as [`Stopped`] says.
#[derive(Debug)]
#[non_exhaustive]
pub enum Error {
    /// The address lies past the last page.
    Range,
    /// The transaction of another slot owns the page.
    Held { slot: u32 },
    /// The page has no owner, and no more pages may be owned.
    Full,
    /// All 64 slots are open.
    Busy,
    /// The slot isn't open.
    Closed,
    /// A flash operation failed, and no word changed. Of a board that can be made to fail.
    Bad,
    /// Power doesn't return: no life is left. Of a board that can be made to fail.
    Dead,
    /// Power is on already. Of a board that can be made to fail.
    Powered,
    /// What the memory stands over can't do this.
    OtherBoard,
    /// The heap gave nothing.
    NoMemory,
    /// The flash of a mapped file, or of regions, hasn't as many rows as the setup asks.
    FlashSize,
    /// The SRAM hasn't as many words as the setup asks.
    SramSize,
    /// There aren't as many counts of erases as the setup has segments.
    ErasesSize,
    /// No policy has the setup's number.
    Policy,
    /// What a mapped file, regions or an image holds isn't formatted.
    Unformatted,
    /// What was found is of an older version.
    Older,
    /// What was found has another shape than the setup.
    OtherShape,
    /// The setup breaks this rule.
    Setup(Rule),
    /// What was found is damaged: the first point of soundness that fails.
    Damaged(Point),
    /// The map has as many pairs as it may have.
    MapFull,
    /// A transaction is open, which is to be ended first.
    SlotOpen,
    /// The setup has fewer than 20 pages or 32 shadows, so no map fits.
    MapSetup,
    /// The words of the memory stand for no map.
    BrokenMap,
    /// A flash operation failed, and the transaction of maps was aborted.
    BadAborted,
    /// The file failed, for this reason: open it again. Or power is off or failed in the call, of a board that can be made to
    /// fail.
    Off(io::Error),
    /// The file holds no memory: of a file that is kept, and of either kind as [`Setup::of_file`](crate::Setup::of_file) looks.
    NoJournal,
    /// The file is a journal of another version. Of kept files alone.
    OtherJournal,
    /// The file is a journal that no crash leaves so: something else changed it. Of kept files alone.
    DamagedJournal,
    /// All is on the disk, as after a sync, but no second file of a compaction could be written, for this reason. Of kept
    /// files alone.
    Appended(io::Error),
    /// Another process, or another `Memory`, has the file open.
    Locked,
    /// As many files are open as the library serves at a time. Of kept files alone.
    TooMany,
    /// The system refused a call.
    System(io::Error),
    /// A number that this package doesn't know.
    Other(u32),
}

/// A rule of setups, in the order in which they are checked.
#[derive(Clone, Copy, Debug, PartialEq, Eq)]
pub enum Rule {
    Segments,
    Rows,
    Pages,
    Frames,
    Entries,
    Share,
    Total,
    Part,
    Limit,
    Mark,
    /// Asked after `Segments`.
    Reserves,
    /// Asked after `Reserves`.
    Sums,
}

/// A point of soundness, in the order in which an audit asks them.
#[derive(Clone, Copy, Debug, PartialEq, Eq)]
pub enum Point {
    Fields,
    Positions,
    Frames,
    Rows,
    Claims,
    Free,
    Spare,
    Places,
    Job,
    Copies,
    Owned,
    Undos,
    Reserves,
}

impl Rule {
    // the rules that came later have numbers after those of all other answers
    fn code(self) -> u32 {
        match self {
            Rule::Reserves => sys::RULE_OF_RESERVES,
            Rule::Sums => sys::RULE_OF_SUMS,
            rule => sys::FIRST_RULE + rule as u32,
        }
    }
}

impl Point {
    fn code(self) -> u32 {
        match self {
            Point::Reserves => sys::POINT_OF_RESERVES,
            point => sys::FIRST_POINT + point as u32,
        }
    }
}

const RULES: [Rule; 12] = [
    Rule::Segments,
    Rule::Rows,
    Rule::Pages,
    Rule::Frames,
    Rule::Entries,
    Rule::Share,
    Rule::Total,
    Rule::Part,
    Rule::Limit,
    Rule::Mark,
    Rule::Reserves,
    Rule::Sums,
];

const POINTS: [Point; 13] = [
    Point::Fields,
    Point::Positions,
    Point::Frames,
    Point::Rows,
    Point::Claims,
    Point::Free,
    Point::Spare,
    Point::Places,
    Point::Job,
    Point::Copies,
    Point::Owned,
    Point::Undos,
    Point::Reserves,
];

/// A call of several words that was ended: the words before the one that was refused are put or stored.
#[derive(Debug)]
pub struct Stopped {
    pub done: usize,
    pub error: Error,
}

impl Error {
    /// The number in envy_codes.h.
    pub fn code(&self) -> u32 {
        match self {
            Error::Range => sys::RANGE,
            Error::Held { .. } => sys::HELD,
            Error::Full => sys::FULL,
            Error::Busy => sys::BUSY,
            Error::Closed => sys::CLOSED,
            Error::Bad => sys::BAD,
            Error::Dead => sys::DEAD,
            Error::Powered => sys::POWERED,
            Error::OtherBoard => sys::OTHER_BOARD,
            Error::NoMemory => sys::NO_MEMORY,
            Error::FlashSize => sys::FLASH_SIZE,
            Error::SramSize => sys::SRAM_SIZE,
            Error::ErasesSize => sys::ERASES_SIZE,
            Error::Policy => sys::POLICY,
            Error::Unformatted => sys::UNFORMATTED,
            Error::Older => sys::OLDER,
            Error::OtherShape => sys::OTHER_SHAPE,
            Error::Setup(rule) => rule.code(),
            Error::Damaged(point) => point.code(),
            Error::MapFull => sys::MAP_FULL,
            Error::SlotOpen => sys::SLOT_OPEN,
            Error::MapSetup => sys::MAP_SETUP,
            Error::BrokenMap => sys::BROKEN_MAP,
            Error::BadAborted => sys::BAD_ABORTED,
            Error::Off(_) => sys::OFF,
            Error::NoJournal => sys::NO_JOURNAL,
            Error::OtherJournal => sys::OTHER_JOURNAL,
            Error::DamagedJournal => sys::DAMAGED,
            Error::Appended(_) => sys::APPENDED,
            Error::Locked => sys::LOCKED,
            Error::TooMany => sys::TOO_MANY,
            Error::System(_) => sys::SYSTEM,
            Error::Other(code) => *code,
        }
    }

    /// The error of a number other than that of a call that was done.
    pub(crate) fn of(code: u32, holder: u32) -> Error {
        match code {
            sys::RANGE => Error::Range,
            sys::HELD => Error::Held { slot: holder },
            sys::FULL => Error::Full,
            sys::BUSY => Error::Busy,
            sys::CLOSED => Error::Closed,
            sys::BAD => Error::Bad,
            sys::DEAD => Error::Dead,
            sys::POWERED => Error::Powered,
            sys::OTHER_BOARD => Error::OtherBoard,
            sys::NO_MEMORY => Error::NoMemory,
            sys::FLASH_SIZE => Error::FlashSize,
            sys::SRAM_SIZE => Error::SramSize,
            sys::ERASES_SIZE => Error::ErasesSize,
            sys::POLICY => Error::Policy,
            sys::UNFORMATTED => Error::Unformatted,
            sys::OLDER => Error::Older,
            sys::OTHER_SHAPE => Error::OtherShape,
            sys::MAP_FULL => Error::MapFull,
            sys::SLOT_OPEN => Error::SlotOpen,
            sys::MAP_SETUP => Error::MapSetup,
            sys::BROKEN_MAP => Error::BrokenMap,
            sys::BAD_ABORTED => Error::BadAborted,
            sys::OFF => Error::Off(io::Error::last_os_error()),
            sys::NO_JOURNAL => Error::NoJournal,
            sys::OTHER_JOURNAL => Error::OtherJournal,
            sys::DAMAGED => Error::DamagedJournal,
            sys::APPENDED => Error::Appended(io::Error::last_os_error()),
            sys::SYSTEM => Error::System(io::Error::last_os_error()),
            sys::LOCKED => Error::Locked,
            sys::TOO_MANY => Error::TooMany,
            _ => Error::of_list(code),
        }
    }

    fn of_list(code: u32) -> Error {
        let rule = RULES.iter().find(|rule| rule.code() == code);
        let point = POINTS.iter().find(|point| point.code() == code);
        match (rule, point) {
            (Some(rule), _) => Error::Setup(*rule),
            (None, Some(point)) => Error::Damaged(*point),
            (None, None) => Error::Other(code),
        }
    }

    pub(crate) fn check(code: u32) -> Result<(), Error> {
        if code == sys::DONE {
            Ok(())
        } else {
            Err(Error::of(code, 0))
        }
    }
}

impl fmt::Display for Error {
    fn fmt(&self, f: &mut fmt::Formatter<'_>) -> fmt::Result {
        // SAFETY: the text is a string that lasts as long as the program.
        let text = unsafe { CStr::from_ptr(sys::envy_error_text(self.code())) };
        f.write_str(&text.to_string_lossy())?;
        match self {
            Error::Held { slot } => write!(f, ": that of slot {slot}"),
            Error::Off(error) | Error::Appended(error) | Error::System(error) => write!(f, ": {error}"),
            _ => Ok(()),
        }
    }
}

impl std::error::Error for Error {
    fn source(&self) -> Option<&(dyn std::error::Error + 'static)> {
        match self {
            Error::Off(error) | Error::Appended(error) | Error::System(error) => Some(error),
            _ => None,
        }
    }
}

impl fmt::Display for Stopped {
    fn fmt(&self, f: &mut fmt::Formatter<'_>) -> fmt::Result {
        write!(f, "after {} words: {}", self.done, self.error)
    }
}

impl std::error::Error for Stopped {
    fn source(&self) -> Option<&(dyn std::error::Error + 'static)> {
        Some(&self.error)
    }
}

impl From<Stopped> for Error {
    fn from(stopped: Stopped) -> Error {
        stopped.error
    }
}
