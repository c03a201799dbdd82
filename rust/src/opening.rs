//! Opening the memory in a file.

use crate::error::Error;
use crate::memory::{Memory, Over};
use crate::setup::{c_path, Setup};
use crate::sys;
use std::ffi::c_char;
use std::ops::BitOr;
use std::path::Path;
use std::ptr;

/// How a file is opened: these together, by `|`, or `Open::default()`.
#[derive(Clone, Copy, Debug, Default, PartialEq, Eq)]
pub struct Open(u32);

impl Open {
    /// If there is no file, one is made, with a memory of zeros.
    pub const CREATE: Open = Open(sys::CREATE);
    /// The caller states that file system and disk write the file byte by byte: a stop of the machine leaves at each place of a
    /// range that was being written the byte that was written or the one that was there; past the old end that is a 0. Nothing
    /// checks it. Then a sync waits for the disk once, and not twice.
    pub const BYTEWISE: Open = Open(sys::BYTEWISE);
    /// For reading alone, by any number of processes: nothing is written, made or removed. The first call that would write to
    /// the file is `Off`.
    pub const READING: Open = Open(sys::READING);
    /// The file is compacted once it is open, if a second file can be made.
    pub const COMPACT: Open = Open(sys::COMPACT);
    /// The sizes are those of the file, if it has any; of the setup policy, limit and mark count.
    pub const READ_SIZES: Open = Open(sys::READ_SIZES);
}

impl BitOr for Open {
    type Output = Open;

    fn bitor(self, other: Open) -> Open {
        Open(self.0 | other.0)
    }
}

/// A call that opens a file.
type Opening = unsafe extern "C" fn(*mut sys::Handle, *const c_char, *const sys::Setup, u32) -> u32;

impl Memory {
    /// Opens the memory that is kept in the file at a path. From a [`sync`](Memory::sync) that was done on, whatever a stop of
    /// the process or of the machine leaves opens as the words of that sync or of a later one; what was done since may be lost.
    /// Without a setup the sizes are those of the file.
    ///
    /// If the file fails, each call is [`Error::Off`] from then on, with the reason: drop the memory, and open the file again.
    /// A process that was forked off has no file: there each call that would write to it is `Error::Off`.
    ///
    /// # Errors
    ///
    /// `Locked`; `TooMany`; `System`, as if there is no file; `Setup` or `Policy`; `NoJournal`, `OtherJournal`,
    /// `DamagedJournal` or `OtherShape`; `NoMemory`; `Off` if the file failed.
    pub fn open_file<'s>(
        path: impl AsRef<Path>,
        setup: impl Into<Option<&'s Setup>>,
        how: Open,
    ) -> Result<Memory, Error> {
        Memory::opened(Over::File, path.as_ref(), setup.into(), how, sys::envy_open_file)
    }

    /// Opens the memory in the file at a path, which the process maps. A process that is killed at any moment leaves every word
    /// that was stored and every transaction that was committed. A machine that stops may leave it as it likes; a sync writes it
    /// through. `CREATE` and `READ_SIZES` are looked at; a new file is there formatted or not at all. Without a setup the sizes
    /// are those of the file.
    ///
    /// # Errors
    ///
    /// `Locked`; `System`; `Setup` or `Policy`; what was found of the file; `NoMemory`. The file is as before.
    pub fn open_mapped<'s>(
        path: impl AsRef<Path>,
        setup: impl Into<Option<&'s Setup>>,
        how: Open,
    ) -> Result<Memory, Error> {
        Memory::opened(Over::Mapped, path.as_ref(), setup.into(), how, sys::envy_open_mapped)
    }

    /// Opens the mapped file at a path, or makes one of zeros if there is none: [`open_mapped`](Memory::open_mapped) with
    /// [`Open::CREATE`], under its earlier name.
    ///
    /// # Errors
    ///
    /// Those of `open_mapped`.
    pub fn open(path: impl AsRef<Path>, setup: &Setup) -> Result<Memory, Error> {
        Memory::open_mapped(path, setup, Open::CREATE)
    }

    /// Makes a copy while the memory is in use: a new file, with the words that are committed, of the kind of the memory's file,
    /// or one that [`open_file`](Memory::open_file) opens. Without a setup it is that of the memory's file.
    ///
    /// # Errors
    ///
    /// `System`, as if there is a file; `Range`: the setup has fewer pages; `OtherBoard`: there is no file whose setup it could
    /// be; `Off`; or those of `open_file`.
    pub fn copy<'s>(&self, path: impl AsRef<Path>, setup: impl Into<Option<&'s Setup>>) -> Result<(), Error> {
        let path = c_path(path.as_ref())?;
        let numbers = setup.into().map(Setup::numbers);
        let setup = numbers.as_ref().map_or(ptr::null(), |it| it as *const _);
        // SAFETY: the memory is open; the others are pointers to a string and a setup of this call's, or to no setup.
        self.check(unsafe { sys::envy_copy(self.handle(), path.as_ptr(), setup) })
    }

    /// Gives the file other sizes, with at least as many pages, by a copy that takes its place. No transaction is borrowed
    /// meanwhile.
    ///
    /// # Errors
    ///
    /// `OtherBoard`: it wasn't opened by a path; `SlotOpen`, where a transaction was forgotten; those of `copy`. The memory goes
    /// on as it was, unless the file can't be opened again.
    pub fn grow(&mut self, setup: &Setup) -> Result<(), Error> {
        // SAFETY: the memory is open, and the setup is this call's.
        self.check(unsafe { sys::envy_grow(self.handle(), &setup.numbers()) })
    }

    fn opened(over: Over, path: &Path, setup: Option<&Setup>, how: Open, open: Opening) -> Result<Memory, Error> {
        let path = c_path(path)?;
        let memory = Memory::empty(over);
        let numbers = setup.map(Setup::numbers);
        let setup = numbers.as_ref().map_or(ptr::null(), |it| it as *const _);
        // SAFETY: the handle is this memory's, and holds none; the others are pointers to a string and a setup of this call's,
        // or to no setup, which the call takes.
        Error::check(unsafe { open(memory.handle(), path.as_ptr(), setup, how.0) })?;
        Ok(memory)
    }
}
