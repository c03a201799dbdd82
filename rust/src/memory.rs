//! A memory, and its words.

use crate::counts::{counts_of, did_of, stats_of, Counts, Did, Stats, Worn};
use crate::error::{Error, Stopped};
use crate::regions::Regions;
use crate::sys;
use crate::transaction::Transaction;
use std::cell::UnsafeCell;
use std::ffi::CStr;
use std::{io, mem, ptr};

/// A memory: an array of words over a file, over a file that the process maps, over regions of memory, or over a board whose
/// power and flash can be made to fail. What it stands over is said when it is opened, and the calls are the same then. A file
/// is locked while it is open. If this is dropped, the memory is ended as by [`close`](Memory::close).
///
/// One thread at a time may use it, and another may take it over: it is `Send`, and not `Sync`. Threads share one in a `Mutex`.
pub struct Memory {
    // Every call goes through a pointer to it. It is this memory's alone, no call calls back, and `Memory` isn't `Sync`, so no
    // two calls use it at once.
    handle: UnsafeCell<sys::Handle>,
    // what it was opened over, which stays borrowed for as long as the memory is open
    pub(crate) over: Over,
}

/// What a memory stands over.
pub(crate) enum Over {
    File,
    Mapped,
    Regions(Regions),
    Simulation,
}

// SAFETY: a handle may be used from any thread, by one call at a time; without `Sync` no two threads call at once.
unsafe impl Send for Memory {}

/// The version of the library that is linked.
pub fn version() -> &'static str {
    // SAFETY: the text is a string that lasts as long as the program.
    unsafe { CStr::from_ptr(sys::envy_version()) }.to_str().unwrap_or("")
}

impl Memory {
    /// A handle that holds no memory yet.
    pub(crate) fn empty(over: Over) -> Memory {
        Memory { handle: UnsafeCell::new(sys::Handle { at: ptr::null_mut(), file: ptr::null_mut() }), over }
    }

    /// Ends the memory, and hands back what it stood over.
    pub(crate) fn into_over(mut self) -> Over {
        // SAFETY: the handle is there; one that holds no memory stays as it is.
        unsafe { sys::envy_close(self.handle()) };
        mem::replace(&mut self.over, Over::Mapped)
    }

    pub(crate) fn handle(&self) -> *mut sys::Handle {
        self.handle.get()
    }

    /// The error of a number other than that of a call that was done. A file has the reason for which it failed.
    pub(crate) fn error(&self, code: u32, holder: u32) -> Error {
        if code != sys::OFF {
            return Error::of(code, holder);
        }
        // SAFETY: the handle is there.
        let why = unsafe { sys::envy_file_error(self.handle()) };
        Error::Off(match (why, &self.over) {
            (0, Over::Simulation) => io::Error::other("power failed"),
            (0, _) => io::Error::other("the file is at the end of its range"),
            (why, _) => io::Error::from_raw_os_error(why),
        })
    }

    pub(crate) fn check(&self, code: u32) -> Result<(), Error> {
        self.check_held(code, 0)
    }

    pub(crate) fn check_held(&self, code: u32, holder: u32) -> Result<(), Error> {
        match code {
            sys::DONE => Ok(()),
            code => Err(self.error(code, holder)),
        }
    }

    /// The word at an address, also if an open transaction put it.
    ///
    /// # Errors
    ///
    /// `Range` or `Off`.
    pub fn load(&self, address: u32) -> Result<u64, Error> {
        let mut word = 0;
        // SAFETY: the memory is open, and the word is this call's.
        self.check(unsafe { sys::envy_load(self.handle(), address, &mut word) })?;
        Ok(word)
    }

    /// The committed word at an address.
    ///
    /// # Errors
    ///
    /// `Range` or `Off`.
    pub fn look(&self, address: u32) -> Result<u64, Error> {
        let mut word = 0;
        // SAFETY: the memory is open, and the word is this call's.
        self.check(unsafe { sys::envy_look(self.handle(), address, &mut word) })?;
        Ok(word)
    }

    /// Fills `words` with those from an address on, each as a load gives it. It counts one access for each of
    /// their pages.
    ///
    /// # Errors
    ///
    /// `Off`, or `Range`: one of them lies past the last page, and none is read.
    pub fn read(&self, address: u32, words: &mut [u64]) -> Result<(), Error> {
        // SAFETY: the memory is open, and the slice has so many words.
        self.check(unsafe { sys::envy_read(self.handle(), address, words.as_mut_ptr(), words.len()) })
    }

    /// Makes the word at an address this. Of a mapped file and of regions it outlives the process from then on; of a file that
    /// is kept a later [`sync`](Memory::sync) brings it to the disk.
    ///
    /// # Errors
    ///
    /// `Range`, `Held` or `Off`; `Bad` of a board that can be made to fail.
    pub fn store(&self, address: u32, word: u64) -> Result<(), Error> {
        let mut holder = 0;
        // SAFETY: the memory is open, and the holder is this call's.
        let code = unsafe { sys::envy_store(self.handle(), address, word, &mut holder) };
        self.check_held(code, holder)
    }

    /// Stores word after word from an address on. The first that is refused ends it; those before it stay stored. It
    /// counts one access for each page that it stores to.
    ///
    /// # Errors
    ///
    /// As [`store`](Memory::store), and how many were stored.
    pub fn store_run(&self, address: u32, words: &[u64]) -> Result<(), Stopped> {
        let (mut done, mut holder) = (0, 0);
        let m = self.handle();
        // SAFETY: the memory is open, the slice has so many words, and the two numbers are this call's.
        let code = unsafe { sys::envy_store_run(m, address, words.as_ptr(), words.len(), &mut done, &mut holder) };
        self.check_held(code, holder).map_err(|error| Stopped { done, error })
    }

    /// Puts a word in the transaction of a slot.
    pub(crate) fn put(&self, slot: u32, address: u32, word: u64) -> Result<(), Error> {
        let mut holder = 0;
        // SAFETY: the memory is open, and the holder is this call's.
        let code = unsafe { sys::envy_put(self.handle(), slot, address, word, &mut holder) };
        self.check_held(code, holder)
    }

    /// Begins a transaction. Up to 64 may be open.
    ///
    /// # Errors
    ///
    /// `Busy` or `Off`.
    pub fn begin(&self) -> Result<Transaction<'_>, Error> {
        let mut slot = 0;
        // SAFETY: the memory is open, and the slot is this call's.
        self.check(unsafe { sys::envy_begin(self.handle(), &mut slot) })?;
        Ok(Transaction { memory: self, slot })
    }

    /// Runs a transaction: commits it if the closure is `Ok`, and aborts it else, also if the closure panics.
    ///
    /// # Errors
    ///
    /// That of the closure; `Busy` or `Off`.
    pub fn transaction<T, E: From<Error>>(&self, work: impl FnOnce(&Transaction<'_>) -> Result<T, E>) -> Result<T, E> {
        let transaction = self.begin()?;
        let done = work(&transaction)?;
        transaction.commit()?;
        Ok(done)
    }

    /// Does one step of work in the background.
    ///
    /// # Errors
    ///
    /// `Off`; `Bad` of a board that can be made to fail.
    pub fn tick(&self) -> Result<Did, Error> {
        let mut did = 0;
        // SAFETY: the memory is open, and the number is this call's.
        self.check(unsafe { sys::envy_tick(self.handle(), &mut did) })?;
        Ok(did_of(did))
    }

    /// What the memory has done since it was opened.
    pub fn counts(&self) -> Counts {
        let mut found = sys::Counts::default();
        // SAFETY: the memory is open, and the counts are this call's. Of an open memory it is always done.
        unsafe { sys::envy_counters(self.handle(), &mut found) };
        counts_of(found)
    }

    /// The segments in reserve: those that were retired, since an erase failed, and those that are left. Without power both
    /// are 0.
    pub fn worn(&self) -> Worn {
        let mut worn = Worn::default();
        // SAFETY: the memory is open, and the numbers are this call's.
        unsafe { sys::envy_worn(self.handle(), &mut worn.retired, &mut worn.left) };
        worn
    }

    /// What the memory did and holds, in a time that grows with its rows.
    ///
    /// # Errors
    ///
    /// `Off`.
    pub fn stats(&self) -> Result<Stats, Error> {
        let mut found = sys::Stats::default();
        // SAFETY: the memory is open, and the record is this call's.
        self.check(unsafe { sys::envy_stat(self.handle(), &mut found) })?;
        Ok(stats_of(found))
    }

    /// Brings all that was done to the disk. Over regions and a board that can be made to fail nothing is to be brought.
    ///
    /// # Errors
    ///
    /// `Off`: a file that is kept opens as of this sync or of the last one that was done. `System`, of a mapped file.
    pub fn sync(&self) -> Result<(), Error> {
        // SAFETY: the memory is open.
        self.check(unsafe { sys::envy_sync(self.handle()) })
    }

    /// A sync that leaves in a file that is kept no more than what the memory holds takes. A sync does so by itself if the file
    /// has grown long. Over another board it is a sync.
    ///
    /// # Errors
    ///
    /// `Off`, as of a sync; `Appended` if it was done as a sync, and no second file could be written.
    pub fn compact(&self) -> Result<(), Error> {
        // SAFETY: the memory is open.
        self.check(unsafe { sys::envy_compact(self.handle()) })
    }

    /// Syncs a file and ends the memory, as dropping it does, and reports whether the sync was done.
    ///
    /// # Errors
    ///
    /// `Off` or `System`.
    pub fn close(self) -> Result<(), Error> {
        // SAFETY: the memory is open. What is dropped after this is a handle that holds none.
        Error::check(unsafe { sys::envy_close(self.handle()) })
    }

    /// Ends the memory without a sync: a file that is kept opens as of the last one.
    ///
    /// # Errors
    ///
    /// `System`, of a mapped file, which is written through.
    pub fn leave(self) -> Result<(), Error> {
        // SAFETY: as of `close`.
        Error::check(unsafe { sys::envy_leave(self.handle()) })
    }
}

impl Drop for Memory {
    fn drop(&mut self) {
        // SAFETY: no transaction borrows the memory. A handle that holds none stays as it is.
        unsafe { sys::envy_close(self.handle()) };
    }
}
