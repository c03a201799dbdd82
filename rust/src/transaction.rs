//! A transaction.

use crate::error::{Error, Stopped};
use crate::memory::Memory;
use crate::sys;
use std::mem::ManuallyDrop;

/// A transaction that is open. Dropped before [`commit`](Transaction::commit), it is aborted.
pub struct Transaction<'m> {
    pub(crate) memory: &'m Memory,
    pub(crate) slot: u32,
}

impl Transaction<'_> {
    /// The slot. [`Error::Held`] reports it to others.
    pub fn slot(&self) -> u32 {
        self.slot
    }

    /// The word at an address: what this transaction put, and else what is committed.
    ///
    /// # Errors
    ///
    /// `Range` or `Off`.
    pub fn view(&self, address: u32) -> Result<u64, Error> {
        let mut word = 0;
        // SAFETY: the memory is open, and the word is this call's.
        self.memory.check(unsafe { sys::envy_view(self.memory.handle(), self.slot, address, &mut word) })?;
        Ok(word)
    }

    /// Makes the word at an address this.
    ///
    /// # Errors
    ///
    /// `Range`, `Full`, `Held` or `Off`; `Bad` of a board that can be made to fail. No word changes.
    pub fn put(&self, address: u32, word: u64) -> Result<(), Error> {
        self.memory.put(self.slot, address, word)
    }

    /// Puts word after word from an address on. Words that meet more pages without an owner than may yet be owned are
    /// refused before the first. Else the first that is refused ends it; those before it stay put. It counts one access
    /// for each page that it puts to.
    ///
    /// # Errors
    ///
    /// As [`put`](Transaction::put), and how many were put.
    pub fn write(&self, address: u32, words: &[u64]) -> Result<(), Stopped> {
        let (mut done, mut holder) = (0, 0);
        let m = self.memory.handle();
        // SAFETY: the memory is open, the slice has so many words, and the two numbers are this call's.
        let code = unsafe {
            sys::envy_write(m, self.slot, address, words.as_ptr(), words.len(), &mut done, &mut holder)
        };
        self.memory.check_held(code, holder).map_err(|error| Stopped { done, error })
    }

    /// Keeps all that was put. Of a mapped file and of regions it outlives the process from then on; of a file that is kept a
    /// later [`sync`](Memory::sync) brings it to the disk.
    ///
    /// # Errors
    ///
    /// `Off`.
    pub fn commit(self) -> Result<(), Error> {
        let this = ManuallyDrop::new(self);
        // SAFETY: the memory is open.
        this.memory.check(unsafe { sys::envy_commit(this.memory.handle(), this.slot) })
    }

    /// Takes back all that was put, as dropping it does.
    pub fn abort(self) {}
}

impl Drop for Transaction<'_> {
    fn drop(&mut self) {
        // SAFETY: the memory is open. The slot is open, so it is done, or power failed.
        unsafe { sys::envy_abort(self.memory.handle(), self.slot) };
    }
}
