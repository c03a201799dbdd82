//! An ordered map in the array of a memory.

use crate::counts::Did;
use crate::error::Error;
use crate::memory::Memory;
use crate::sys;
pub use crate::sys::Pair;
use std::ops::{Bound, RangeBounds};

/// An ordered map from words to words, which has the array of its memory to itself. Each call is one transaction: a process
/// that is killed in it leaves the map as before the call, or as the call leaves it. Over a file that is kept the map outlives
/// the machine as of its last [`sync`](Index::sync).
pub struct Index {
    memory: Memory,
}

impl Index {
    /// Makes a map without pairs of a memory, whatever its words are.
    ///
    /// # Errors
    ///
    /// `MapSetup`: a map needs 20 pages and 32 shadows. `SlotOpen`, if a transaction was forgotten and never ended.
    pub fn create(memory: Memory) -> Result<Index, Error> {
        let index = Index { memory };
        index.check(index.memory.index_create())?;
        Ok(index)
    }

    /// Takes up the map that a memory holds.
    ///
    /// # Safety
    ///
    /// The words of the memory are zeros, which are the map without pairs, or those that the last `Index` over it left:
    /// nothing else was stored or committed since. Nothing marks a memory that holds a map, so no call can see that one
    /// doesn't.
    pub unsafe fn over(memory: Memory) -> Index {
        Index { memory }
    }

    /// The memory, whose words no longer need to be a map.
    pub fn into_memory(self) -> Memory {
        self.memory
    }

    /// Does one step of work in the background, as [`Memory::tick`].
    ///
    /// # Errors
    ///
    /// `Off`.
    pub fn tick(&self) -> Result<Did, Error> {
        self.memory.tick()
    }

    /// Brings all that was done to the disk, as [`Memory::sync`].
    ///
    /// # Errors
    ///
    /// `Off` or `System`.
    pub fn sync(&self) -> Result<(), Error> {
        self.memory.sync()
    }

    /// A sync that leaves in the file no more than what the memory holds takes, as [`Memory::compact`].
    ///
    /// # Errors
    ///
    /// `Off`, as of a sync; `Appended`.
    pub fn compact(&self) -> Result<(), Error> {
        self.memory.compact()
    }

    /// The value of a key.
    ///
    /// # Errors
    ///
    /// `MapSetup` or `SlotOpen`, as for each call below. `BrokenMap`, as for each that only reads: the words stand for no map.
    pub fn get(&self, key: u64) -> Result<Option<u64>, Error> {
        let mut value = 0;
        Ok(self.found(self.memory.index_get(key, &mut value))?.then_some(value))
    }

    /// Sets the value of a key, and answers the one that it had.
    ///
    /// # Errors
    ///
    /// `MapFull`: the map doesn't have the key, and has as many pairs as it may have.
    pub fn insert(&self, key: u64, value: u64) -> Result<Option<u64>, Error> {
        let mut before = sys::Old::default();
        self.check(self.memory.index_insert(key, value, &mut before))?;
        Ok((before.had != 0).then_some(before.value))
    }

    /// Takes a key out of the map, and answers its value.
    ///
    /// # Errors
    ///
    /// As [`get`](Index::get).
    pub fn remove(&self, key: u64) -> Result<Option<u64>, Error> {
        let mut value = 0;
        Ok(self.found(self.memory.index_remove(key, &mut value))?.then_some(value))
    }

    /// How many pairs the map has.
    ///
    /// # Errors
    ///
    /// As [`get`](Index::get).
    pub fn count(&self) -> Result<u64, Error> {
        let mut count = 0;
        self.check(self.memory.index_count(&mut count))?;
        Ok(count)
    }

    /// The pair with the least key that is at least this one.
    ///
    /// # Errors
    ///
    /// As [`get`](Index::get).
    pub fn next(&self, key: u64) -> Result<Option<(u64, u64)>, Error> {
        self.nearest(|pair| self.memory.index_next(key, pair))
    }

    /// The pair with the least key above this one.
    ///
    /// # Errors
    ///
    /// As [`get`](Index::get).
    pub fn above(&self, key: u64) -> Result<Option<(u64, u64)>, Error> {
        self.nearest(|pair| self.memory.index_above(key, pair))
    }

    /// The pair with the greatest key that is at most this one.
    ///
    /// # Errors
    ///
    /// As [`get`](Index::get).
    pub fn last(&self, key: u64) -> Result<Option<(u64, u64)>, Error> {
        self.nearest(|pair| self.memory.index_last(key, pair))
    }

    /// Writes the pairs from a key on, by rising key, and answers how many there are: as many as there is room for, or all.
    /// The rest of `pairs` stays. After an error nothing is said of `pairs`.
    ///
    /// # Errors
    ///
    /// As [`get`](Index::get).
    pub fn scan(&self, key: u64, pairs: &mut [Pair]) -> Result<usize, Error> {
        let mut count = 0;
        self.check(self.memory.index_scan(key, pairs, &mut count))?;
        Ok(count)
    }

    /// The same of the pairs up to a key, by falling key.
    ///
    /// # Errors
    ///
    /// As [`get`](Index::get).
    pub fn scan_down(&self, key: u64, pairs: &mut [Pair]) -> Result<usize, Error> {
        let mut count = 0;
        self.check(self.memory.index_scan_down(key, pairs, &mut count))?;
        Ok(count)
    }

    /// The pairs whose keys lie in a range, by rising key. A pair is looked for when it is asked for, so what is inserted
    /// or removed meanwhile is seen.
    pub fn range(&self, keys: impl RangeBounds<u64>) -> Range<'_> {
        let from = match keys.start_bound() {
            Bound::Included(key) => Start::Key(*key),
            Bound::Excluded(key) => Start::Above(*key),
            Bound::Unbounded => Start::Key(0),
        };
        let to = match keys.end_bound() {
            Bound::Included(key) => Some(*key),
            Bound::Excluded(key) => key.checked_sub(1),
            Bound::Unbounded => Some(u64::MAX),
        };
        match to {
            Some(to) => Range { index: self, from, to },
            None => Range { index: self, from: Start::End, to: 0 },
        }
    }

    /// The pair that a call looked for.
    fn nearest(&self, call: impl FnOnce(&mut sys::Pair) -> u32) -> Result<Option<(u64, u64)>, Error> {
        let mut pair = sys::Pair::default();
        Ok(self.found(call(&mut pair))?.then_some((pair.key, pair.value)))
    }

    /// Whether the pair is there.
    fn found(&self, code: u32) -> Result<bool, Error> {
        match code {
            sys::ABSENT => Ok(false),
            code => self.check(code).map(|()| true),
        }
    }

    fn check(&self, code: u32) -> Result<(), Error> {
        match code {
            sys::DONE => Ok(()),
            code => Err(self.memory.error(code, 0)),
        }
    }
}

/// Where a range goes on.
enum Start {
    Key(u64),
    Above(u64),
    End,
}

/// The pairs of a range. Behind an error it has none.
pub struct Range<'i> {
    index: &'i Index,
    from: Start,
    to: u64,
}

impl Iterator for Range<'_> {
    type Item = Result<(u64, u64), Error>;

    fn next(&mut self) -> Option<Self::Item> {
        let pair = match self.from {
            Start::Key(key) => self.index.next(key),
            Start::Above(key) => self.index.above(key),
            Start::End => return None,
        };
        self.from = Start::End;
        match pair {
            Ok(Some((key, value))) if key <= self.to => {
                self.from = Start::Above(key);
                Some(Ok((key, value)))
            }
            Ok(_) => None,
            Err(error) => Some(Err(error)),
        }
    }
}
