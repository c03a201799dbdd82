//! Ordered maps in ranges of the array of a memory, which are changed together in one transaction.

use crate::error::Error;
use crate::memory::Memory;
use crate::sys;
use crate::sys::Pair;
use std::cell::RefCell;
use std::ops::{Bound, Range, RangeBounds};

/// How many pairs an iterator reads at once.
const PART: usize = 64;

/// A map of [`Maps`], which its number names.
#[derive(Clone, Copy, Debug, PartialEq, Eq)]
pub struct Map(usize);

/// A memory whose array holds ordered maps from words to words, each in a range of its own, beside plain words. They are
/// changed in transactions, each of several maps and words: a process that is killed keeps all of one or none. Over a file that
/// is kept one that was committed outlives the machine from the next sync on.
pub struct Maps {
    memory: Memory,
    ranges: RefCell<Vec<sys::Range>>,
}

impl Maps {
    /// A memory of which no map is known yet.
    pub fn over(memory: Memory) -> Maps {
        Maps { memory, ranges: RefCell::new(Vec::new()) }
    }

    /// The memory, whose words no longer need to be maps.
    pub fn into_memory(self) -> Memory {
        self.memory
    }

    /// The memory.
    ///
    /// # Safety
    ///
    /// Nothing that is done with it changes a word of a map's range.
    pub unsafe fn memory(&self) -> &Memory {
        &self.memory
    }

    /// Makes a map without pairs in a range of addresses, whatever its words are. They begin and end at multiples of 32,
    /// and are 640 to 536,870,912.
    ///
    /// # Errors
    ///
    /// `Range`: no map may lie there, or another map lies there. `SlotOpen`. `Full`: the setup has no shadows.
    pub fn create(&self, words: Range<u32>) -> Result<Map, Error> {
        let range = self.apart(words)?;
        self.transaction(|t| t.check(self.memory.map_create(t.slot, &range)))?;
        Ok(self.added(range))
    }

    /// Makes a map of pairs in a range of addresses, as [`create`](Maps::create) does of none, in transactions of its own.
    /// Their keys rise.
    ///
    /// # Errors
    ///
    /// `Range`: no map may lie there, another map lies there, or the keys don't rise. `MapFull`: these are more pairs than
    /// a map there may have. `MapSetup`: the setup has fewer than 32 shadows. `SlotOpen`. Nothing changed then. After `Off`
    /// and `Bad` the words of the range are those of before, or a map of the first pairs.
    pub fn load_pairs(&self, words: Range<u32>, pairs: &[(u64, u64)]) -> Result<Map, Error> {
        let range = self.apart(words)?;
        let pairs: Vec<Pair> = pairs.iter().map(|&(key, value)| Pair { key, value }).collect();
        self.check(self.memory.map_load(&range, &pairs))?;
        Ok(self.added(range))
    }

    /// Takes up the map that a range holds, after a look at all its words.
    ///
    /// # Errors
    ///
    /// `BrokenMap`: they stand for no map. `Range`: another map lies there, or none may. `SlotOpen`.
    pub fn find(&self, words: Range<u32>) -> Result<Map, Error> {
        let range = self.apart(words)?;
        let mut rule = 0;
        self.check(self.memory.map_check(&range, &mut rule))?;
        Ok(self.added(range))
    }

    /// Takes up the map that a range holds, without a look at its words.
    ///
    /// # Safety
    ///
    /// The words of the range are zeros, which are the map without pairs, or those that were left of a map in it: nothing
    /// else was stored or committed there since.
    ///
    /// # Errors
    ///
    /// `Range`: another map lies there.
    pub unsafe fn open(&self, words: Range<u32>) -> Result<Map, Error> {
        let range = self.apart(words)?;
        Ok(self.added(range))
    }

    /// Runs a transaction: commits it if the closure is `Ok`, and aborts it else, also if the closure panics.
    ///
    /// # Errors
    ///
    /// That of the closure; `SlotOpen`: a transaction is open.
    pub fn transaction<T>(&self, work: impl FnOnce(&Changes<'_>) -> Result<T, Error>) -> Result<T, Error> {
        let mut slot = 0;
        self.check(self.memory.map_begin(&mut slot))?;
        let changes = Changes { maps: self, slot };
        let done = work(&changes)?;
        std::mem::forget(changes);
        self.check(self.memory.map_commit(slot))?;
        Ok(done)
    }

    /// The value of a key, also if the open transaction put it.
    ///
    /// # Errors
    ///
    /// `BrokenMap`: the words of the range stand for no map. `SlotOpen`: another slot is open than that of a transaction.
    pub fn get(&self, map: Map, key: u64) -> Result<Option<u64>, Error> {
        let mut value = 0;
        Ok(self.found(self.memory.map_get(&self.range_of(map), key, &mut value))?.then_some(value))
    }

    /// How many pairs a map has.
    ///
    /// # Errors
    ///
    /// As [`get`](Maps::get).
    pub fn len(&self, map: Map) -> Result<u64, Error> {
        let mut count = 0;
        self.check(self.memory.map_count(&self.range_of(map), &mut count))?;
        Ok(count)
    }

    /// Whether a map has no pair.
    ///
    /// # Errors
    ///
    /// As [`get`](Maps::get).
    pub fn is_empty(&self, map: Map) -> Result<bool, Error> {
        Ok(self.len(map)? == 0)
    }

    /// The word at an address, also if the open transaction put it.
    ///
    /// # Errors
    ///
    /// `Range`.
    pub fn load(&self, address: u32) -> Result<u64, Error> {
        self.memory.load(address)
    }

    /// The pairs of a map whose keys lie in a range, from either end. Up to 64 are read at once.
    pub fn range(&self, map: Map, keys: impl RangeBounds<u64>) -> Pairs<'_> {
        let low = match keys.start_bound() {
            Bound::Included(key) => Some(*key),
            Bound::Excluded(key) => key.checked_add(1),
            Bound::Unbounded => Some(0),
        };
        let high = match keys.end_bound() {
            Bound::Included(key) => Some(*key),
            Bound::Excluded(key) => key.checked_sub(1),
            Bound::Unbounded => Some(u64::MAX),
        };
        let left = low.zip(high).filter(|(low, high)| low <= high);
        Pairs { maps: self, map: self.range_of(map), left, front: Vec::new(), back: Vec::new() }
    }

    /// A range that touches no map.
    fn apart(&self, words: Range<u32>) -> Result<sys::Range, Error> {
        let range = sys::Range { first: words.start, words: words.end.saturating_sub(words.start) };
        match self.ranges.borrow().iter().any(|other| touch(*other, range.first, range.words)) {
            true => Err(Error::Range),
            false => Ok(range),
        }
    }

    fn added(&self, range: sys::Range) -> Map {
        let mut ranges = self.ranges.borrow_mut();
        ranges.push(range);
        Map(ranges.len() - 1)
    }

    /// The range of a map; of a map of other `Maps` it may be one of no words, which is refused.
    fn range_of(&self, map: Map) -> sys::Range {
        self.ranges.borrow().get(map.0).copied().unwrap_or(sys::Range { first: 0, words: 0 })
    }

    fn found(&self, code: u32) -> Result<bool, Error> {
        match code {
            sys::ABSENT => Ok(false),
            code => self.check(code).map(|()| true),
        }
    }

    fn check(&self, code: u32) -> Result<(), Error> {
        match code {
            sys::DONE => Ok(()),
            code => Err(self.memory.error(code, 0)),
        }
    }
}

/// Whether a range has one of so many words from an address on.
fn touch(range: sys::Range, first: u32, words: u32) -> bool {
    let ends = |first: u32, words: u32| u64::from(first) + u64::from(words);
    u64::from(first) < ends(range.first, range.words) && u64::from(range.first) < ends(first, words)
}

/// An open transaction of maps. It is aborted if it is dropped before it is committed.
pub struct Changes<'m> {
    maps: &'m Maps,
    slot: u32,
}

impl Changes<'_> {
    /// Sets the value of a key, and answers the one that it had.
    ///
    /// # Errors
    ///
    /// `MapFull`: the map doesn't have the key, and has as many pairs as it may have. `Full`: the transaction may have too
    /// few pages left. Nothing changed then.
    pub fn insert(&self, map: Map, key: u64, value: u64) -> Result<Option<u64>, Error> {
        let mut before = sys::Old::default();
        let range = self.maps.range_of(map);
        self.check(self.maps.memory.map_insert(self.slot, &range, key, value, &mut before))?;
        Ok((before.had != 0).then_some(before.value))
    }

    /// Takes a key out of a map, and answers its value.
    ///
    /// # Errors
    ///
    /// `Full`, as of [`insert`](Changes::insert).
    pub fn remove(&self, map: Map, key: u64) -> Result<Option<u64>, Error> {
        let mut value = 0;
        let range = self.maps.range_of(map);
        Ok(self.maps.found(self.maps.memory.map_remove(self.slot, &range, key, &mut value))?.then_some(value))
    }

    /// Makes the word at an address outside the maps this.
    ///
    /// # Errors
    ///
    /// `Range`: it lies in a map, or past the last page. `Full`. No word changes.
    pub fn put(&self, address: u32, word: u64) -> Result<(), Error> {
        if self.maps.ranges.borrow().iter().any(|range| touch(*range, address, 1)) {
            return Err(Error::Range);
        }
        self.maps.memory.put(self.slot, address, word)
    }

    fn check(&self, code: u32) -> Result<(), Error> {
        self.maps.check(code)
    }
}

impl Drop for Changes<'_> {
    fn drop(&mut self) {
        // (after `BadAborted` the slot is closed already)
        self.maps.memory.map_abort(self.slot);
    }
}

/// The pairs of a range of keys. After an error it has none.
pub struct Pairs<'m> {
    maps: &'m Maps,
    map: sys::Range,
    /// The least and the greatest key that may be left to read.
    left: Option<(u64, u64)>,
    /// What was read from each end and isn't handed out, the next one last.
    front: Vec<Pair>,
    back: Vec<Pair>,
}

impl Pairs<'_> {
    /// Reads pairs from one end of those that are left.
    fn read(&mut self, down: bool) -> Result<(), Error> {
        let Some((low, high)) = self.left.take() else { return Ok(()) };
        let (mut pairs, mut count) = ([Pair::default(); PART], 0);
        let memory = &self.maps.memory;
        self.maps.check(match down {
            false => memory.map_scan(&self.map, low, &mut pairs, &mut count),
            true => memory.map_scan_down(&self.map, high, &mut pairs, &mut count),
        })?;
        let found = pairs[..count].iter().filter(|pair| (low..=high).contains(&pair.key)).rev();
        if count == PART {
            let last = pairs[PART - 1].key;
            self.left = match down {
                false => last.checked_add(1).map(|low| (low, high)),
                true => last.checked_sub(1).map(|high| (low, high)),
            };
            self.left = self.left.filter(|(low, high)| low <= high);
        }
        match down {
            false => self.front.extend(found),
            true => self.back.extend(found),
        }
        Ok(())
    }

    fn step(&mut self, down: bool) -> Option<Result<(u64, u64), Error>> {
        let read = |it: &Self| if down { it.back.is_empty() } else { it.front.is_empty() };
        if read(self) {
            if let Err(error) = self.read(down) {
                self.front.clear();
                self.back.clear();
                return Some(Err(error));
            }
        }
        // what the other end has read is handed out last, from its far end
        let (own, other) = if down { (&mut self.back, &mut self.front) } else { (&mut self.front, &mut self.back) };
        let pair = own.pop().or_else(|| (!other.is_empty()).then(|| other.remove(0)))?;
        Some(Ok((pair.key, pair.value)))
    }
}

impl Iterator for Pairs<'_> {
    type Item = Result<(u64, u64), Error>;

    fn next(&mut self) -> Option<Self::Item> {
        self.step(false)
    }
}

impl DoubleEndedIterator for Pairs<'_> {
    fn next_back(&mut self) -> Option<Self::Item> {
        self.step(true)
    }
}
