//! The calls of maps of a memory, by their numbers.

use crate::memory::Memory;
use crate::sys::{self, Old, Pair, Range};

// SAFETY of each call below: the memory is open as long as it is there, and what is written is the caller's.
impl Memory {
    pub(crate) fn index_create(&self) -> u32 {
        unsafe { sys::envy_index_create(self.handle()) }
    }

    pub(crate) fn index_get(&self, key: u64, value: &mut u64) -> u32 {
        unsafe { sys::envy_index_get(self.handle(), key, value) }
    }

    pub(crate) fn index_insert(&self, key: u64, value: u64, before: &mut Old) -> u32 {
        unsafe { sys::envy_index_insert(self.handle(), key, value, before) }
    }

    pub(crate) fn index_remove(&self, key: u64, value: &mut u64) -> u32 {
        unsafe { sys::envy_index_remove(self.handle(), key, value) }
    }

    pub(crate) fn index_count(&self, count: &mut u64) -> u32 {
        unsafe { sys::envy_index_count(self.handle(), count) }
    }

    pub(crate) fn index_next(&self, key: u64, pair: &mut Pair) -> u32 {
        unsafe { sys::envy_index_next(self.handle(), key, pair) }
    }

    pub(crate) fn index_above(&self, key: u64, pair: &mut Pair) -> u32 {
        unsafe { sys::envy_index_above(self.handle(), key, pair) }
    }

    pub(crate) fn index_last(&self, key: u64, pair: &mut Pair) -> u32 {
        unsafe { sys::envy_index_last(self.handle(), key, pair) }
    }

    pub(crate) fn index_scan(&self, key: u64, pairs: &mut [Pair], count: &mut usize) -> u32 {
        unsafe { sys::envy_index_scan(self.handle(), key, pairs.as_mut_ptr(), pairs.len(), count) }
    }

    pub(crate) fn index_scan_down(&self, key: u64, pairs: &mut [Pair], count: &mut usize) -> u32 {
        unsafe { sys::envy_index_scan_down(self.handle(), key, pairs.as_mut_ptr(), pairs.len(), count) }
    }

    pub(crate) fn map_begin(&self, slot: &mut u32) -> u32 {
        unsafe { sys::envy_map_begin(self.handle(), slot) }
    }

    pub(crate) fn map_create(&self, slot: u32, map: &Range) -> u32 {
        unsafe { sys::envy_map_create(self.handle(), slot, map) }
    }

    pub(crate) fn map_load(&self, map: &Range, pairs: &[Pair]) -> u32 {
        unsafe { sys::envy_map_load(self.handle(), map, pairs.as_ptr(), pairs.len()) }
    }

    pub(crate) fn map_insert(&self, slot: u32, map: &Range, key: u64, value: u64, before: &mut Old) -> u32 {
        unsafe { sys::envy_map_insert(self.handle(), slot, map, key, value, before) }
    }

    pub(crate) fn map_remove(&self, slot: u32, map: &Range, key: u64, value: &mut u64) -> u32 {
        unsafe { sys::envy_map_remove(self.handle(), slot, map, key, value) }
    }

    pub(crate) fn map_commit(&self, slot: u32) -> u32 {
        unsafe { sys::envy_map_commit(self.handle(), slot) }
    }

    pub(crate) fn map_abort(&self, slot: u32) -> u32 {
        unsafe { sys::envy_map_abort(self.handle(), slot) }
    }

    pub(crate) fn map_get(&self, map: &Range, key: u64, value: &mut u64) -> u32 {
        unsafe { sys::envy_map_get(self.handle(), map, key, value) }
    }

    pub(crate) fn map_count(&self, map: &Range, count: &mut u64) -> u32 {
        unsafe { sys::envy_map_count(self.handle(), map, count) }
    }

    pub(crate) fn map_check(&self, map: &Range, rule: &mut u32) -> u32 {
        unsafe { sys::envy_map_check(self.handle(), map, rule) }
    }

    pub(crate) fn map_scan(&self, map: &Range, key: u64, pairs: &mut [Pair], count: &mut usize) -> u32 {
        unsafe { sys::envy_map_scan(self.handle(), map, key, pairs.as_mut_ptr(), pairs.len(), count) }
    }

    pub(crate) fn map_scan_down(&self, map: &Range, key: u64, pairs: &mut [Pair], count: &mut usize) -> u32 {
        unsafe { sys::envy_map_scan_down(self.handle(), map, key, pairs.as_mut_ptr(), pairs.len(), count) }
    }
}
