//! Memories over regions of memory that the program gives.

use crate::error::Error;
use crate::memory::{Memory, Over};
use crate::setup::Setup;
use crate::sys;

/// Three regions of memory: rows of flash, words of SRAM, and counts of erases. [`Setup::regions`] says how many of each a
/// setup asks for.
#[derive(Debug)]
pub struct Regions {
    pub flash: &'static mut [[u64; 32]],
    pub sram: &'static mut [u64],
    pub erases: &'static mut [u64],
}

/// How long the regions of a setup are.
#[derive(Clone, Copy, Debug, PartialEq, Eq)]
pub struct Sizes {
    /// Rows of flash.
    pub flash: usize,
    /// Words of SRAM.
    pub sram: usize,
    /// Counts of erases.
    pub erases: usize,
}

/// A call that makes or opens a memory over regions.
type Opening = unsafe extern "C" fn(*mut sys::Handle, *const sys::Setup, sys::Rows, sys::Words, sys::Words) -> u32;

impl Setup {
    /// How long the regions are that this setup asks for.
    ///
    /// # Errors
    ///
    /// `Setup` or `Policy`.
    pub fn regions(&self) -> Result<Sizes, Error> {
        let mut found = sys::Sizes::default();
        // SAFETY: the pointers are to a setup and sizes of this call's.
        Error::check(unsafe { sys::envy_region_sizes(&self.numbers(), &mut found) })?;
        Ok(Sizes { flash: found.rows as usize, sram: found.words as usize, erases: found.erases as usize })
    }

    /// The setup of the memory whose SRAM begins with these words. Policy, limit and mark aren't kept: they are greedy, 100 and
    /// all frames.
    ///
    /// # Errors
    ///
    /// `Unformatted`, `Older` or `Setup`.
    pub fn of_sram(sram: &[u64]) -> Result<Setup, Error> {
        let mut found = sys::Setup::default();
        // SAFETY: the slice has so many words, and the setup is this call's.
        Error::check(unsafe { sys::envy_sram_shape(sram.as_ptr(), sram.len(), &mut found) })?;
        Ok(Setup::of(&found))
    }
}

impl Memory {
    /// Makes a memory of zeros over the regions, whatever they hold. What is stored outlives the memory, in the regions.
    ///
    /// # Errors
    ///
    /// `Setup` or `Policy`; `FlashSize`, `SramSize` or `ErasesSize`; `NoMemory`. The regions come back with the error, as they
    /// were.
    pub fn format_regions(setup: &Setup, regions: Regions) -> Result<Memory, (Error, Regions)> {
        Memory::over(setup, regions, sys::envy_format_regions)
    }

    /// Opens the memory that the regions hold, once it was found to be sound. Transactions that were open are undone.
    ///
    /// # Errors
    ///
    /// As [`format_regions`](Memory::format_regions), and what was found: `Unformatted`, `Older`, `OtherShape`, `Damaged`.
    pub fn open_regions(setup: &Setup, regions: Regions) -> Result<Memory, (Error, Regions)> {
        Memory::over(setup, regions, sys::envy_open_regions)
    }

    fn over(setup: &Setup, regions: Regions, open: Opening) -> Result<Memory, (Error, Regions)> {
        let mut memory = Memory::empty(Over::Regions(regions));
        let handle = memory.handle();
        let Over::Regions(regions) = &mut memory.over else { unreachable!("it was made over regions just now") };
        let flash = sys::Rows { at: regions.flash.as_mut_ptr(), len: regions.flash.len() };
        let sram = sys::Words { at: regions.sram.as_mut_ptr(), len: regions.sram.len() };
        let erases = sys::Words { at: regions.erases.as_mut_ptr(), len: regions.erases.len() };
        // SAFETY: the handle is this memory's, and holds none. The regions are borrowed for as long as the memory is there, by
        // it alone, which doesn't touch them.
        match unsafe { open(handle, &setup.numbers(), flash, sram, erases) } {
            sys::DONE => Ok(memory),
            code => match memory.into_over() {
                Over::Regions(regions) => Err((Error::of(code, 0), regions)),
                _ => unreachable!("it was made over regions just now"),
            },
        }
    }

    /// Ends the memory, and gives its regions back, which hold it still. `None` if it stands over something else, which is
    /// closed as by dropping it.
    pub fn into_regions(self) -> Option<Regions> {
        match self.into_over() {
            Over::Regions(regions) => Some(regions),
            _ => None,
        }
    }
}
