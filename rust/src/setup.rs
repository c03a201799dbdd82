//! What a memory is made with.

use crate::error::Error;
use crate::sys;
use std::ffi::CString;
use std::io;
use std::os::unix::ffi::OsStrExt;
use std::path::Path;

/// Words of a page.
pub const PAGE_WORDS: u64 = 32;

/// How the cleaner chooses what to clean.
#[derive(Clone, Copy, Debug, PartialEq, Eq)]
pub enum Policy {
    Greedy,
    Fifo,
    Locality,
    /// By partitions of this number of positions.
    Hybrid(u32),
    Lifetime,
}

/// What a memory is made with: envy_codes.h says what each number is, docs/LIBRARY.md how to choose it.
#[derive(Clone, Copy, Debug, PartialEq, Eq)]
pub struct Setup {
    pub segments: u32,
    pub rows: u32,
    pub pages: u32,
    pub shadows: u32,
    pub frames: u32,
    pub entries: u32,
    pub policy: Policy,
    pub limit: u64,
    pub mark: u32,
    pub reserves: u32,
    pub sums: u32,
}

impl Setup {
    /// A setup for an array of at least `words` words, whose open transactions own at most `owned_pages` pages together. At
    /// most 80 rows in 100 are in use.
    ///
    /// # Errors
    ///
    /// `Setup`, if it is for no words, or for more than flash may have.
    pub fn for_words(words: u64, owned_pages: u32) -> Result<Setup, Error> {
        let mut found = sys::Setup::default();
        // SAFETY: the pointer is to a setup of this call's.
        Error::check(unsafe { sys::envy_setup_for(words, owned_pages, &mut found) })?;
        Ok(Setup::of(&found))
    }

    /// The setup that a file of either kind was made with. Policy, limit and mark aren't stored: they are greedy, 100 and all
    /// frames.
    ///
    /// # Errors
    ///
    /// `NoJournal`: it holds no memory; `Older`, `OtherJournal` or `System`.
    pub fn of_file(path: impl AsRef<Path>) -> Result<Setup, Error> {
        let path = c_path(path.as_ref())?;
        let mut found = sys::Setup::default();
        // SAFETY: the pointers are to a string and a setup of this call's.
        Error::check(unsafe { sys::envy_file_shape(path.as_ptr(), &mut found) })?;
        Ok(Setup::of(&found))
    }

    /// How many words the array has.
    pub fn words(&self) -> u64 {
        PAGE_WORDS * u64::from(self.pages)
    }

    pub(crate) fn of(found: &sys::Setup) -> Setup {
        Setup {
            segments: found.segments,
            rows: found.rows,
            pages: found.pages,
            shadows: found.shadows,
            frames: found.frames,
            entries: found.entries,
            policy: match found.policy {
                sys::FIFO => Policy::Fifo,
                sys::LOCALITY => Policy::Locality,
                sys::HYBRID => Policy::Hybrid(found.part),
                sys::LIFETIME => Policy::Lifetime,
                _ => Policy::Greedy,
            },
            limit: found.limit,
            mark: found.mark,
            reserves: found.reserves,
            sums: found.sums,
        }
    }

    pub(crate) fn numbers(&self) -> sys::Setup {
        let (policy, part) = match self.policy {
            Policy::Greedy => (sys::GREEDY, 0),
            Policy::Fifo => (sys::FIFO, 0),
            Policy::Locality => (sys::LOCALITY, 0),
            Policy::Hybrid(part) => (sys::HYBRID, part),
            Policy::Lifetime => (sys::LIFETIME, 0),
        };
        sys::Setup {
            segments: self.segments,
            rows: self.rows,
            pages: self.pages,
            shadows: self.shadows,
            frames: self.frames,
            entries: self.entries,
            policy,
            part,
            limit: self.limit,
            mark: self.mark,
            reserves: self.reserves,
            sums: self.sums,
        }
    }
}

pub(crate) fn c_path(path: &Path) -> Result<CString, Error> {
    CString::new(path.as_os_str().as_bytes()).map_err(|_| Error::System(io::ErrorKind::InvalidInput.into()))
}
