//! Transactions over an array of 64-bit words that a killed process, or a machine that stops, leaves whole.
//!
//! A [`Memory`] is an array over what is said when it is opened:
//!
//! | [`Memory::open_file`] | a file that outlives the process and the machine: what was there at the last [`Memory::sync`] |
//! |---|---|
//! | [`Memory::open_mapped`] | a file that the process maps: it outlives the process as soon as a call has ended |
//! | [`Memory::format_regions`], [`Memory::open_regions`] | regions of memory of the program's |
//! | [`Memory::open_simulation`], [`Memory::restore`] | a board in memory whose power and flash can be made to fail, for tests |
//!
//! Its words are loaded and stored one by one, or changed together in a [`Transaction`], which is aborted if it is dropped
//! before its commit. What lasts of each is proved of the library behind this package. That a machine that stops leaves a
//! mapped file so isn't, since the system writes such a file when and in which order it likes.
//!
//! **Isolation** is by page of 32 words. The first put of a transaction to a word makes it the owner of the word's page
//! until it ends, and until then a store, or a put of another transaction, to any word of that page is [`Error::Held`].
//! [`Memory::load`] sees what any open transaction put, [`Memory::look`] what is committed, and [`Transaction::view`]
//! what this transaction put and else what is committed.
//!
//! An [`Index`] is an ordered map in the array of a memory, each of whose calls is one transaction. [`Maps`] are several in
//! one array, changed together in one transaction.
//!
//! ```no_run
//! # fn main() -> Result<(), envy::Error> {
//! let setup = envy::Setup::for_words(32 * 101, 16)?;
//! let memory = envy::Memory::open_file("accounts", &setup, envy::Open::CREATE)?;
//! memory.transaction(|transfer| -> Result<(), envy::Error> {
//!     transfer.put(32, transfer.view(32)?.wrapping_sub(250))?;
//!     transfer.put(64, transfer.view(64)?.wrapping_add(250))
//! })?;
//! memory.sync() // on the disk from here on
//! # }
//! ```

mod calls;
mod counts;
mod error;
mod index;
mod maps;
mod memory;
mod opening;
mod regions;
mod setup;
mod simulation;
mod sys;
mod transaction;

pub use counts::{Counts, Did, Stats, Worn};
pub use error::{Error, Point, Rule, Stopped};
pub use index::{Index, Pair, Range};
pub use maps::{Changes, Map, Maps, Pairs};
pub use memory::{version, Memory};
pub use opening::Open;
pub use regions::{Regions, Sizes};
pub use setup::{Policy, Setup, PAGE_WORDS};
pub use transaction::Transaction;
