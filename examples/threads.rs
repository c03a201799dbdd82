//! Threads that share a memory: one `Memory` in a `Mutex`. A transaction borrows the memory, so a thread has the lock for as
//! long as its transaction is open, and for nothing else.
//!
//!     threads FILE        each of four threads moves 1 from account to account, 250 times; the sum stays
use envy::{Error, Memory, Open, Setup};
use std::process::exit;
use std::sync::{Mutex, MutexGuard, PoisonError};
use std::{env, thread};

const THREADS: u32 = 4;
const ACCOUNTS: u32 = 8;
const MOVES: u32 = 250;

/// The memory, for one transaction.
fn locked(memory: &Mutex<Memory>) -> MutexGuard<'_, Memory> {
    memory.lock().unwrap_or_else(PoisonError::into_inner)
}

/// Moves 1 from an account to another. Each has a page of its own.
fn move_one(memory: &Memory, from: u32, to: u32) -> Result<(), Error> {
    memory.transaction(|t| {
        t.put(32 * from, t.view(32 * from)?.wrapping_sub(1))?;
        t.put(32 * to, t.view(32 * to)?.wrapping_add(1))
    })
}

/// What one thread does.
fn work(memory: &Mutex<Memory>, thread: u32) -> Result<(), Error> {
    for n in 0..MOVES {
        let (from, to) = ((thread + n) % ACCOUNTS, (thread + 3 * n + 1) % ACCOUNTS);
        move_one(&locked(memory), from, to)?;
    }
    Ok(())
}

fn run(path: &str) -> Result<u64, Error> {
    let memory = Memory::open_file(path, &Setup::for_words(u64::from(32 * ACCOUNTS), 16)?, Open::CREATE)?;
    for account in 0..ACCOUNTS {
        memory.store(32 * account, 1000)?;
    }
    let memory = Mutex::new(memory);
    thread::scope(|scope| {
        let threads: Vec<_> = (0..THREADS).map(|n| scope.spawn({ let memory = &memory; move || work(memory, n) })).collect();
        threads.into_iter().try_for_each(|it| it.join().expect("a thread panicked"))
    })?;
    let memory = memory.into_inner().unwrap_or_else(PoisonError::into_inner);
    memory.sync()?;
    (0..ACCOUNTS).map(|account| memory.load(32 * account)).sum()
}

fn main() {
    let Some(path) = env::args().nth(1) else {
        eprintln!("threads FILE");
        exit(2);
    };
    match run(&path) {
        Ok(sum) => println!("{sum} in all"),
        Err(error) => {
            eprintln!("threads: {error}");
            exit(1);
        }
    }
}
