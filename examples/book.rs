//! The account book of book.c, in Rust over the package in rust/: the same file, the same words, the same answers.
use envy::{Error, Memory, Policy, Setup, Transaction};
use std::path::Path;
use std::process::exit;

const ACCOUNTS: u32 = 100;
const START: u64 = 1000;

const SETUP: Setup = Setup {
    segments: 8,
    rows: 32,
    pages: ACCOUNTS + 1,
    shadows: 16,
    frames: 16,
    entries: 16,
    policy: Policy::Greedy,
    limit: 100,
    mark: 12,
    reserves: 0,
    sums: 0,
};

const USAGE: &str = "FILE new|move A B AMOUNT|show A|sum";

/// Why a word of the book wasn't done.
enum Fault {
    Memory(Error),
    Said(&'static str),
}

impl From<Error> for Fault {
    fn from(error: Error) -> Fault {
        Fault::Memory(error)
    }
}

/// Each account has a page of its own; word 0 counts the transfers.
fn account(word: &str) -> Result<u32, Fault> {
    match word.parse::<u32>() {
        Ok(a) if a < ACCOUNTS => Ok(32 * (a + 1)),
        _ => Err(Fault::Said("there is no such account")),
    }
}

/// All accounts in transactions, each of no more pages than may be owned at once.
fn fill(book: &Memory) -> Result<(), Fault> {
    for first in (0..ACCOUNTS).step_by(10) {
        let filling = book.begin()?;
        for a in first..first + 10 {
            filling.put(32 * (a + 1), START)?;
        }
        filling.commit()?;
    }
    Ok(())
}

fn add(transfer: &Transaction, address: u32, amount: u64) -> Result<(), Fault> {
    Ok(transfer.put(address, transfer.view(address)? + amount)?)
}

/// Moves an amount, or nothing: where a call is refused the transaction is dropped, which aborts it.
fn transfer(book: &Memory, from: u32, to: u32, amount: u64) -> Result<(), Fault> {
    let transfer = book.begin()?;
    let left = transfer.view(from)?.checked_sub(amount).ok_or(Fault::Said("it hasn't so much"))?;
    transfer.put(from, left)?;
    add(&transfer, to, amount)?;
    add(&transfer, 0, 1)?;
    Ok(transfer.commit()?)
}

fn open(file: &str, fresh: bool) -> Result<Memory, Fault> {
    match (fresh, Path::new(file).exists()) {
        (true, true) => Err(Fault::Said("it is there already")),
        (false, false) => Err(Fault::Said("there is no such book")),
        _ => Ok(Memory::open(file, &SETUP)?),
    }
}

fn run(word: &[&str]) -> Result<(), Fault> {
    match word {
        [file, "new"] => fill(&open(file, true)?),
        [file, "move", from, to, amount] => {
            let amount = amount.parse().map_err(|_| Fault::Said("that is no amount"))?;
            transfer(&open(file, false)?, account(from)?, account(to)?, amount)
        }
        [file, "show", a] => {
            println!("{}", open(file, false)?.load(account(a)?)?);
            Ok(())
        }
        [file, "sum"] => {
            let book = open(file, false)?;
            let mut words = [0; 32 * (ACCOUNTS as usize + 1)];
            book.read(0, &mut words)?;
            let sum: u64 = words[32..].iter().step_by(32).sum();
            println!("{} transfers, {sum} in all", words[0]);
            Ok(())
        }
        _ => Err(Fault::Said(USAGE)),
    }
}

fn main() {
    let words: Vec<String> = std::env::args().skip(1).collect();
    let words: Vec<&str> = words.iter().map(String::as_str).collect();
    if let Err(fault) = run(&words) {
        match fault {
            Fault::Memory(error) => eprintln!("book: {error}"),
            Fault::Said(text) => eprintln!("book: {text}"),
        }
        exit(1);
    }
}
