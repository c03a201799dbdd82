//! The prices of prices.c, in Rust over the package in rust/: the same file, the same words, the same answers.
use envy::{Error, Map, Maps, Memory, Policy, Setup};
use std::env;
use std::process::exit;

/// The words of each map. The first word after both counts changes.
const MAP_WORDS: u32 = 32 * 512;
const COUNTER: u32 = 2 * MAP_WORDS;

const SETUP: Setup = Setup {
    segments: 16,
    rows: 128,
    pages: 2 * 512 + 1,
    shadows: 64,
    frames: 64,
    entries: 64,
    policy: Policy::Greedy,
    limit: 100,
    mark: 48,
    reserves: 0,
    sums: 0,
};

struct Prices {
    maps: Maps,
    by_article: Map,
    by_price: Map,
}

/// Articles of one price have keys that differ, and lie side by side.
fn price_key(price: u64, article: u64) -> u64 {
    price << 32 | article
}

impl Prices {
    fn open(path: &str) -> Result<Prices, Error> {
        let maps = Maps::over(Memory::open(path, &SETUP)?);
        let (by_article, by_price) = (maps.find(0..MAP_WORDS)?, maps.find(MAP_WORDS..COUNTER)?);
        Ok(Prices { maps, by_article, by_price })
    }

    /// Sets a price, in the table and in the index, or leaves both.
    fn set(&self, article: u64, price: u64) -> Result<(), Error> {
        self.maps.transaction(|change| {
            if let Some(old) = change.insert(self.by_article, article, price)? {
                change.remove(self.by_price, price_key(old, article))?;
            }
            change.insert(self.by_price, price_key(price, article), 0)?;
            change.put(COUNTER, self.maps.load(COUNTER)? + 1)
        })
    }

    /// Takes an article out of both, and tells whether it was there.
    fn take(&self, article: u64) -> Result<bool, Error> {
        self.maps.transaction(|change| {
            let Some(price) = change.remove(self.by_article, article)? else { return Ok(false) };
            change.remove(self.by_price, price_key(price, article))?;
            change.put(COUNTER, self.maps.load(COUNTER)? + 1)?;
            Ok(true)
        })
    }

    /// Prints the articles from one price to another, the cheapest first.
    fn print_from(&self, low: u64, high: u64) -> Result<(), Error> {
        for pair in self.maps.range(self.by_price, price_key(low, 0)..=price_key(high, u64::from(u32::MAX))) {
            let (key, _) = pair?;
            println!("{} {}", key & u64::from(u32::MAX), key >> 32);
        }
        Ok(())
    }

    fn print_count(&self) -> Result<(), Error> {
        let (articles, prices) = (self.maps.len(self.by_article)?, self.maps.len(self.by_price)?);
        println!("{articles} articles, {prices} prices, {} changes", self.maps.load(COUNTER)?);
        Ok(())
    }
}

/// Does a word, and tells whether what it names is there.
fn run(path: &str, words: &[&str]) -> Result<bool, Error> {
    let number = |word: &str| word.parse::<u32>().map_or(0, u64::from);
    let prices = Prices::open(path)?;
    match words {
        ["set", article, price] => prices.set(number(article), number(price)).map(|()| true),
        ["drop", article] => prices.take(number(article)),
        ["show", article] => {
            let price = prices.maps.get(prices.by_article, number(article))?;
            price.iter().for_each(|price| println!("{price}"));
            Ok(price.is_some())
        }
        ["from", low, high] => prices.print_from(number(low), number(high)).map(|()| true),
        ["count"] => prices.print_count().map(|()| true),
        _ => {
            eprintln!("prices: FILE set ARTICLE PRICE|drop ARTICLE|show ARTICLE|from LOW HIGH|count");
            exit(2)
        }
    }
}

fn main() {
    let words: Vec<String> = env::args().skip(1).collect();
    let words: Vec<&str> = words.iter().map(String::as_str).collect();
    let Some((path, words)) = words.split_first() else { exit(2) };
    match run(path, words) {
        Ok(true) => {}
        Ok(false) => exit(1),
        Err(error) => {
            eprintln!("prices: {path}: {error}");
            exit(1)
        }
    }
}
