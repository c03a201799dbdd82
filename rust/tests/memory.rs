//! The package over the library: what a program sees of files, words and transactions.
use envy::{Did, Error, Index, Map, Maps, Memory, Pair, Policy, Rule, Setup};
use std::fs;
use std::path::PathBuf;

/// A path in the folder of temporary files, where nothing is before and after.
struct Place(PathBuf);

impl Place {
    fn new(name: &str) -> Place {
        let place = Place(std::env::temp_dir().join(format!("envy-rust-{}-{name}", std::process::id())));
        let _ = fs::remove_file(&place.0);
        place
    }
}

impl Drop for Place {
    fn drop(&mut self) {
        let _ = fs::remove_file(&self.0);
    }
}

const SETUP: Setup = Setup {
    segments: 8,
    rows: 16,
    pages: 64,
    shadows: 2,
    frames: 8,
    entries: 4,
    policy: Policy::Hybrid(2),
    limit: 100,
    mark: 6,
    reserves: 0,
    sums: 0,
};

#[test]
fn words_outlive_the_memory() {
    let place = Place::new("words");
    let memory = Memory::open(&place.0, &SETUP).unwrap();
    for address in 0..2048 {
        memory.store(address, u64::from(address) * 3).unwrap();
    }
    memory.close().unwrap();
    let memory = Memory::open(&place.0, &SETUP).unwrap();
    let mut words = [0; 2048];
    memory.read(0, &mut words).unwrap();
    assert!(words.iter().enumerate().all(|(at, word)| *word == at as u64 * 3));
    assert!(matches!(memory.read(1, &mut words), Err(Error::Range)));
    assert!(matches!(memory.load(2048), Err(Error::Range)));
    // one access for each page
    assert_eq!(memory.counts().hits + memory.counts().misses, 64);
    while memory.tick().unwrap() != Did::Idle {}
}

#[test]
fn a_dropped_transaction_is_undone_and_a_committed_one_stays() {
    let place = Place::new("dropped");
    let memory = Memory::open(&place.0, &SETUP).unwrap();
    memory.store(5, 1).unwrap();
    {
        let transaction = memory.begin().unwrap();
        transaction.put(5, 2).unwrap();
        assert_eq!((memory.load(5).unwrap(), memory.look(5).unwrap()), (2, 1));
    }
    assert_eq!(memory.load(5).unwrap(), 1);
    let transaction = memory.begin().unwrap();
    transaction.put(5, 3).unwrap();
    transaction.commit().unwrap();
    let open = memory.begin().unwrap();
    open.put(5, 4).unwrap();
    drop(open);
    memory.sync().unwrap();
    drop(memory);
    assert_eq!(Memory::open(&place.0, &SETUP).unwrap().load(5).unwrap(), 3);
}

#[test]
fn transactions_are_kept_apart_by_page() {
    let place = Place::new("apart");
    let memory = Memory::open(&place.0, &SETUP).unwrap();
    let (first, second) = (memory.begin().unwrap(), memory.begin().unwrap());
    first.write(30, &[7, 8, 9]).unwrap();
    assert_eq!((first.view(31).unwrap(), second.view(31).unwrap(), memory.load(31).unwrap()), (8, 0, 8));
    let held = second.put(1, 1).unwrap_err();
    assert!(matches!(held, Error::Held { slot } if slot == first.slot()));
    assert_eq!(held.to_string(), "another transaction owns the page: that of slot 0");
    assert!(matches!(memory.store(1, 1), Err(Error::Held { slot: 0 })));
    assert!(matches!(first.put(64, 1), Err(Error::Full)));
    let stopped = first.write(60, &[4, 5, 6, 7, 8]).unwrap_err();
    assert_eq!((stopped.done, first.view(60).unwrap()), (0, 0));
    assert!(matches!(Error::from(stopped), Error::Full));
    let stopped = memory.store_run(100, &[1; 40]).and(memory.store_run(62, &[1, 2, 3])).unwrap_err();
    assert_eq!((stopped.done, memory.load(139).unwrap()), (0, 1));
    assert!(matches!(Error::from(stopped), Error::Held { slot: 0 }));
    first.commit().unwrap();
    let stopped = second.write(2047, &[5, 6]).unwrap_err();
    assert_eq!(stopped.done, 1);
    assert!(matches!(Error::from(stopped), Error::Range));
    second.abort();
    let mut words = [1; 4];
    memory.read(30, &mut words).unwrap();
    assert_eq!(words, [7, 8, 9, 0]);
}

#[test]
fn slots_run_out_and_come_back() {
    let place = Place::new("slots");
    let memory = Memory::open(&place.0, &SETUP).unwrap();
    let open: Vec<_> = (0..64).map(|_| memory.begin().unwrap()).collect();
    assert!(matches!(memory.begin(), Err(Error::Busy)));
    drop(open);
    assert_eq!(memory.begin().unwrap().slot(), 0);
}

#[test]
fn a_file_is_refused_by_its_cause() {
    let place = Place::new("refused");
    let missing = Setup::of_file(&place.0).unwrap_err();
    assert!(matches!(&missing, Error::System(error) if error.kind() == std::io::ErrorKind::NotFound));
    assert!(missing.to_string().starts_with("the system refused a call: "));
    let memory = Memory::open(&place.0, &SETUP).unwrap();
    assert!(matches!(Memory::open(&place.0, &SETUP), Err(Error::Locked)));
    drop(memory);
    let found = Setup::of_file(&place.0).unwrap();
    assert_eq!(found, Setup { policy: Policy::Greedy, mark: 8, ..SETUP });
    drop(Memory::open(&place.0, &found).unwrap());
    assert!(matches!(Memory::open(&place.0, &Setup { entries: 5, ..SETUP }), Err(Error::OtherShape)));
    let rule = Memory::open(&place.0, &Setup { mark: 9, ..SETUP });
    assert!(matches!(rule, Err(Error::Setup(Rule::Mark))));
    let mut bytes = fs::read(&place.0).unwrap();
    fs::write(&place.0, &bytes[8..]).unwrap();
    assert!(matches!(Memory::open(&place.0, &SETUP), Err(Error::ErasesSize)));
    bytes.fill(0);
    fs::write(&place.0, &bytes).unwrap();
    assert!(matches!(Memory::open(&place.0, &SETUP), Err(Error::Unformatted)));
}

#[test]
fn a_setup_is_chosen_by_words() {
    let place = Place::new("chosen");
    let setup = Setup::for_words(100_000, 20).unwrap();
    assert!(setup.words() >= 100_000 && setup.shadows == 20);
    let memory = Memory::open(&place.0, &setup).unwrap();
    memory.store(99_999, 1).unwrap();
    assert_eq!(memory.load(99_999).unwrap(), 1);
    assert!(matches!(Setup::for_words(0, 1), Err(Error::Setup(Rule::Pages))));
    assert!(matches!(Setup::for_words(1 << 40, 1), Err(Error::Setup(Rule::Total))));
    assert!(!envy::version().is_empty());
}

/// A setup that has room for a map of at most 14 * (31 - 8) pairs.
const OF_A_MAP: Setup = Setup {
    shadows: 32,
    ..SETUP
};

#[test]
fn a_map_is_found_again_and_ranges_are_by_rising_key() {
    let place = Place::new("map");
    let index = Index::create(Memory::open(&place.0, &OF_A_MAP).unwrap()).unwrap();
    for key in (0..200).rev() {
        assert_eq!(index.insert(key * 3, key).unwrap(), None);
    }
    assert_eq!(index.insert(9, 90).unwrap(), Some(3));
    assert_eq!(index.remove(12).unwrap(), Some(4));
    assert_eq!(index.remove(12).unwrap(), None);
    assert_eq!(index.count().unwrap(), 199);
    drop(index);
    // SAFETY: the file holds the map that was left just now.
    let index = unsafe { Index::over(Memory::open(&place.0, &OF_A_MAP).unwrap()) };
    assert_eq!(index.get(9).unwrap(), Some(90));
    assert_eq!(index.get(10).unwrap(), None);
    assert_eq!(index.next(10).unwrap(), Some((15, 5)));
    assert_eq!(index.above(15).unwrap(), Some((18, 6)));
    assert_eq!(index.last(14).unwrap(), Some((9, 90)));
    assert_eq!(index.next(598).unwrap(), None);
    let keys: Vec<u64> = index.range(6..16).map(|pair| pair.unwrap().0).collect();
    assert_eq!(keys, [6, 9, 15]);
    assert_eq!(index.range(..0).count(), 0);
    assert_eq!(index.range(..).count(), 199);
    let mut pairs = [Pair { key: 1, value: 2 }; 200];
    assert_eq!(index.scan(10, &mut pairs[..2]).unwrap(), 2);
    assert_eq!(pairs[..3], [Pair { key: 15, value: 5 }, Pair { key: 18, value: 6 }, Pair { key: 1, value: 2 }]);
    assert_eq!(index.scan_down(10, &mut pairs).unwrap(), 4);
    assert_eq!(pairs[..4].iter().map(|pair| pair.key).collect::<Vec<_>>(), [9, 6, 3, 0]);
    assert_eq!(index.scan(0, &mut pairs).unwrap(), 199);
    assert_eq!(index.scan(598, &mut pairs).unwrap(), 0);
}

#[test]
fn words_that_are_no_map_are_told() {
    let place = Place::new("broken-map");
    let index = Index::create(Memory::open(&place.0, &OF_A_MAP).unwrap()).unwrap();
    assert_eq!(index.insert(5, 50).unwrap(), None);
    let memory = index.into_memory();
    memory.store(0, u64::MAX).unwrap();
    // SAFETY: no pair is changed.
    let index = unsafe { Index::over(memory) };
    assert!(matches!(index.get(5), Err(Error::BrokenMap)));
    assert!(matches!(index.scan(0, &mut [Pair::default()]), Err(Error::BrokenMap)));
}

#[test]
fn a_map_is_refused_where_it_has_no_room() {
    let place = Place::new("no-map");
    assert!(matches!(Index::create(Memory::open(&place.0, &SETUP).unwrap()), Err(Error::MapSetup)));
    let other = Place::new("full-map");
    let index = Index::create(Memory::open(&other.0, &OF_A_MAP).unwrap()).unwrap();
    let mut n = 0;
    let refused = loop {
        match index.insert(n, n) {
            Ok(before) => assert_eq!(before, None),
            Err(error) => break error,
        }
        n += 1;
    };
    assert!(matches!(refused, Error::MapFull));
    assert_eq!(index.count().unwrap(), n);
    assert_eq!(index.get(n).unwrap(), None);
}

/// Two maps of at most 14 * (15 - 8) pairs, and a page after them.
const OF_MAPS: Setup = Setup {
    rows: 32,
    pages: 65,
    shadows: 40,
    ..OF_A_MAP
};

fn two_maps(place: &Place) -> (Maps, Map, Map) {
    let maps = Maps::over(Memory::open(&place.0, &OF_MAPS).unwrap());
    let (one, two) = (maps.create(0..1024).unwrap(), maps.create(1024..2048).unwrap());
    (maps, one, two)
}

#[test]
fn maps_change_together_or_not_at_all() {
    let place = Place::new("maps");
    let (maps, one, two) = two_maps(&place);
    maps.transaction(|t| {
        assert_eq!(t.insert(one, 5, 50)?, None);
        assert_eq!(t.insert(one, 5, 51)?, Some(50));
        assert_eq!(maps.get(one, 5)?, Some(51));
        t.insert(two, 51, 5)?;
        t.put(2048, 7)
    })
    .unwrap();
    let failed: Result<(), Error> = maps.transaction(|t| {
        t.remove(one, 5)?;
        t.put(2048, 8)?;
        t.put(1024, 9)
    });
    assert!(matches!(failed, Err(Error::Range)));
    let panics = std::panic::catch_unwind(std::panic::AssertUnwindSafe(|| {
        maps.transaction(|t| -> Result<(), Error> {
            t.insert(two, 6, 6)?;
            panic!("a closure that panics")
        })
    }));
    assert!(panics.is_err());
    assert_eq!((maps.get(one, 5).unwrap(), maps.get(two, 51).unwrap(), maps.load(2048).unwrap()), (Some(51), Some(5), 7));
    assert_eq!((maps.len(one).unwrap(), maps.len(two).unwrap(), maps.is_empty(two).unwrap()), (1, 1, false));
    assert!(matches!(maps.transaction(|_| maps.transaction(|_| Ok(()))), Err(Error::SlotOpen)));
    drop(maps);
    let maps = Maps::over(Memory::open(&place.0, &OF_MAPS).unwrap());
    // SAFETY: the file holds the maps that were left just now.
    let two = unsafe { maps.open(1024..2048) }.unwrap();
    assert_eq!(maps.get(two, 51).unwrap(), Some(5));
    assert!(matches!(maps.create(2016..2656), Err(Error::Range)));
    // the word that counts the pairs of the other one is another
    let memory = maps.into_memory();
    memory.store(3, memory.load(3).unwrap() + 1).unwrap();
    let maps = Maps::over(memory);
    assert!(matches!(maps.find(0..1024), Err(Error::BrokenMap)));
    let two = maps.find(1024..2048).unwrap();
    assert_eq!((maps.get(two, 51).unwrap(), maps.len(two).unwrap()), (Some(5), 1));
}

#[test]
fn pairs_of_a_map_come_from_both_ends() {
    let place = Place::new("both-ends");
    let (maps, one, two) = two_maps(&place);
    let mut n = 0;
    let full = loop {
        match maps.transaction(|t| t.insert(one, 3 * n, n)) {
            Ok(before) => assert_eq!(before, None),
            Err(error) => break error,
        }
        n += 1;
    };
    assert!(matches!(full, Error::MapFull));
    assert_eq!(maps.len(one).unwrap(), n);
    let keys = |pairs: envy::Pairs| pairs.map(|pair| pair.unwrap().0).collect::<Vec<_>>();
    assert_eq!(keys(maps.range(one, ..)), (0..n).map(|i| 3 * i).collect::<Vec<_>>());
    assert_eq!(maps.range(one, 7..=15).rev().map(|pair| pair.unwrap().0).collect::<Vec<_>>(), [15, 12, 9]);
    let mut pairs = maps.range(one, ..);
    let (mut low, mut high) = (0, n);
    while low < high {
        assert_eq!(pairs.next().unwrap().unwrap(), (3 * low, low));
        low += 1;
        if low < high {
            high -= 1;
            assert_eq!(pairs.next_back().unwrap().unwrap(), (3 * high, high));
        }
    }
    assert!(pairs.next().is_none() && pairs.next_back().is_none());
    assert_eq!(maps.range(two, ..).count() + maps.range(one, 5..5).count(), 0);
}
