//! A memory in a file that outlives the machine, as a Rust program uses it.
use envy::{Error, Index, Memory, Open, Policy, Setup};
use std::error::Error as _;
use std::path::PathBuf;
use std::process::Command;
use std::{env, fs, process};

fn path(name: &str) -> PathBuf {
    let path = env::temp_dir().join(format!("envy-rust-{}-{name}", process::id()));
    let _ = fs::remove_file(&path);
    path
}

#[test]
fn what_was_synced_is_found() {
    let path = path("synced");
    let setup = Setup::for_words(1000, 4).unwrap();
    let memory = Memory::open_file(&path, &setup, Open::CREATE).unwrap();
    assert!(matches!(Memory::open_file(&path, &setup, Open::CREATE), Err(Error::Locked)));
    let transfer = memory.begin().unwrap();
    transfer.put(5, 7).unwrap();
    transfer.write(40, &[1, 2, 3]).unwrap();
    assert_eq!(transfer.view(41).unwrap(), 2);
    assert!(matches!(memory.store(6, 1), Err(Error::Held { slot: 0 })));
    transfer.commit().unwrap();
    memory.sync().unwrap();
    // a copy of the file as it is now is what a stop of the machine leaves
    let copy = path.with_extension("copy");
    memory.store(5, 8).unwrap();
    fs::copy(&path, &copy).unwrap();
    memory.compact().unwrap();
    memory.close().unwrap();

    let found = Memory::open_file(&copy, &setup, Open::CREATE).unwrap();
    assert_eq!((found.load(5).unwrap(), found.load(42).unwrap()), (7, 3));
    let again = Memory::open_file(&path, &setup, Open::BYTEWISE | Open::COMPACT).unwrap();
    let mut words = [0; 3];
    again.read(40, &mut words).unwrap();
    assert_eq!((again.look(5).unwrap(), words), (8, [1, 2, 3]));
    assert!(matches!(again.load(u32::MAX), Err(Error::Range)));
    drop((found, again));
    fs::remove_file(copy).unwrap();
    fs::remove_file(path).unwrap();
}

#[test]
fn a_transaction_that_is_dropped_is_undone_and_other_files_are_refused() {
    let path = path("refused");
    let setup = Setup::for_words(1000, 4).unwrap();
    let memory = Memory::open_file(&path, &setup, Open::CREATE).unwrap();
    drop(memory.begin().map(|it| it.put(5, 7)));
    assert_eq!(memory.load(5).unwrap(), 0);
    drop(memory);
    let other = Setup::for_words(2000, 4).unwrap();
    assert!(matches!(Memory::open_file(&path, &other, Open::CREATE), Err(Error::OtherShape)));
    fs::write(&path, "a text of another kind, which is long enough").unwrap();
    assert!(matches!(Memory::open_file(&path, &setup, Open::CREATE), Err(Error::NoJournal)));
    fs::remove_file(path).unwrap();
}

#[test]
fn a_map_in_a_kept_file_is_found() {
    let path = path("map");
    let setup = Setup::for_words(32 * 60, 32).unwrap();
    let index = Index::create(Memory::open_file(&path, &setup, Open::CREATE).unwrap()).unwrap();
    for key in 0..100 {
        assert_eq!(index.insert(key * 3, key).unwrap(), None);
    }
    assert_eq!(index.insert(9, 90).unwrap(), Some(3));
    assert_eq!(index.remove(12).unwrap(), Some(4));
    index.sync().unwrap();
    // a copy of the file as it is now is what a stop of the machine leaves
    let copy = path.with_extension("copy");
    index.insert(1, 1).unwrap();
    fs::copy(&path, &copy).unwrap();
    index.compact().unwrap();
    index.into_memory().close().unwrap();

    // SAFETY: the last map over it left the words.
    let found = unsafe { Index::over(Memory::open_file(&copy, &setup, Open::CREATE).unwrap()) };
    assert_eq!((found.count().unwrap(), found.get(1).unwrap(), found.get(9).unwrap()), (99, None, Some(90)));
    assert_eq!((found.next(10).unwrap(), found.above(15).unwrap()), (Some((15, 5)), Some((18, 6))));
    assert_eq!(found.last(14).unwrap(), Some((9, 90)));
    let keys: Vec<u64> = found.range(6..16).map(|pair| pair.unwrap().0).collect();
    assert_eq!(keys, [6, 9, 15]);
    // SAFETY: as above.
    let again = unsafe { Index::over(Memory::open_file(&path, &setup, Open::CREATE).unwrap()) };
    assert_eq!((again.count().unwrap(), again.get(1).unwrap()), (100, Some(1)));
    drop((found, again));
    fs::remove_file(copy).unwrap();
    fs::remove_file(path).unwrap();
}

#[test]
fn a_file_has_its_sizes_and_is_made_only_if_that_is_asked() {
    let path = path("sizes");
    let setup = Setup::for_words(1000, 4).unwrap();
    let missing = Memory::open_file(&path, &setup, Open::default());
    assert!(matches!(missing, Err(Error::System(error)) if error.kind() == std::io::ErrorKind::NotFound));
    assert!(matches!(Memory::open_file(&path, None, Open::CREATE), Err(Error::System(_))));
    Memory::open_file(&path, &setup, Open::CREATE).unwrap().store(5, 7).unwrap();
    let memory = Memory::open_file(&path, None, Open::default()).unwrap();
    memory.store(5, 8).unwrap();
    memory.leave().unwrap();
    let fifo = Setup { policy: Policy::Fifo, pages: 1, shadows: 0, ..setup };
    let memory = Memory::open_file(&path, &fifo, Open::READ_SIZES).unwrap();
    assert_eq!(memory.load(5).unwrap(), 7);
    drop(memory);
    let readers = [0, 1].map(|_| Memory::open_file(&path, None, Open::READING).unwrap());
    assert!(readers.iter().all(|it| it.load(999).unwrap() == 0));
    assert!(matches!(Memory::open_file(&path, &setup, Open::default()), Err(Error::Locked)));
    readers[0].store(5, 1).unwrap();
    assert!(matches!(readers[0].sync(), Err(Error::Off(_))));
    assert_eq!(Setup::of_file(&path).unwrap().pages, setup.pages);
    drop(readers);
    fs::remove_file(path).unwrap();
}

#[test]
fn a_transaction_of_a_closure_is_kept_or_undone() {
    let path = path("closure");
    let memory = Memory::open_file(&path, &Setup::for_words(1000, 4).unwrap(), Open::CREATE).unwrap();
    let sum: u64 = memory
        .transaction(|t| -> Result<u64, Error> {
            t.put(5, 7)?;
            t.put(6, 8)?;
            Ok(t.view(5)? + t.view(6)?)
        })
        .unwrap();
    let refused: Result<(), Error> = memory.transaction(|t| {
        t.put(5, 9)?;
        Err(Error::Range)
    });
    assert!(matches!(refused, Err(Error::Range)));
    assert_eq!((sum, memory.load(5).unwrap(), memory.begin().unwrap().slot()), (15, 7, 0));
    assert!(matches!(memory.cut_now(), Err(Error::OtherBoard)));
    drop(memory);
    fs::remove_file(path).unwrap();
}

#[test]
fn a_memory_is_copied_and_grows() {
    let path = path("grows");
    let setup = Setup::for_words(1000, 4).unwrap();
    let mut memory = Memory::open_file(&path, &setup, Open::CREATE).unwrap();
    memory.store(999, 7).unwrap();
    let open = memory.begin().unwrap();
    open.put(5, 8).unwrap();
    let copy = path.with_extension("copy");
    memory.copy(&copy, None).unwrap();
    assert!(matches!(memory.copy(&copy, None), Err(Error::System(_))));
    drop(open);
    let larger = Setup::for_words(5000, 40).unwrap();
    memory.grow(&larger).unwrap();
    memory.store(4999, 9).unwrap();
    assert_eq!((memory.load(999).unwrap(), memory.load(5).unwrap()), (7, 0));
    let stats = memory.stats().unwrap();
    assert_eq!(stats.free + stats.kept + stats.shadows + stats.dead, u64::from(larger.segments * larger.rows));
    assert_eq!(stats.file_bytes, fs::metadata(&path).unwrap().len());
    drop(memory);
    assert_eq!(Setup::of_file(&path).unwrap().pages, larger.pages);
    let copied = Memory::open_file(&copy, None, Open::default()).unwrap();
    assert_eq!((copied.load(999).unwrap(), copied.load(5).unwrap()), (7, 0));
    drop(copied);
    fs::remove_file(copy).unwrap();
    fs::remove_file(path).unwrap();
}

/// A limit of the process, as C has it.
#[repr(C)]
struct Limit {
    now: u64,
    most: u64,
}

extern "C" {
    fn setrlimit(resource: i32, limit: *const Limit) -> i32;
}

const FILE_SIZE: i32 = 1;
const TOO_LARGE: i32 = 27;

#[test]
fn a_file_that_fails_tells_why() {
    // in a process of its own, since the limit is one of the process
    if env::var_os("ENVY_TEST_LIMITED").is_none() {
        let mut itself = Command::new(env::current_exe().unwrap());
        let ran = itself.args(["--exact", "a_file_that_fails_tells_why"]).env("ENVY_TEST_LIMITED", "1").output().unwrap();
        assert!(ran.status.success(), "{}", String::from_utf8_lossy(&ran.stdout));
        return;
    }
    let path = path("limited");
    let memory = Memory::open_file(&path, &Setup::for_words(1000, 4).unwrap(), Open::CREATE).unwrap();
    let limit = Limit { now: fs::metadata(&path).unwrap().len() + 10_000, most: u64::MAX };
    // SAFETY: the limit is this call's.
    assert_eq!(unsafe { setrlimit(FILE_SIZE, &limit) }, 0);
    let failed = (0..100_000).find_map(|word| memory.store(5, word).and_then(|()| memory.sync()).err());
    for error in [failed.unwrap(), memory.sync().unwrap_err(), memory.close().unwrap_err()] {
        let Error::Off(cause) = &error else { panic!("{error}") };
        assert_eq!(cause.raw_os_error(), Some(TOO_LARGE));
        assert!(error.source().is_some() && error.to_string().contains(&cause.to_string()));
    }
    fs::remove_file(path).unwrap();
}
