//! Memories over regions and over a board that can be made to fail, as a Rust program uses them.
use envy::{Error, Memory, Policy, Regions, Setup};
use std::sync::Mutex;
use std::thread;

const SETUP: Setup = Setup {
    segments: 8,
    rows: 16,
    pages: 64,
    shadows: 16,
    frames: 8,
    entries: 4,
    policy: Policy::Greedy,
    limit: 100,
    mark: 6,
    reserves: 0,
    sums: 0,
};

/// Regions of a setup, which stay until the process ends.
fn regions_of(setup: &Setup) -> Regions {
    let sizes = setup.regions().unwrap();
    Regions {
        flash: vec![[0; 32]; sizes.flash].leak(),
        sram: vec![0; sizes.sram].leak(),
        erases: vec![0; sizes.erases].leak(),
    }
}

#[test]
fn regions_hold_a_memory() {
    let (error, regions) = Memory::open_regions(&SETUP, regions_of(&SETUP)).err().unwrap();
    assert!(matches!(error, Error::Unformatted));
    let memory = Memory::format_regions(&SETUP, regions).unwrap();
    memory.store(5, 7).unwrap();
    memory.sync().unwrap();
    assert!(matches!(memory.arm_cut(1, 0), Err(Error::OtherBoard)));
    let regions = memory.into_regions().unwrap();
    assert_eq!(Setup::of_sram(regions.sram).unwrap().pages, 64);
    let memory = Memory::open_regions(&SETUP, regions).unwrap();
    assert_eq!(memory.load(5).unwrap(), 7);
    let mut regions = memory.into_regions().unwrap();
    regions.erases = &mut [];
    let (error, _) = Memory::open_regions(&SETUP, regions).err().unwrap();
    assert!(matches!(error, Error::ErasesSize));
    assert!(Memory::open_simulation(&SETUP, 0).unwrap().into_regions().is_none());
}

#[test]
fn power_fails_and_returns() {
    let mut memory = Memory::open_simulation(&SETUP, 1).unwrap();
    memory.store(5, 7).unwrap();
    let transaction = memory.begin().unwrap();
    transaction.put(5, 8).unwrap();
    memory.cut_now().unwrap();
    let off = transaction.view(5).unwrap_err();
    assert_eq!(off.to_string(), "power is off, or the file failed: power failed");
    drop(transaction);
    assert!(matches!(memory.sync(), Err(Error::Off(_))));
    memory.revive().unwrap();
    assert!(matches!(memory.revive(), Err(Error::Powered)));
    assert_eq!((memory.load(5).unwrap(), memory.lives().unwrap()), (7, 0));
    memory.arm_bad(1, 9).unwrap();
    let bad = (0..64).find_map(|page| memory.store(32 * page, 1).err());
    assert!(matches!(bad, Some(Error::Bad)));
    memory.cut_now().unwrap();
    assert!(matches!(memory.revive(), Err(Error::Dead)));
}

#[test]
fn an_image_is_a_memory() {
    let memory = Memory::open_simulation(&SETUP, 0).unwrap();
    memory.store(5, 7).unwrap();
    let mut image = vec![0; SETUP.image_size().unwrap()];
    assert!(memory.save(&mut image[1..]).is_err());
    memory.save(&mut image).unwrap();
    assert_eq!(SETUP.of_image(&image).unwrap(), SETUP);
    let found = Memory::restore(&SETUP, 0, &image).unwrap();
    assert_eq!(found.load(5).unwrap(), 7);
    image[0] ^= 1;
    assert!(Memory::restore(&SETUP, 0, &image).is_err());
}

#[test]
fn threads_share_a_memory_by_a_lock() {
    let memory = Mutex::new(Memory::open_simulation(&SETUP, 0).unwrap());
    thread::scope(|scope| {
        for n in 0..8 {
            let memory = &memory;
            scope.spawn(move || {
                for _ in 0..100 {
                    let memory = memory.lock().unwrap();
                    memory
                        .transaction(|t| t.put(5, t.view(5)? + 1).and_then(|()| t.put(64 + n, t.view(64 + n)? + 1)))
                        .unwrap();
                }
            });
        }
    });
    let memory = memory.into_inner().unwrap();
    assert_eq!((memory.load(5).unwrap(), memory.load(71).unwrap()), (800, 100));
}
