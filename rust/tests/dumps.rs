//! The reader of dumps beside the proved load, on damaged dumps: the same are accepted, and refusals are the same.

use hourbracken::dump::Dump;
use hourbracken::{Found, Refusal, Sizes, Store};
use trials::call::Opening;
use trials::random::{Gen, Theme};
use trials::rng::SplitMix64;

const DUMPS: u64 = 3_000;

/// The loaded store has what the dump says: its counts, and each key's newest version.
fn agree(dump: &Dump, store: &Store) -> Result<(), Refusal> {
    let held = store.counts()?;
    assert_eq!((held.keys, held.versions, held.desks), (dump.keys() as u64, dump.versions() as u64, 0));
    for entry in dump.entries() {
        let newest = entry.versions().last().and_then(|version| version.value);
        assert_eq!(store.newest(entry.key)?, newest.map_or(Found::Nothing, Found::Hall));
    }
    let mut again = vec![0; dump.bytes().len()];
    assert_eq!((store.dump(&mut again)?, &again[..]), (dump.bytes().len(), dump.bytes()));
    Ok(())
}

#[test]
fn read_as_loaded() {
    let (mut hall, mut desk) = (vec![0; Sizes::MAX.hall_len()], vec![0; Sizes::MAX.desk_len()]);
    let (mut accepted, mut refused) = (0, 0);
    for seed in 0..DUMPS {
        let theme = [Theme::Loads, Theme::LastNumbers][seed as usize % 2];
        let Opening::Load { dump, sizes } = Gen::about(theme, SplitMix64::new(seed)).next_fault() else {
            panic!("a load")
        };
        let (key_rooms, version_rooms) = (sizes.key_rooms as usize, sizes.version_rooms as usize);
        // a dump says nothing about desks, and its reader asks for none
        let sizes = Sizes { key_rooms, version_rooms, desks: 1 };
        let loaded = Store::load(&dump, &mut hall, &mut desk, sizes);
        match (Dump::read_for(&dump, key_rooms, version_rooms), loaded) {
            (Ok(dump), Ok(store)) => {
                assert_eq!(agree(&dump, &store), Ok(()), "seed {seed}");
                accepted += 1;
            }
            (Err(fault), Err(refusal)) => {
                assert_eq!(Refusal::from(fault), refusal, "seed {seed}");
                refused += 1;
            }
            (read, loaded) => panic!("seed {seed}: {read:?}, {loaded:?}"),
        }
    }
    println!("{accepted} dumps accepted and {refused} refused alike");
    assert!(accepted > 300 && refused > 1_000);
}
