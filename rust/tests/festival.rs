//! The largest hall once: filled to its last version room, swept, thinned, dumped and loaded.

use hourbracken::dump::Dump;
use hourbracken::{Found, Refusal, Sizes, Start, Store, MAX_VALUE, MAX_WRITES};

/// Rounds of versions that are loaded; the last round is committed.
const ROUNDS: usize = Sizes::MAX.version_rooms / Sizes::MAX.key_rooms;

fn key(i: usize) -> Vec<u8> {
    format!("Festival-hall-seat-{i:05}").into_bytes()
}

/// A value of the greatest length, another one for each round.
fn value(round: usize) -> Vec<u8> {
    vec![round as u8; MAX_VALUE]
}

/// A dump in which each key has a version in each round but the last.
fn dump() -> Vec<u8> {
    let mut dump = b"DSEMVCC1".to_vec();
    dump.extend((ROUNDS as u64).to_le_bytes());
    dump.extend((Sizes::MAX.key_rooms as u32).to_le_bytes());
    for i in 0..Sizes::MAX.key_rooms {
        dump.extend((key(i).len() as u32).to_le_bytes());
        dump.extend(key(i));
        dump.extend((ROUNDS as u32 - 1).to_le_bytes());
        for round in 1..ROUNDS {
            dump.extend((round as u64).to_le_bytes());
            dump.push(1);
            dump.extend((MAX_VALUE as u32).to_le_bytes());
            dump.extend(value(round));
        }
    }
    dump
}

/// Each desk writes sixteen keys, and all of them commit: the last round.
fn fill(store: &mut Store) -> Result<(), Refusal> {
    let keys: Vec<Vec<u8>> = (0..Sizes::MAX.key_rooms).map(key).collect();
    let mut starts: Vec<Start> = Vec::new();
    for of_desk in keys.chunks(MAX_WRITES) {
        let start = store.begin()?.start;
        for key in of_desk {
            store.put(start, key, &value(ROUNDS))?;
        }
        starts.push(start);
    }
    assert_eq!((starts.len(), store.begin()), (Sizes::MAX.desks, Err(Refusal::DesksTaken)));
    starts.into_iter().try_for_each(|start| store.commit(start).map(|_| ()))
}

fn dumped(store: &Store) -> Vec<u8> {
    let mut out = vec![0; Sizes::MAX.dump_len()];
    let length = store.dump(&mut out).expect("dumped");
    out.truncate(length);
    out
}

#[test]
fn filled_swept_dumped_and_loaded() -> Result<(), Refusal> {
    let (mut hall, mut desk) = (vec![0xa5; Sizes::MAX.hall_len()], vec![0xa5; Sizes::MAX.desk_len()]);
    let mut store = Store::load(&dump(), &mut hall, &mut desk, Sizes::MAX)?;
    fill(&mut store)?;
    let (keys, versions) = (Sizes::MAX.key_rooms as u64, Sizes::MAX.version_rooms as u64);
    let held = store.counts()?;
    assert_eq!((held.keys, held.versions, held.desks), (keys, versions, 0));

    // no dump is longer, and it is read and loaded again as the same store
    let full = dumped(&store);
    assert_eq!(Dump::read(&full).map(|dump| dump.versions() as u64), Ok(versions));
    let (mut other_hall, mut other_desk) = (vec![0; Sizes::MAX.hall_len()], vec![0; Sizes::MAX.desk_len()]);
    let other = Store::load(&full, &mut other_hall, &mut other_desk, Sizes::MAX)?;
    assert!(dumped(&other) == full);

    // one more version has no room before a sweep
    let start = store.begin()?.start;
    store.put(start, &key(0), b"")?;
    assert_eq!(store.commit(start), Err(Refusal::NoVersionRoom));
    assert_eq!(store.read(start, &key(1_023))?, Found::Hall(&value(ROUNDS)));
    assert_eq!(store.sweep(1)?.dropped, 0);
    assert_eq!(store.thin(2)?, keys);
    assert_eq!(store.sweep(u64::MAX)?.dropped, versions - 2 * keys);
    assert_eq!(store.commit(start)?.number(), Some(ROUNDS as u64 + 2 * Sizes::MAX.desks as u64 + 1));
    assert_eq!(store.counts()?.versions, keys + 1);
    assert_eq!((store.newest(&key(0))?, store.newest(&key(1))?), (Found::Hall(b""), Found::Hall(&value(ROUNDS))));

    let swept = dumped(&store);
    let small = Sizes { key_rooms: 1_024, version_rooms: 1_025, desks: 1 };
    let (mut hall, mut desk) = (vec![0; small.hall_len()], vec![0; small.desk_len()]);
    assert!(dumped(&Store::load(&swept, &mut hall, &mut desk, small)?) == swept);
    Ok(())
}
