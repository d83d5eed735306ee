//! The worked cases of the store's paper, through the exported functions.

use hourbracken::dump::Dump;
use hourbracken::{Committed, Found, Refusal, Sizes, Start, Store, KEY_BYTES, MAX_DESKS, MAX_WRITES};

const A1: &[u8] = b"A1";
const A2: &[u8] = b"A2";
const SIZES: Sizes = Sizes { key_rooms: 20, version_rooms: 40, desks: MAX_DESKS };

/// Memories that hold nothing yet.
fn memories(sizes: Sizes) -> (Vec<u8>, Vec<u8>) {
    (vec![0xff; sizes.hall_len()], vec![0xff; sizes.desk_len()])
}

/// A new store of twenty keys and forty versions, lent to a case.
fn on_new_store(case: impl FnOnce(&mut Store) -> Result<(), Refusal>) {
    let (mut hall, mut desk) = memories(SIZES);
    let mut store = Store::make(&mut hall, &mut desk, SIZES).expect("made");
    assert_eq!(case(&mut store), Ok(()));
}

fn begin(store: &mut Store, number: u64) -> Result<Start, Refusal> {
    let start = store.begin()?.start;
    assert_eq!(start.number(), number);
    Ok(start)
}

fn commits(store: &mut Store, start: Start, number: u64) {
    assert!(matches!(store.commit(start), Ok(Committed::As(n)) if n.number() == number));
}

fn dump(store: &Store) -> Vec<u8> {
    let mut out = vec![0xa5; 4_096];
    let length = store.dump(&mut out).expect("dumped");
    assert!(out[length..].iter().all(|byte| *byte == 0xa5));
    out.truncate(length);
    out
}

fn hex(text: &str) -> Vec<u8> {
    text.split_whitespace().map(|pair| u8::from_str_radix(pair, 16).expect("hex")).collect()
}

#[test]
fn a_new_store_dumps() {
    on_new_store(|store| {
        assert_eq!(dump(store), hex("44 53 45 4D 56 43 43 31 01 00 00 00 00 00 00 00 00 00 00 00"));
        Ok(())
    });
}

#[test]
fn one_value_dumps_and_loads() {
    on_new_store(|store| {
        let start = begin(store, 1)?;
        store.put(start, A1, &[7])?;
        commits(store, start, 2);
        let expected = hex(
            "44 53 45 4D 56 43 43 31 03 00 00 00 00 00 00 00 01 00 00 00 02 00 00 00 41 31 01 00 00 00 02 00 00 00 00 00 00 00 \
             01 01 00 00 00 07",
        );
        assert_eq!(dump(store), expected);
        let (mut hall, mut desk) = memories(SIZES);
        let again = Store::load(&expected, &mut hall, &mut desk, SIZES)?;
        assert_eq!((dump(&again), again.desk()), (expected, store.desk()));
        assert_eq!((store.as_of(1, A1)?, again.as_of(1, A1)), (Found::Nothing, Err(Refusal::OutOfReach)));
        // it drops nothing, and the floor is the counter then, as after a load
        assert_eq!(sweep(store, u64::MAX)?, (2, 0, 1));
        assert_eq!(again.hall(), store.hall());
        Ok(())
    });
}

/// Two have begun, and the first has put A1 and committed.
fn two_begun_one_saved(store: &mut Store) -> Result<Start, Refusal> {
    let first = begin(store, 1)?;
    let second = begin(store, 2)?;
    store.put(first, A1, &[1])?;
    commits(store, first, 3);
    assert_eq!(store.read(second, A1)?, Found::Nothing);
    Ok(second)
}

/// The keys that a commit is refused for, with their newest numbers.
fn clashes(store: &mut Store, start: Start) -> Vec<(Vec<u8>, u64)> {
    match store.commit(start) {
        Err(Refusal::Conflict(clashes)) => {
            clashes.iter().map(|clash| (clash.key.to_vec(), clash.newest.number())).collect()
        }
        other => panic!("{other:?}"),
    }
}

#[test]
fn the_second_conflicts() {
    on_new_store(|store| {
        let second = two_begun_one_saved(store)?;
        store.put(second, A1, &[2])?;
        assert_eq!(clashes(store, second), [(A1.to_vec(), 3)]);
        assert_eq!(store.commit(second), Err(Refusal::NotOpen));
        Ok(())
    });
}

#[test]
fn the_second_takes_another_seat() {
    on_new_store(|store| {
        let second = two_begun_one_saved(store)?;
        store.put(second, A2, &[2])?;
        commits(store, second, 4);
        Ok(())
    });
}

#[test]
fn two_keys_in_the_other_order() {
    on_new_store(|store| {
        let first = begin(store, 1)?;
        let second = begin(store, 2)?;
        for key in [A1, A2] {
            store.put(first, key, &[1])?;
        }
        commits(store, first, 3);
        for key in [A2, A1] {
            store.put(second, key, &[2])?;
        }
        assert_eq!(clashes(store, second), [(A1.to_vec(), 3), (A2.to_vec(), 3)]);
        Ok(())
    });
}

#[test]
fn one_key_of_three_with_its_newest_number() {
    on_new_store(|store| {
        save(store, 1, Some(1))?;
        let late = begin(store, 3)?;
        for key in [b"A0", A1, A2] {
            store.put(late, key, &[3])?;
        }
        save(store, 4, Some(4))?;
        save(store, 6, None)?;
        assert_eq!(clashes(store, late), [(A1.to_vec(), 7)]);
        Ok(())
    });
}

#[test]
fn sixteen_keys_clash() {
    on_new_store(|store| {
        let (late, mut expected) = (begin(store, 1)?, Vec::new());
        for (i, key) in (b'a'..).take(MAX_WRITES).enumerate().map(|(i, letter)| (i as u64, vec![letter; 24])) {
            let start = begin(store, 2 + 2 * i)?;
            store.put(start, &key, &[1])?;
            commits(store, start, 3 + 2 * i);
            store.put(late, &key, &[2])?;
            expected.push((key, 3 + 2 * i));
        }
        assert_eq!(clashes(store, late), expected);
        assert_eq!(store.counts()?.desks, 0);
        Ok(())
    });
}

#[test]
fn put_and_deleted() {
    on_new_store(|store| {
        let start = begin(store, 1)?;
        store.put(start, A1, &[1])?;
        assert_eq!(store.read(start, A1)?, Found::Own(&[1]));
        store.delete(start, A1)?;
        assert_eq!(store.read(start, A1)?, Found::Nothing);
        Ok(())
    });
}

#[test]
fn an_empty_value_is_no_deletion() {
    on_new_store(|store| {
        let start = begin(store, 1)?;
        store.put(start, A1, &[])?;
        assert_eq!(store.read(start, A1)?, Found::Own(&[]));
        commits(store, start, 2);
        assert_eq!(store.newest(A1)?, Found::Hall(&[]));
        Ok(())
    });
}

/// A1 committed at 2, 4 and, with 5 left open, 7.
fn three_versions(store: &mut Store) -> Result<Start, Refusal> {
    for number in [1, 3] {
        let start = begin(store, number)?;
        store.put(start, A1, &[number as u8])?;
        commits(store, start, number + 1);
    }
    let open = begin(store, 5)?;
    let start = begin(store, 6)?;
    store.put(start, A1, &[6])?;
    commits(store, start, 7);
    Ok(open)
}

/// Sweeps at a limit; answers cutoff, dropped and versions left.
fn sweep(store: &mut Store, limit: u64) -> Result<(u64, u64, u64), Refusal> {
    let swept = store.sweep(limit)?;
    Ok((swept.cutoff, swept.dropped, store.counts()?.versions))
}

#[test]
fn a_sweep_keeps_what_is_read() {
    for (limit, expected) in [(u64::MAX, (5, 1, 2)), (3, (3, 0, 3)), (4, (4, 1, 2))] {
        on_new_store(|store| {
            let open = three_versions(store)?;
            assert_eq!(sweep(store, limit)?, expected);
            assert_eq!(store.read(open, A1)?, Found::Hall(&[3]));
            assert_eq!(store.newest(A1)?, Found::Hall(&[6]));
            Ok(())
        });
    }
}

#[test]
fn a_sweep_after_the_abort() {
    on_new_store(|store| {
        let open = three_versions(store)?;
        store.abort(open)?;
        assert_eq!(sweep(store, u64::MAX)?, (7, 2, 1));
        Ok(())
    });
}

/// Thins at a limit; answers dropped and the numbers of A1's versions that are left.
fn thin(store: &mut Store, limit: u64) -> Result<(u64, Vec<u64>), Refusal> {
    let dropped = store.thin(limit)?;
    let bytes = dump(store);
    let entries = Dump::read(&bytes)?.entries();
    let numbers = entries.filter(|entry| entry.key == A1).flat_map(|entry| entry.versions());
    Ok((dropped, numbers.map(|version| version.number).collect()))
}

/// Begins with this number, puts A1 or, without a value, deletes it, and commits.
fn save(store: &mut Store, number: u64, value: Option<u8>) -> Result<(), Refusal> {
    let start = begin(store, number)?;
    match value {
        Some(value) => store.put(start, A1, &[value])?,
        None => store.delete(start, A1)?,
    }
    commits(store, start, number + 1);
    Ok(())
}

#[test]
fn a_console_is_forgotten_for_a_week() {
    on_new_store(|store| {
        for number in [1, 3, 5, 7] {
            save(store, number, Some(number as u8))?;
        }
        let forgotten = begin(store, 9)?;
        for number in [10, 12, 14, 16, 18] {
            save(store, number, Some(number as u8))?;
        }
        assert_eq!(sweep(store, u64::MAX)?, (9, 3, 6));
        assert_eq!(thin(store, u64::MAX)?, (4, vec![8, 19]));
        assert_eq!((store.read(forgotten, A1)?, store.newest(A1)?), (Found::Hall(&[7]), Found::Hall(&[18])));
        store.abort(forgotten)?;
        assert_eq!(thin(store, u64::MAX)?, (1, vec![19]));
        Ok(())
    });
}

#[test]
fn what_lies_between_two_readers_goes() {
    on_new_store(|store| {
        save(store, 1, Some(1))?;
        let first = begin(store, 3)?;
        save(store, 4, Some(4))?;
        save(store, 6, Some(6))?;
        let second = begin(store, 8)?;
        save(store, 9, Some(9))?;
        for (limit, expected) in [
            (6, (0, vec![2, 5, 7, 10])), // the next of 5 is 7
            (7, (1, vec![2, 7, 10])),
            (u64::MAX, (0, vec![2, 7, 10])),
        ] {
            assert_eq!(thin(store, limit)?, expected);
        }
        assert_eq!((store.read(first, A1)?, store.read(second, A1)?), (Found::Hall(&[1]), Found::Hall(&[6])));
        store.abort(first)?;
        assert_eq!(thin(store, u64::MAX)?, (1, vec![7, 10]));
        Ok(())
    });
}

#[test]
fn a_deletion_goes_if_nobody_began_before_it() {
    on_new_store(|store| {
        save(store, 1, Some(1))?;
        save(store, 3, None)?;
        let open = begin(store, 5)?;
        assert_eq!(thin(store, 3)?, (0, vec![2, 4]));
        assert_eq!(thin(store, 4)?, (2, vec![]));
        assert_eq!((store.read(open, A1)?, store.counts()?.keys), (Found::Nothing, 0));
        Ok(())
    });
    on_new_store(|store| {
        let open = begin(store, 1)?;
        save(store, 2, Some(2))?;
        save(store, 4, None)?;
        assert_eq!(thin(store, u64::MAX)?, (1, vec![5]));
        store.put(open, A1, &[1])?;
        assert_eq!(clashes(store, open), [(A1.to_vec(), 5)]);
        assert_eq!(thin(store, u64::MAX)?, (1, vec![]));
        Ok(())
    });
}

/// What A1 had at each number from 0 to 8, where the counter is 7.
fn past<'s>(store: &'s Store) -> [Result<Found<'s>, Refusal>; 9] {
    [0, 1, 2, 3, 4, 5, 6, 7, 8].map(|number| store.as_of(number, A1))
}

const OUT: Result<Found, Refusal> = Err(Refusal::OutOfReach);

#[test]
fn the_past_is_read() {
    on_new_store(|store| {
        three_versions(store)?;
        let (first, second) = (Ok(Found::Hall(&[1])), Ok(Found::Hall(&[3])));
        let (none, third) = (Ok(Found::Nothing), Ok(Found::Hall(&[6])));
        assert_eq!(past(store), [none, none, first, first, second, second, second, third, OUT]);
        Ok(())
    });
}

#[test]
fn a_deletion_in_the_past() {
    on_new_store(|store| {
        three_versions(store)?;
        let start = begin(store, 8)?;
        store.delete(start, A1)?;
        assert_eq!(store.as_of(8, A1)?, Found::Hall(&[6]));
        commits(store, start, 9);
        assert_eq!((store.as_of(8, A1)?, store.as_of(9, A1)?), (Found::Hall(&[6]), Found::Nothing));
        Ok(())
    });
}

#[test]
fn the_past_ends_at_the_largest_cutoff() {
    let (first, second, third) = (Ok(Found::Hall(&[1][..])), Ok(Found::Hall(&[3][..])), Ok(Found::Hall(&[6][..])));
    for (limits, expected) in [
        // nothing is dropped, and the floor is 3 all the same
        (&[3][..], [OUT, OUT, OUT, first, second, second, second, third, OUT]),
        (&[4, 3], [OUT, OUT, OUT, OUT, second, second, second, third, OUT]),
        // start 5 is open
        (&[u64::MAX, 0], [OUT, OUT, OUT, OUT, OUT, second, second, third, OUT]),
    ] {
        on_new_store(|store| {
            three_versions(store)?;
            for limit in limits {
                store.sweep(*limit)?;
            }
            assert_eq!(past(store), expected);
            Ok(())
        });
    }
}

#[test]
fn open_transactions_do_not_hold_the_floor() {
    let (second, third) = (Ok(Found::Hall(&[3][..])), Ok(Found::Hall(&[6][..])));
    for (limit, expected) in [
        (3, [OUT, OUT, OUT, Ok(Found::Hall(&[1])), second, second, second, third, OUT]),
        (6, [OUT, OUT, OUT, OUT, OUT, OUT, second, third, OUT]),
        (u64::MAX, [OUT, OUT, OUT, OUT, OUT, OUT, OUT, third, OUT]),
    ] {
        on_new_store(|store| {
            three_versions(store)?;
            store.thin(limit)?;
            assert_eq!(past(store), expected);
            Ok(())
        });
    }
}

#[test]
fn a_commit_without_writes() {
    on_new_store(|store| {
        let start = begin(store, 1)?;
        assert_eq!(store.commit(start)?, Committed::Closed);
        begin(store, 2)?;
        Ok(())
    });
}

#[test]
fn the_last_number() {
    let mut dump = b"DSEMVCC1".to_vec();
    dump.extend((u64::MAX - 1).to_le_bytes());
    dump.extend([0; 4]);
    let sizes = Sizes { key_rooms: 1, version_rooms: 1, desks: 2 };
    let (mut hall, mut desk) = memories(sizes);
    let mut store = Store::load(&dump, &mut hall, &mut desk, sizes).expect("loaded");
    let start = begin(&mut store, u64::MAX - 1).expect("begun");
    assert_eq!(store.put(start, A1, &[1]), Ok(()));
    assert_eq!(store.commit(start), Err(Refusal::Spent));
    assert_eq!(store.read(start, A1), Ok(Found::Own(&[1])));
    assert_eq!(store.begin(), Err(Refusal::Spent));
}

#[test]
fn keys_and_values_at_their_edges() {
    on_new_store(|store| {
        let start = begin(store, 1)?;
        for (length, answer) in [(0, Err(Refusal::BadKey)), (1, Ok(())), (24, Ok(())), (25, Err(Refusal::BadKey))] {
            let key = vec![b'k'; length];
            assert_eq!(store.put(start, &key, &[1]), answer);
            assert_eq!(store.delete(start, &key), answer);
            assert_eq!(store.read(start, &key).map(|_| ()), answer);
            assert_eq!(store.newest(&key).map(|_| ()), answer);
            assert_eq!(store.as_of(0, &key).map(|_| ()), answer);
        }
        for byte in 0..=u8::MAX {
            let answer = if KEY_BYTES.contains(&byte) { Ok(()) } else { Err(Refusal::BadKey) };
            for key in [&[byte][..], &[b'A', byte], &[byte, b'A']] {
                assert_eq!(store.read(start, key).map(|_| ()), answer);
                assert_eq!(store.newest(key).map(|_| ()), answer);
                assert_eq!(store.as_of(0, key).map(|_| ()), answer);
            }
        }
        for (byte, answer) in [(0, Err(Refusal::BadKey)), (32, Err(Refusal::BadKey)), (33, Ok(())), (126, Ok(()))] {
            assert_eq!(store.put(start, &[byte; 24], &[1]), answer);
            assert_eq!(store.delete(start, &[byte; 24]), answer);
        }
        // the key comes before the value, and before the start
        assert_eq!(store.put(Start::from_number(9), &[127], &[7; 97]), Err(Refusal::BadKey));
        for length in [0, 32, 33, 95, 96] {
            assert_eq!(store.put(start, A1, &vec![7; length]), Ok(()));
            assert_eq!(store.read(start, A1)?, Found::Own(&vec![7; length]));
        }
        assert_eq!(store.put(start, A1, &[7; 97]), Err(Refusal::LongValue));
        assert_eq!(store.read(start, A1)?, Found::Own(&[7; 96]));
        Ok(())
    });
}

#[test]
fn sixteen_writes() {
    on_new_store(|store| {
        let start = begin(store, 1)?;
        for key in (b'a'..).take(MAX_WRITES) {
            store.put(start, &[key], &[key])?;
        }
        assert_eq!(store.put(start, b"z", &[]), Err(Refusal::TooManyWrites));
        assert_eq!(store.delete(start, b"z"), Err(Refusal::TooManyWrites));
        store.put(start, b"c", &[33])?;
        store.delete(start, b"d")?;
        commits(store, start, 2);
        assert_eq!(store.newest(b"c")?, Found::Hall(&[33]));
        Ok(())
    });
}

#[test]
fn sixty_four_desks() {
    on_new_store(|store| {
        for d in 0..MAX_DESKS {
            assert_eq!(store.begin()?.desk, d);
        }
        assert_eq!(store.begin(), Err(Refusal::DesksTaken));
        store.abort(Start::from_number(6))?;
        assert_eq!(store.begin()?.desk, 5);
        Ok(())
    });
}

#[test]
fn no_room() {
    let sizes = Sizes { key_rooms: 1, version_rooms: 2, desks: 1 };
    let (mut hall, mut desk) = memories(sizes);
    let mut store = Store::make(&mut hall, &mut desk, sizes).expect("made");
    let start = begin(&mut store, 1).expect("begun");
    for key in [A1, A2] {
        assert_eq!(store.put(start, key, &[1]), Ok(()));
    }
    assert_eq!(store.commit(start), Err(Refusal::NoKeyRoom));
    assert_eq!(store.abort(start), Ok(()));
    for number in [2, 4] {
        let start = begin(&mut store, number).expect("begun");
        assert_eq!(store.put(start, A1, &[1]), Ok(()));
        commits(&mut store, start, number + 1);
    }
    let start = begin(&mut store, 6).expect("begun");
    assert_eq!(store.delete(start, A1), Ok(()));
    assert_eq!(store.commit(start), Err(Refusal::NoVersionRoom));
    assert_eq!(store.read(start, A1), Ok(Found::Nothing));
}
