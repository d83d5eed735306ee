//! What this crate adds to the exported functions: transactions that close themselves, views, words.

use hourbracken::{counts_in, Committed, Found, HallView, Key, Refusal, Sizes, Store, MAX_DESKS};

const SMALL: Sizes = Sizes { key_rooms: 4, version_rooms: 8, desks: 2 };

fn memories(sizes: Sizes) -> (Vec<u8>, Vec<u8>) {
    (vec![0; sizes.hall_len()], vec![0; sizes.desk_len()])
}

/// The key that a second commit to it is refused for.
fn clash(store: &mut Store, key: &[u8]) -> Key {
    let (first, second) = (store.begin().expect("begun").start, store.begin().expect("begun").start);
    for start in [first, second] {
        assert_eq!(store.put(start, key, b"loop"), Ok(()));
    }
    assert!(store.commit(first).is_ok());
    match store.commit(second) {
        Err(Refusal::Conflict(clashes)) => clashes.first().expect("a key").key,
        other => panic!("{other:?}"),
    }
}

#[test]
fn a_dropped_transaction_is_aborted() {
    let (mut hall, mut desk) = memories(SMALL);
    let mut store = Store::make(&mut hall, &mut desk, SMALL).expect("made");
    let mut transaction = store.transaction().expect("begun");
    assert_eq!(transaction.put(b"A1", b"loop"), Ok(()));
    assert_eq!(transaction.read(b"A1"), Ok(Found::Own(b"loop")));
    assert_eq!(transaction.store().counts().map(|held| held.desks), Ok(1));
    let start = transaction.start();
    drop(transaction);
    assert_eq!(store.counts().map(|held| (held.desks, held.versions)), Ok((0, 0)));
    assert_eq!(store.abort(start), Err(Refusal::NotOpen));
}

#[test]
fn a_transaction_by_itself_leaks_no_desk() {
    let (mut hall, mut desk) = memories(SMALL);
    let mut store = Store::make(&mut hall, &mut desk, SMALL).expect("made");
    for _ in 0..2 * SMALL.desks {
        let mut transaction = store.transaction().expect("a desk is free");
        assert_eq!(transaction.put(b"", b"loop"), Err(Refusal::BadKey));
    }
    assert_eq!(store.counts().map(|held| held.desks), Ok(0));
}

#[test]
fn the_ends_of_a_transaction() {
    let (mut hall, mut desk) = memories(SMALL);
    let mut store = Store::make(&mut hall, &mut desk, SMALL).expect("made");
    let mut saved = store.transaction().expect("begun");
    assert_eq!(saved.put(b"A1", b"loop"), Ok(()));
    assert_eq!(saved.commit().map(Committed::number), Ok(Some(2)));
    let mut gone = store.transaction().expect("begun");
    assert_eq!(gone.delete(b"A1"), Ok(()));
    assert_eq!(gone.read(b"A1"), Ok(Found::Nothing));
    assert_eq!(gone.abort(), Ok(()));
    assert_eq!(store.transaction().expect("begun").commit().map(Committed::number), Ok(None));
    let kept = store.transaction().expect("begun").keep();
    assert_eq!(store.read(kept, b"A1"), Ok(Found::Hall(b"loop")));
    assert_eq!(store.abort(kept), Ok(()));
    assert_eq!(store.counts().map(|held| held.desks), Ok(0));
}

#[test]
fn a_refused_commit_frees_its_desk() {
    let sizes = Sizes { key_rooms: 1, version_rooms: 1, desks: 1 };
    let (mut hall, mut desk) = memories(sizes);
    let mut store = Store::make(&mut hall, &mut desk, sizes).expect("made");
    let mut transaction = store.transaction().expect("begun");
    for key in [b"A1", b"A2"] {
        assert_eq!(transaction.put(key, b""), Ok(()));
    }
    assert_eq!(transaction.commit(), Err(Refusal::NoKeyRoom));
    assert_eq!(store.counts().map(|held| held.desks), Ok(0));
}

/// The caller's memories, opened or made.
fn ours<'m>(hall: &'m mut [u8], desk: &'m mut [u8]) -> Result<Store<'m>, Refusal> {
    Store::open_or_make(hall, desk, SMALL)
}

#[test]
fn opened_or_made() {
    let (mut hall, mut desk) = memories(SMALL);
    let start = ours(&mut hall, &mut desk).expect("made").begin().expect("begun").start;
    assert_eq!(ours(&mut hall, &mut desk).expect("opened").put(start, b"A1", b"loop"), Ok(()));
    assert_eq!(ours(&mut hall, &mut desk).expect("opened").counts().map(|held| held.desks), Ok(1));
}

#[test]
fn damage_is_not_made_over() {
    for in_hall in [true, false] {
        let (mut hall, mut desk) = memories(SMALL);
        if in_hall {
            hall[SMALL.hall_len() - 1] = 1;
        } else {
            desk[SMALL.desk_len() - 1] = 1;
        }
        let before = (hall.clone(), desk.clone());
        assert_eq!(ours(&mut hall, &mut desk).err(), Some(Refusal::Unsound));
        assert_eq!((hall, desk), before);
    }
    let (mut hall, mut desk) = memories(Sizes { version_rooms: 7, ..SMALL });
    assert_eq!(ours(&mut hall, &mut desk).err(), Some(Refusal::BadSizes));
    let (mut hall, mut desk) = memories(Sizes { desks: 1, ..SMALL });
    assert_eq!(ours(&mut hall, &mut desk).err(), Some(Refusal::BadSizes));
}

#[test]
fn blank_is_asked_of_what_is_needed_alone() {
    let (mut hall, mut desk) = (vec![0; SMALL.hall_len() + 1], vec![0; SMALL.desk_len() + 1]);
    hall[SMALL.hall_len()] = 7;
    desk[SMALL.desk_len()] = 7;
    assert!(ours(&mut hall, &mut desk).is_ok());
    assert_eq!((hall[SMALL.hall_len()], desk[SMALL.desk_len()]), (7, 7));
}

#[test]
fn a_view_asks_no_desk() {
    let (mut hall, mut desk) = memories(SMALL);
    assert_eq!(HallView::open(&hall).err(), Some(Refusal::Unsound));
    let mut store = Store::make(&mut hall, &mut desk, SMALL).expect("made");
    let mut transaction = store.transaction().expect("begun");
    assert_eq!(transaction.put(b"A1", b"loop"), Ok(()));
    assert!(transaction.commit().is_ok());
    let (mut by_store, mut by_view) = ([0; 64], [0; 64]);
    let length = store.dump(&mut by_store);
    assert_eq!(store.view().newest(b"A1"), Ok(Found::Hall(b"loop")));
    desk.fill(0xff);
    assert_eq!(counts_in(&hall, &desk), Err(Refusal::Unsound));
    let view = HallView::open(&hall).expect("sound");
    assert_eq!((view.dump(&mut by_view), by_view), (length, by_store));
    assert_eq!(view.newest(b"A2"), Ok(Found::Nothing));
    assert_eq!(view.newest(b""), Err(Refusal::BadKey));
    assert_eq!((view.as_of(1, b"A1"), view.as_of(2, b"A1")), (Ok(Found::Nothing), Ok(Found::Hall(b"loop"))));
    assert_eq!(view.dump(&mut []), Err(Refusal::ShortOutput));
}

#[test]
fn out_of_reach_comes_last() {
    let (mut hall, mut desk) = memories(SMALL);
    let store = Store::make(&mut hall, &mut desk, SMALL).expect("made");
    for number in [0, 1, u64::MAX] {
        assert_eq!(store.as_of(number, b""), Err(Refusal::BadKey));
        let expected = if number == 0 { Ok(Found::Nothing) } else { Err(Refusal::OutOfReach) };
        assert_eq!(store.as_of(number, b"A1"), expected);
    }
}

#[test]
fn a_load_forgets_the_past() {
    let (mut hall, mut desk) = memories(SMALL);
    let mut store = Store::make(&mut hall, &mut desk, SMALL).expect("made");
    commit(&mut store);
    assert_eq!((store.as_of(1, b"A2"), store.as_of(2, b"A2")), (Ok(Found::Nothing), Ok(Found::Hall(b""))));
    let mut dump = [0; 64];
    let length = store.dump(&mut dump).expect("dumped");
    let larger = Sizes { key_rooms: 5, version_rooms: 9, desks: 3 };
    let (mut hall, mut desk) = memories(larger);
    let store = Store::load(&dump[..length], &mut hall, &mut desk, larger).expect("loaded");
    assert_eq!((store.as_of(1, b"A2"), store.as_of(2, b"A2")), (Err(Refusal::OutOfReach), Ok(Found::Hall(b""))));
}

#[test]
fn keys_ascend_as_bytes() {
    let sizes = Sizes { key_rooms: 8, ..SMALL };
    let (mut hall, mut desk) = memories(sizes);
    let mut store = Store::make(&mut hall, &mut desk, sizes).expect("made");
    let ascending = [&b"A"[..], b"A!", b"A1", b"B", b"~"].map(|key| clash(&mut store, key));
    assert!(ascending.windows(2).all(|two| two[0] < two[1] && two[0] != two[1]));
    let set: std::collections::BTreeSet<Key> = ascending.into_iter().rev().collect();
    assert!(set.contains(&b"A1"[..]) && set.iter().eq(&ascending));
}

#[test]
fn words() {
    let (mut hall, mut desk) = memories(SMALL);
    let mut store = Store::make(&mut hall, &mut desk, SMALL).expect("made");
    let key = clash(&mut store, b"A1");
    assert_eq!((format!("{key}"), format!("{key:?}")), ("A1".into(), "b\"A1\"".into()));
    let begun = store.begin().expect("begun");
    assert_eq!(format!("{:>3}|{:?}", begun.start, begun.start), "  4|Start(4)");
    assert_eq!(format!("{store:?}"), "Store(1 key, 1 version, 1 open)");
    assert_eq!(format!("{:?}", store.read(begun.start, b"A1")), "Ok(Hall(b\"loop\"))");
    assert_eq!(format!("{:?}", store.view()), format!("HallView({} bytes)", SMALL.hall_len()));
    assert_eq!(format!("{:?}", store.transaction().expect("begun")), "Transaction(5)");
}

#[test]
fn a_conflict_in_words() {
    let (mut hall, mut desk) = memories(SMALL);
    let mut store = Store::make(&mut hall, &mut desk, SMALL).expect("made");
    let late = store.begin().expect("begun").start;
    for key in [&b"A2"[..], b"A1", b"B7"] {
        let mut transaction = store.transaction().expect("begun");
        assert_eq!(transaction.put(key, b"loop"), Ok(()));
        assert!(transaction.commit().is_ok());
    }
    for key in [&b"A2"[..], b"A1", b"A0"] {
        assert_eq!(store.put(late, key, b"line"), Ok(()));
    }
    let refusal = store.commit(late).expect_err("in conflict");
    assert_eq!((refusal.number(), refusal.to_string().as_str()), (9, "A1 was changed by 5, A2 by 3"));
    assert_eq!(format!("{refusal:?}"), "Conflict(Clashes(A1 was changed by 5, A2 by 3))");
    let Refusal::Conflict(clashes) = refusal else { panic!("{refusal:?}") };
    assert_eq!((clashes.len(), clashes.is_empty(), clashes.iter().len()), (2, false, 2));
    assert_eq!(clashes.first(), clashes.iter().next());
    let mut told = Vec::new();
    for clash in &clashes {
        told.push((clash.key.to_vec(), clash.newest.number()));
    }
    assert_eq!(told, [(b"A1".to_vec(), 5), (b"A2".to_vec(), 3)]);
}

fn commit(store: &mut Store) {
    let mut transaction = store.transaction().expect("begun");
    assert_eq!(transaction.put(b"A2", b""), Ok(()));
    assert!(matches!(transaction.commit(), Ok(Committed::As(_))));
}

#[test]
fn the_largest_store() {
    let (mut hall, mut desk) = memories(Sizes::MAX);
    assert!(Store::open_or_make(&mut hall, &mut desk, Sizes::MAX).is_ok());
    assert_eq!(counts_in(&hall, &desk).map(|held| held.keys), Ok(0));
}

#[test]
fn as_many_desks_as_were_chosen() {
    for desks in [1, 2, 63, MAX_DESKS] {
        let sizes = Sizes { desks, ..SMALL };
        let (mut hall, mut desk) = memories(sizes);
        let mut store = Store::make(&mut hall, &mut desk, sizes).expect("made");
        for expected in 0..desks {
            assert_eq!(store.begin().map(|begun| begun.desk), Ok(expected));
        }
        assert_eq!(store.begin(), Err(Refusal::DesksTaken));
        assert_eq!(store.counts().map(|held| held.desks), Ok(desks as u64));
        assert_eq!(store.abort(hourbracken::Start::from_number(desks as u64)), Ok(()));
        assert_eq!(store.begin().map(|begun| begun.desk), Ok(desks - 1));
    }
}

#[test]
fn a_dump_does_not_tell_the_sizes() {
    let (mut hall, mut desk) = memories(SMALL);
    let mut store = Store::make(&mut hall, &mut desk, SMALL).expect("made");
    commit(&mut store);
    let mut dump = [0; 64];
    let length = store.dump(&mut dump).expect("dumped");
    let (mut hall, mut desk) = memories(Sizes::MAX);
    for desks in [1, 2, 63, MAX_DESKS] {
        let sizes = Sizes { desks, ..SMALL };
        let mut store = Store::load(&dump[..length], &mut hall, &mut desk, sizes).expect("loaded");
        for _ in 0..desks {
            assert!(store.begin().is_ok());
        }
        assert_eq!(store.begin(), Err(Refusal::DesksTaken));
    }
}
