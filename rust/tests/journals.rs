//! Commits with a journal, journals cut at every byte and damaged, and what a replay leaves.

use hourbracken::journal::{Records, Wrong};
use hourbracken::{Committed, Found, Recorded, Refusal, Sizes, Start, Stopped, Store, MAX_KEY, MAX_VALUE, RECORD_LEN};
use trials::rng::SplitMix64;

const SIZES: Sizes = Sizes { key_rooms: 8, version_rooms: 64, desks: 2 };

/// Two memories with a store that is made or loaded in them again and again.
struct Room {
    hall: Vec<u8>,
    desk: Vec<u8>,
}

impl Room {
    fn new() -> Room {
        Room { hall: vec![0; SIZES.hall_len()], desk: vec![0; SIZES.desk_len()] }
    }

    fn made(&mut self, sizes: Sizes) -> Store<'_> {
        Store::make(&mut self.hall, &mut self.desk, sizes).expect("made")
    }

    fn loaded(&mut self, dump: &[u8]) -> Store<'_> {
        Store::load(dump, &mut self.hall, &mut self.desk, SIZES).expect("loaded")
    }
}

fn dumped(store: &Store) -> Vec<u8> {
    let mut dump = vec![0; SIZES.dump_len()];
    let length = store.dump(&mut dump).expect("dumped");
    dump.truncate(length);
    dump
}

/// The start of a transaction with these writes.
fn written(store: &mut Store, writes: &[(&[u8], Option<&[u8]>)]) -> Start {
    let start = store.begin().expect("begun").start;
    for (key, value) in writes {
        let answer = match value {
            Some(value) => store.put(start, key, value),
            None => store.delete(start, key),
        };
        assert_eq!(answer, Ok(()));
    }
    start
}

/// A day's commits: where each record ends, and the store's dump after it.
struct Day {
    /// Before the first commit.
    dump: Vec<u8>,
    journal: Vec<u8>,
    ends: Vec<usize>,
    dumps: Vec<Vec<u8>>,
}

/// After a first commit without a journal: values of all lengths, deletions, a transaction that is aborted.
fn day() -> Day {
    let mut room = Room::new();
    let mut store = room.made(SIZES);
    let first = written(&mut store, &[(b"A1", Some(b"loop"))]);
    assert!(store.commit(first).is_ok());
    let dump = dumped(&store);
    let mut day = Day { dumps: vec![dump.clone()], dump, journal: Vec::new(), ends: vec![0] };
    let (long, longest) = ([b'K'; MAX_KEY], [7; MAX_VALUE]);
    for writes in [
        &[(&b"A1"[..], Some(&b"line"[..])), (b"B7", Some(b""))][..],
        &[(b"A1", None)],
        &[(&long, Some(&longest)), (b"A", Some(b"loop")), (b"B7", None)],
    ] {
        let gone = written(&mut store, writes);
        assert_eq!(store.abort(gone), Ok(()));
        let start = written(&mut store, writes);
        let mut out = [0xa5; RECORD_LEN];
        let Recorded { committed, record } = store.commit_to(start, &mut out).expect("committed");
        assert!(matches!(committed, Committed::As(_)));
        day.journal.extend(record);
        let length = record.len();
        assert!(out[length..].iter().all(|byte| *byte == 0xa5));
        day.ends.push(day.journal.len());
        day.dumps.push(dumped(&store));
    }
    day
}

#[test]
fn cut_at_every_byte() {
    let (mut room, day) = (Room::new(), day());
    for length in 0..=day.journal.len() {
        let mut store = room.loaded(&day.dump);
        let whole = day.ends.iter().rposition(|end| *end <= length).expect("none before the first");
        assert_eq!(store.replay(&day.journal[..length]), Ok(day.ends[whole]), "cut at {length}");
        assert_eq!(dumped(&store), day.dumps[whole], "cut at {length}");
        assert_eq!(store.counts().map(|held| held.desks), Ok(0));
    }
}

#[test]
fn a_cut_journal_goes_on() {
    let (mut room, day) = (Room::new(), day());
    let mut store = room.loaded(&day.dump);
    let mut journal = day.journal[..day.ends[2] + 5].to_vec();
    let whole = store.replay(&journal).expect("replayed");
    journal.truncate(whole);
    let start = written(&mut store, &[(b"C3", Some(b"loop"))]);
    let mut out = [0; RECORD_LEN];
    journal.extend(store.commit_to(start, &mut out).expect("committed").record);
    let dump = dumped(&store);
    let mut store = room.loaded(&day.dump);
    assert_eq!(store.replay(&journal), Ok(journal.len()));
    assert_eq!(dumped(&store), dump);
}

#[test]
fn the_floor_stays() {
    let (mut room, day) = (Room::new(), day());
    let mut store = room.loaded(&day.dump);
    assert!(store.replay(&day.journal).is_ok());
    assert_eq!((store.as_of(1, b"A1"), store.as_of(2, b"A1")), (Err(Refusal::OutOfReach), Ok(Found::Hall(b"loop"))));
    assert_eq!(store.as_of(5, b"A1"), Ok(Found::Hall(b"line")));
}

#[test]
fn a_short_output_and_then_again() {
    let mut room = Room::new();
    let mut store = room.made(SIZES);
    let start = written(&mut store, &[(b"A1", Some(b"loop")), (b"A2", None)]);
    let needed = 18 + (4 + 2 + 1 + 4 + 4) + (4 + 2 + 1);
    for length in [0, 1, needed - 1] {
        let (before, mut out) = ((store.hall().to_vec(), store.desk().to_vec()), vec![0xa5; length]);
        assert_eq!(store.commit_to(start, &mut out), Err(Refusal::ShortOutput));
        assert!(out.iter().all(|byte| *byte == 0xa5));
        assert_eq!((store.hall(), store.desk()), (&before.0[..], &before.1[..]));
    }
    let mut out = vec![0; needed];
    let recorded = store.commit_to(start, &mut out).expect("committed");
    assert_eq!((recorded.committed.number(), recorded.record.len()), (Some(2), needed));
    assert_eq!(store.commit_to(start, &mut out), Err(Refusal::NotOpen));
}

#[test]
fn no_writes_take_no_room() {
    let mut room = Room::new();
    let mut store = room.made(SIZES);
    let start = written(&mut store, &[]);
    let recorded = store.commit_to(start, &mut []);
    assert_eq!(recorded, Ok(Recorded { committed: Committed::Closed, record: &[] }));
    assert_eq!(store.begin().map(|begun| begun.start.number()), Ok(2));
}

#[test]
fn a_refused_commit_leaves_the_output() {
    let sizes = Sizes { key_rooms: 1, version_rooms: 2, desks: 2 };
    let mut room = Room::new();
    let mut store = room.made(sizes);
    let mut out = [0xa5; RECORD_LEN];
    let (late, first) = (written(&mut store, &[(b"A1", None)]), written(&mut store, &[(b"A1", None)]));
    assert!(store.commit(first).is_ok());
    let refusal = store.commit_to(late, &mut out).expect_err("in conflict");
    assert_eq!(refusal.to_string(), "A1 was changed by 3");
    let start = written(&mut store, &[(b"A1", None), (b"A2", None)]);
    assert_eq!(store.commit_to(start, &mut []), Err(Refusal::NoKeyRoom)); // and not 12, which comes last
    assert_eq!(store.commit_to(start, &mut out), Err(Refusal::NoKeyRoom));
    assert!(out.iter().all(|byte| *byte == 0xa5));
}

#[test]
fn a_transaction_by_itself() {
    let mut room = Room::new();
    let mut store = room.made(SIZES);
    let mut out = [0; RECORD_LEN];
    let mut transaction = store.transaction().expect("begun");
    assert_eq!(transaction.put(b"A1", b"loop"), Ok(()));
    assert_eq!(transaction.commit_to(&mut out[..8]), Err(Refusal::ShortOutput));
    assert_eq!(store.counts().map(|held| (held.desks, held.versions)), Ok((0, 0)));
    let mut transaction = store.transaction().expect("begun");
    assert_eq!(transaction.put(b"A1", b"loop"), Ok(()));
    let recorded = transaction.commit_to(&mut out).expect("committed");
    assert_eq!(recorded.committed.number(), Some(3));
    assert!(format!("{recorded:?}").starts_with("Recorded { committed: As(Commit(3)), record: b\"L\\x01"));
    let length = recorded.record.len();
    assert_eq!(room.made(SIZES).replay(&out[..length]), Ok(length));
}

#[test]
fn beside_an_open_transaction() {
    let (mut room, day) = (Room::new(), day());
    let mut store = room.loaded(&day.dump);
    let open = store.begin().expect("begun").start;
    let before = (store.hall().to_vec(), store.desk().to_vec());
    for journal in [&[][..], b"no journal", &day.journal] {
        let stopped = store.replay(journal).expect_err("a desk is taken");
        assert_eq!(
            (stopped, stopped.to_string().as_str()),
            (Stopped { refusal: Refusal::DesksOpen, offset: 0 }, "a transaction is open, and a replay takes none")
        );
    }
    assert_eq!((store.hall(), store.desk()), (&before.0[..], &before.1[..]));
    assert_eq!(store.abort(open), Ok(()));
    assert_eq!(store.replay(&[]), Ok(0));
}

#[test]
fn played_twice() {
    let (mut room, day) = (Room::new(), day());
    let mut store = room.loaded(&day.dump);
    assert_eq!(store.replay(&day.journal), Ok(day.journal.len()));
    let stopped = store.replay(&day.journal).expect_err("its numbers are not above the counter");
    assert_eq!(stopped, Stopped { refusal: Refusal::Malformed { offset: 0 }, offset: 0 });
    assert_eq!(stopped.to_string(), "the record at 0 is malformed");
    assert_eq!(dumped(&store), day.dumps[3]);
    let twice = [&day.journal[..], &day.journal].concat();
    let mut store = room.loaded(&day.dump);
    assert_eq!(store.replay(&twice).map_err(|stopped| stopped.offset), Err(day.journal.len()));
    assert_eq!(dumped(&store), day.dumps[3]);
}

#[test]
fn too_few_rooms() {
    let (mut room, day) = (Room::new(), day());
    for (key_rooms, version_rooms, refusal, whole) in [
        (1, 64, Refusal::NoKeyRoom, 0),
        (2, 64, Refusal::NoKeyRoom, 2),
        (8, 2, Refusal::NoVersionRoom, 0),
        (8, 4, Refusal::NoVersionRoom, 2),
        (2, 4, Refusal::NoKeyRoom, 2),
    ] {
        let sizes = Sizes { key_rooms, version_rooms, desks: 2 };
        let mut store = Store::load(&day.dump, &mut room.hall, &mut room.desk, sizes).expect("loaded");
        let stopped = store.replay(&day.journal).expect_err("no room");
        assert_eq!(stopped, Stopped { refusal, offset: day.ends[whole] });
        assert_eq!(stopped.to_string(), format!("the record at {}: {refusal}", day.ends[whole]));
        assert_eq!((Refusal::from(stopped), dumped(&store)), (refusal, day.dumps[whole].clone()));
    }
}

/// One byte or more changed, left out, put in or cut off at random.
fn scratched(rng: &mut SplitMix64, mut journal: Vec<u8>) -> Vec<u8> {
    for _ in 0..=rng.below(2) {
        let at = rng.below(journal.len().max(1));
        match rng.below(5) {
            0 => journal.insert(at, rng.draw() as u8),
            _ if journal.is_empty() => {}
            1 => drop(journal.remove(at)),
            2 => journal.truncate(at),
            3 => journal[at] = [0, 1, 16, 17, 32, 96, 97, 255][rng.below(8)],
            _ => journal[at] ^= 1 << rng.below(8),
        }
    }
    journal
}

/// The reader of journals beside a replay with room for all: the same end and the same commits, number for number.
#[test]
fn read_as_replayed() {
    let (mut room, mut other, day) = (Room::new(), Room::new(), day());
    let (mut whole, mut cut, mut refused) = (0, 0, 0);
    for seed in 0..20_000 {
        let journal = scratched(&mut SplitMix64::new(seed), day.journal.clone());
        let mut store = room.loaded(&day.dump);
        let replayed = store.replay(&journal);
        let (mut records, mut by_records) = (Records::after(&journal, 2), other.loaded(&day.dump));
        let fault = loop {
            match records.next() {
                Some(Ok(record)) => assert_eq!(by_records.replay(record.bytes), Ok(record.bytes.len()), "seed {seed}"),
                Some(Err(fault)) => break Some(fault),
                None => break None,
            }
        };
        let expected = match fault {
            Some(fault) => match fault.refusal() {
                Some(refusal) => Err(Stopped { refusal, offset: fault.offset }),
                None => Ok(fault.offset),
            },
            None => Ok(journal.len()),
        };
        assert_eq!((replayed, dumped(&store)), (expected, dumped(&by_records)), "seed {seed}: {fault:?}");
        assert_eq!(records.offset(), replayed.unwrap_or_else(|stopped| stopped.offset));
        match fault.map(|fault| fault.wrong) {
            None => whole += 1,
            Some(Wrong::Cut { .. }) => cut += 1,
            Some(_) => refused += 1,
        }
    }
    println!("{whole} journals whole, {cut} cut and {refused} refused alike");
    assert!(whole > 500 && cut > 500 && refused > 5_000);
}
