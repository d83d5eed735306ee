//! Batches as they are built, and answers as they are read, on bytes made by hand: no store and no archive is needed.

use hourbracken::batch::{answers_len, Answer, Answers, Batch, NotAdded, Place, ANSWER_LEN, MAX_RECORDS, RECORD_LEN};
use hourbracken::{Begun, Committed, Found, Refusal, Start, Swept, MAX_KEY, MAX_VALUE};
use trials::rng::SplitMix64;

const HEAD: usize = 18;

/// A record of each kind, the second of three by place and by start.
const EACH: &[u8] = b"\
    \x4c\x10\
    \x4c\x11\x01\0\0\x02\0\0\0A1\
    \x4c\x12\x01\0\0\x02\0\0\0A1\x04\0\0\0loop\
    \x4c\x13\0\x09\0\0\0\0\0\0\0\x01\0\0\0B\
    \x4c\x14\x01\0\0\
    \x4c\x15\0\x01\x02\x03\x04\x05\x06\x07\x08\
    \x4c\x16\x08\0\0\0\0\0\0\0";

fn each(batch: &mut Batch) -> Result<Place, NotAdded> {
    let place = batch.begin()?;
    batch.read(place, b"A1")?;
    batch.put(place, b"A1", b"loop")?;
    batch.delete(Start::from_number(9), b"B")?;
    batch.commit(place)?;
    batch.abort(Start::from_number(0x0807_0605_0403_0201))?;
    batch.sweep(8)?;
    Ok(place)
}

#[test]
fn a_record_of_each_kind() {
    let mut room = [0; EACH.len()];
    let mut batch = Batch::new(&mut room);
    assert!(batch.is_empty());
    assert_eq!(each(&mut batch).map(Place::index), Ok(0));
    assert_eq!((batch.as_bytes(), batch.len()), (EACH, 7));
    assert_eq!((batch.answers_len(), answers_len(EACH)), (7 * HEAD + 100 + 528, 7 * HEAD + 100 + 528));
    assert_eq!(format!("{batch:?}"), "Batch(7 records, 74 bytes)");
    assert_eq!(batch.sweep(0), Err(NotAdded::NoRoom));
    assert_eq!((batch.as_bytes(), batch.answers_len()), (EACH, answers_len(EACH)));
    batch.clear();
    assert_eq!((batch.as_bytes(), batch.len(), batch.answers_len()), (&[][..], 0, 0));
}

/// Whatever has no room is not added, and what was added stays.
#[test]
fn every_room() {
    for length in 0..EACH.len() {
        let mut room = vec![0; length];
        let mut batch = Batch::new(&mut room);
        assert_eq!(each(&mut batch), Err(NotAdded::NoRoom));
        assert!(EACH.starts_with(batch.as_bytes()));
        assert_eq!(answers_len(&EACH[..length]), batch.answers_len());
    }
}

#[test]
fn the_longest_record() {
    let mut room = [0; RECORD_LEN + 1];
    let mut batch = Batch::new(&mut room);
    let start = Start::from_number(u64::MAX);
    assert_eq!(batch.put(start, &[b'A'; MAX_KEY], &[0; MAX_VALUE]), Ok(()));
    assert_eq!(batch.as_bytes().len(), RECORD_LEN);
    batch.clear();
    assert_eq!(batch.put(start, &[b'A'; MAX_KEY + 1], &[0; MAX_VALUE]), Ok(())); // the store refuses it, in its answer
    batch.clear();
    assert_eq!(batch.commit(start), Ok(()));
    assert_eq!(batch.answers_len(), ANSWER_LEN);
}

#[test]
fn the_most_records() {
    let mut room = vec![0; 12 * MAX_RECORDS];
    let mut batch = Batch::new(&mut room);
    let places: Vec<_> = (0..MAX_RECORDS).map(|_| batch.begin().expect("begun")).collect();
    assert_eq!(batch.begin(), Err(NotAdded::TooMany));
    assert_eq!(batch.commit(places[0]), Err(NotAdded::TooMany));
    assert_eq!(batch.len(), MAX_RECORDS);
    batch.clear();
    assert_eq!(batch.sweep(0), Ok(()));
    assert_eq!(batch.commit(places[0]), Err(NotAdded::NoBegin));
    assert_eq!(batch.begin(), Ok(places[1]));
    assert_eq!(batch.commit(places[1]), Ok(()));
    assert_eq!(batch.commit(places[MAX_RECORDS - 1]), Err(NotAdded::NoBegin));
    assert_eq!(batch.as_bytes()[10..], *b"\x4c\x10\x4c\x14\x01\x01\0");
}

fn head(first: u64, second: u64, refusal: u8, flag: u8) -> Vec<u8> {
    [&first.to_le_bytes()[..], &second.to_le_bytes(), &[refusal, flag]].concat()
}

fn padded(mut bytes: Vec<u8>, length: usize) -> Vec<u8> {
    bytes.resize(length, 0);
    bytes
}

fn value(bytes: &[u8]) -> Vec<u8> {
    padded([&(bytes.len() as u32).to_le_bytes()[..], bytes].concat(), 100)
}

fn clash(newest: u64, key: &[u8]) -> Vec<u8> {
    padded([&newest.to_le_bytes()[..], &[key.len() as u8], key].concat(), 33)
}

/// What a record at the front of a batch is answered, by its head and its detail.
fn alone<'a>(batch: &'a [u8], answers: &'a [u8]) -> Answer<'a> {
    let mut answers = Answers::read(batch, answers).expect("as long as its answers").iter();
    assert_eq!(answers.len(), 1);
    let answer = answers.next().expect("one");
    assert_eq!(answers.next(), None);
    answer
}

const READ: &[u8] = b"\x4c\x11\0\x01\0\0\0\0\0\0\0\x01\0\0\0A";
const COMMIT: &[u8] = b"\x4c\x14\0\x01\0\0\0\0\0\0\0";

#[test]
fn reads() {
    let longest = [7; MAX_VALUE];
    for (flag, bytes, found) in [
        (0, &b""[..], Found::Nothing),
        (1, b"", Found::Own(b"")),
        (1, b"loop", Found::Own(b"loop")),
        (2, b"loop", Found::Hall(b"loop")),
        (2, &longest, Found::Hall(&longest)),
    ] {
        let answers = [head(0, 0, 0, flag), value(bytes)].concat();
        assert_eq!(alone(READ, &answers), Answer::Read(Ok(found)));
    }
    let refused = [head(0, 0, 3, 0), value(b"")].concat();
    let answer = alone(READ, &refused);
    assert_eq!((answer, answer.refusal()), (Answer::Read(Err(Refusal::BadKey)), Some(Refusal::BadKey)));
}

#[test]
fn commits() {
    let none = vec![0; 528];
    let saved = [head(7, 0, 0, 0), none.clone()].concat();
    let Answer::Commit(Ok(committed)) = alone(COMMIT, &saved) else { panic!("saved") };
    assert_eq!((committed.number(), alone(COMMIT, &saved).refusal()), (Some(7), None));
    let closed = [head(0, 0, 0, 1), none.clone()].concat();
    assert_eq!(alone(COMMIT, &closed), Answer::Commit(Ok(Committed::Closed)));
    let no_room = [head(0, 0, 11, 0), none].concat();
    assert_eq!(alone(COMMIT, &no_room), Answer::Commit(Err(Refusal::NoVersionRoom)));
    let list = padded([clash(3, b"A1"), clash(9, &[b'B'; MAX_KEY])].concat(), 528);
    let conflict = [head(2, 0, 9, 0), list].concat();
    let Some(Refusal::Conflict(clashes)) = alone(COMMIT, &conflict).refusal() else { panic!("in conflict") };
    assert_eq!(clashes.to_string(), format!("A1 was changed by 3, {} by 9", "B".repeat(MAX_KEY)));
}

#[test]
fn a_batch_and_its_answers() {
    let (mut room, mut other) = ([0; 128], [0; 128]);
    let mut batch = Batch::new(&mut room);
    let place = each(&mut batch).expect("room for all");
    let answers = [
        head(5, 2, 0, 0),
        head(0, 0, 0, 2),
        head(0, 0, 0, 0),
        head(0, 0, 5, 0),
        head(6, 0, 0, 0),
        head(0, 0, 5, 0),
        head(4, 3, 0, 0),
        value(b"mono"),
        vec![0; 528],
        vec![0xa5; 3],
    ]
    .concat();
    let read = Answers::read(batch.as_bytes(), &answers).expect("as long as its answers");
    let saved = [head(6, 0, 0, 0), vec![0; 528]].concat();
    let expected = [
        Answer::Begin(Ok(Begun { start: Start::from_number(5), desk: 2 })),
        Answer::Read(Ok(Found::Hall(b"mono"))),
        Answer::Put(Ok(())),
        Answer::Delete(Err(Refusal::NotOpen)),
        alone(COMMIT, &saved),
        Answer::Abort(Err(Refusal::NotOpen)),
        Answer::Sweep(Ok(Swept { cutoff: 4, dropped: 3 })),
    ];
    assert!(read.iter().eq(expected) && read.into_iter().len() == 7 && read.len() == 7);
    assert_eq!(read.begun(place).map(|begun| begun.desk), Ok(2));
    let mut other = Batch::new(&mut other);
    assert_eq!(other.sweep(0), Ok(()));
    let foreign = other.begin().expect("begun"); // here a read stands at its place
    assert_eq!(read.begun(foreign), Err(Refusal::NotOpen));
    assert!(
        format!("{read:?}").starts_with("[Begin(Ok(Begun { start: Start(5), desk: 2 })), Read(Ok(Hall(b\"mono\")))")
    );
    assert_eq!(Answers::read(batch.as_bytes(), &answers[..answers.len() - 4]), None);
    assert_eq!(batch.abort(foreign), Err(NotAdded::NoBegin));
    assert!(Answers::read(&[], &[]).is_some_and(|none| none.is_empty()));
}

/// Bytes that are no batch, and answers that say what no store does: they are read to some end.
#[test]
fn any_bytes() {
    let mut records = 0;
    for seed in 0..20_000 {
        let mut rng = SplitMix64::new(seed);
        let (mut batch, mut answers) = (EACH.to_vec(), vec![0; answers_len(EACH)]);
        for _ in 0..rng.below(4) {
            let at = rng.below(batch.len());
            batch[at] = [0, 1, 2, 15, 16, 19, 20, 22, 23, 31, 32, 0x4c, 255][rng.below(13)];
        }
        batch.truncate(rng.below(2 * batch.len()));
        answers.iter_mut().for_each(|byte| *byte = rng.draw() as u8);
        let Some(answers) = Answers::read(&batch, &answers) else { continue };
        assert_eq!(answers.iter().count(), answers.len());
        records += answers.len();
        assert!(answers.iter().all(|answer| answer.refusal().is_some() || !format!("{answer:?}").is_empty()));
    }
    assert!(records > 50_000, "{records}");
}
