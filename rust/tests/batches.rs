//! Batches beside the same calls made singly: the same answers and the same memories, byte for byte; and batches that
//! are refused, which change nothing.

use hourbracken::batch::{answers_len, Answer, Answers, Batch, Place, ANSWER_LEN, MAX_RECORDS, RECORD_LEN};
use hourbracken::{Begun, Committed, Found, Refusal, Sizes, Start, Store, MAX_KEY, MAX_VALUE, MAX_WRITES};
use trials::rng::SplitMix64;

const SIZES: Sizes = Sizes { key_rooms: 6, version_rooms: 20, desks: 3 };
/// What the output holds where nothing is written.
const UNTOUCHED: u8 = 0xa5;

#[derive(Clone)]
struct Room {
    hall: Vec<u8>,
    desk: Vec<u8>,
}

impl Room {
    fn new() -> Room {
        let mut room = Room { hall: vec![0; SIZES.hall_len()], desk: vec![0; SIZES.desk_len()] };
        Store::make(&mut room.hall, &mut room.desk, SIZES).expect("made");
        room
    }

    fn store(&mut self) -> Store<'_> {
        Store::open(&mut self.hall, &mut self.desk).expect("sound")
    }

    fn memories(&self) -> (&[u8], &[u8]) {
        (&self.hall, &self.desk)
    }
}

/// A transaction as a batch names it, and the place of its begin among the calls.
#[derive(Clone, Copy)]
enum Who {
    Start(u64),
    Place(usize),
}

enum Call {
    Begin,
    Read(Who, Vec<u8>),
    Put(Who, Vec<u8>, Vec<u8>),
    Delete(Who, Vec<u8>),
    Commit(Who),
    Abort(Who),
    Sweep(u64),
}

fn key(rng: &mut SplitMix64) -> Vec<u8> {
    match rng.below(16) {
        0 => Vec::new(),
        1 => b"A 1".to_vec(),
        2 => vec![b'A'; MAX_KEY + rng.below(2)],
        _ => format!("A{}", rng.below(8)).into_bytes(),
    }
}

fn value(rng: &mut SplitMix64) -> Vec<u8> {
    match rng.below(12) {
        0 => vec![rng.draw() as u8; MAX_VALUE + 1],
        1 => vec![rng.draw() as u8; MAX_VALUE],
        2 => Vec::new(),
        _ => format!("feed {}", rng.below(100)).into_bytes(),
    }
}

/// Calls with few keys, of transactions that the batch begins, that were open before or that are not there.
fn calls(rng: &mut SplitMix64, open: &[u64]) -> Vec<Call> {
    let (mut calls, mut begins) = (Vec::new(), Vec::new());
    for place in 0..rng.below(40) {
        let who = match rng.below(8) {
            0 => Who::Start(rng.below(40) as u64),
            1..=4 if !begins.is_empty() => Who::Place(begins[begins.len() - 1 - rng.below(begins.len().min(3))]),
            _ if !open.is_empty() => Who::Start(open[rng.below(open.len())]),
            _ => Who::Start(0),
        };
        calls.push(match rng.below(16) {
            0..=2 => Call::Begin,
            3..=4 => Call::Read(who, key(rng)),
            5..=8 => Call::Put(who, key(rng), value(rng)),
            9 => Call::Delete(who, key(rng)),
            10..=13 => Call::Commit(who),
            14 => Call::Abort(who),
            _ => Call::Sweep([u64::MAX, 20][rng.below(2)]),
        });
        if matches!(calls[place], Call::Begin) {
            begins.push(place);
        }
    }
    calls
}

fn build(batch: &mut Batch, calls: &[Call]) {
    let mut places: Vec<Option<Place>> = Vec::new();
    for call in calls {
        let who = |who: &Who| match who {
            Who::Start(start) => hourbracken::batch::Who::Start(Start::from_number(*start)),
            Who::Place(place) => places[*place].expect("a begin").into(),
        };
        let added = match call {
            Call::Begin => {
                places.push(Some(batch.begin().expect("room")));
                continue;
            }
            Call::Read(by, key) => batch.read(who(by), key),
            Call::Put(by, key, value) => batch.put(who(by), key, value),
            Call::Delete(by, key) => batch.delete(who(by), key),
            Call::Commit(by) => batch.commit(who(by)),
            Call::Abort(by) => batch.abort(who(by)),
            Call::Sweep(limit) => batch.sweep(*limit),
        };
        assert_eq!(added, Ok(()));
        places.push(None);
    }
}

/// The call made singly. A begin that was refused is no open transaction.
fn single<'s>(store: &'s mut Store, call: &Call, begun: &[Option<Result<Begun, Refusal>>]) -> Answer<'s> {
    let start = |who: &Who| match who {
        Who::Start(start) => Start::from_number(*start),
        Who::Place(place) => begun[*place].and_then(Result::ok).map_or(Start::from_number(0), |begun| begun.start),
    };
    match call {
        Call::Begin => Answer::Begin(store.begin()),
        Call::Read(who, key) => Answer::Read(store.read(start(who), key)),
        Call::Put(who, key, value) => Answer::Put(store.put(start(who), key, value)),
        Call::Delete(who, key) => Answer::Delete(store.delete(start(who), key)),
        Call::Commit(who) => Answer::Commit(store.commit(start(who))),
        Call::Abort(who) => Answer::Abort(store.abort(start(who))),
        Call::Sweep(limit) => Answer::Sweep(store.sweep(*limit)),
    }
}

/// A read's bytes behind the heads.
fn value_bytes(value: &[u8]) -> Vec<u8> {
    let mut bytes = [&(value.len() as u32).to_le_bytes()[..], value].concat();
    bytes.resize(4 + MAX_VALUE, 0);
    bytes
}

/// A commit's.
fn clash_bytes(refusal: Option<Refusal>) -> Vec<u8> {
    let mut bytes = Vec::new();
    if let Some(Refusal::Conflict(clashes)) = refusal {
        for clash in &clashes {
            bytes.extend(clash.newest.number().to_le_bytes());
            bytes.push(clash.key.len() as u8);
            bytes.extend(clash.key.iter());
            bytes.resize(bytes.len() + MAX_KEY - clash.key.len(), 0);
        }
    }
    bytes.resize(MAX_WRITES * (8 + 1 + MAX_KEY), 0);
    bytes
}

/// The bytes of all answers, as `docs/MANUAL.md` lays them out.
fn laid_out(answers: Answers) -> Vec<u8> {
    let (mut heads, mut details) = (Vec::new(), Vec::new());
    for answer in answers {
        let (first, second, flag) = match answer {
            Answer::Begin(Ok(begun)) => (begun.start.number(), begun.desk as u64, 0),
            Answer::Read(Ok(Found::Own(_))) => (0, 0, 1),
            Answer::Read(Ok(Found::Hall(_))) => (0, 0, 2),
            Answer::Commit(Ok(Committed::As(commit))) => (commit.number(), 0, 0),
            Answer::Commit(Ok(Committed::Closed)) => (0, 0, 1),
            Answer::Commit(Err(Refusal::Conflict(clashes))) => (clashes.len() as u64, 0, 0),
            Answer::Sweep(Ok(swept)) => (swept.cutoff, swept.dropped, 0),
            _ => (0, 0, 0),
        };
        let refusal = answer.refusal().map_or(0, Refusal::number) as u8;
        heads.extend([&first.to_le_bytes()[..], &second.to_le_bytes(), &[refusal, flag]].concat());
        match answer {
            Answer::Read(found) => details.extend(value_bytes(found.ok().and_then(Found::bytes).unwrap_or_default())),
            Answer::Commit(_) => details.extend(clash_bytes(answer.refusal())),
            _ => {}
        }
    }
    [heads, details].concat()
}

#[test]
fn as_made_singly() {
    let (mut done, mut refused, mut conflicts) = (0, 0, 0);
    for seed in 0..200 {
        let mut rng = SplitMix64::new(seed);
        let (mut room, mut other) = (Room::new(), Room::new());
        for _ in 0..10 {
            let open: Vec<_> = room.store().desks().expect("sound").map(Start::number).collect();
            let calls = calls(&mut rng, &open);
            let mut bytes = vec![0; calls.len() * (RECORD_LEN + 2)];
            let mut batch = Batch::new(&mut bytes);
            build(&mut batch, &calls);
            let past = vec![UNTOUCHED; rng.below(3)];
            let mut out = vec![UNTOUCHED; batch.answers_len() + past.len()];
            let (mut store, mut singly, mut begun) = (room.store(), other.store(), Vec::new());
            let answers = store.batch(&batch, &mut out).expect("done");
            assert_eq!((answers.len(), batch.answers_len()), (calls.len(), answers_len(batch.as_bytes())));
            for (call, answer) in calls.iter().zip(answers) {
                let expected = single(&mut singly, call, &begun);
                assert_eq!(answer, expected, "seed {seed}");
                begun.push(if let Answer::Begin(begun) = expected { Some(begun) } else { None });
                match answer.refusal() {
                    None => done += 1,
                    Some(refusal) => {
                        refused += 1;
                        conflicts += usize::from(matches!(refusal, Refusal::Conflict(_)));
                    }
                }
            }
            let expected = [laid_out(answers), past].concat();
            assert_eq!((out, room.memories()), (expected, other.memories()), "seed {seed}");
        }
    }
    println!("{done} calls done and {refused} refused, {conflicts} in conflict, as singly");
    assert!(done > 10_000 && refused > 5_000 && conflicts > 100);
}

/// The same with the output of another length: exactly enough will do, one less is refused and changes nothing.
#[test]
fn short_of_one_byte() {
    for seed in 0..50 {
        let mut room = Room::new();
        let calls = calls(&mut SplitMix64::new(seed), &[]);
        let mut bytes = vec![0; calls.len() * (RECORD_LEN + 2)];
        let mut batch = Batch::new(&mut bytes);
        build(&mut batch, &calls);
        let Some(short) = batch.answers_len().checked_sub(1) else { continue };
        let (before, mut out) = (room.clone(), vec![UNTOUCHED; short]);
        assert_eq!(room.store().batch(&batch, &mut out), Err(Refusal::ShortOutput));
        assert_eq!((room.memories(), out), (before.memories(), vec![UNTOUCHED; short]));
        assert!(room.store().batch(&batch, &mut vec![0; short + 1]).is_ok());
    }
}

/// A begin, then a record of each other kind, both by place and by start; and where each starts.
fn each() -> (Vec<u8>, Vec<usize>) {
    let (mut bytes, mut starts) = (vec![0; 16 * RECORD_LEN], Vec::new());
    let mut batch = Batch::new(&mut bytes);
    let mut at = |batch: &Batch| starts.push(batch.as_bytes().len());
    let place = batch.begin().expect("room");
    let whose = [hourbracken::batch::Who::from(place), Start::from_number(7).into()];
    for who in whose {
        for add in [
            |batch: &mut Batch, who| batch.read(who, b"A1"),
            |batch: &mut Batch, who| batch.put(who, b"A1", b"loop"),
            |batch: &mut Batch, who| batch.delete(who, b"A1"),
            |batch: &mut Batch, who| batch.commit(who),
            |batch: &mut Batch, who| batch.abort(who),
        ] {
            at(&batch);
            assert_eq!(add(&mut batch, who), Ok(()));
        }
    }
    at(&batch);
    assert_eq!(batch.sweep(9), Ok(()));
    at(&batch);
    (batch.as_bytes().to_vec(), starts)
}

/// What bytes are refused for, whatever the output; nothing is changed.
fn refusal(batch: &[u8]) -> Option<Refusal> {
    let mut room = Room::new();
    let before = room.clone();
    let mut out = vec![UNTOUCHED; answers_len(batch)];
    let refusal = room.store().batch(batch, &mut out).err()?;
    assert_eq!(room.memories(), before.memories());
    assert!(out.iter().all(|byte| *byte == UNTOUCHED));
    assert_eq!(room.store().batch(batch, &mut []), Err(refusal));
    Some(refusal)
}

fn malformed(offset: usize) -> Option<Refusal> {
    Some(Refusal::MalformedBatch { offset })
}

#[test]
fn cut_at_every_byte() {
    let (bytes, starts) = each();
    for length in 1..=bytes.len() {
        let whole = length == 2 || starts.contains(&length);
        let offset = starts.iter().rev().find(|start| **start < length).copied().unwrap_or(0);
        assert_eq!(refusal(&bytes[..length]), if whole { None } else { malformed(offset) }, "cut at {length}");
    }
}

#[test]
fn every_kind() {
    let (bytes, starts) = each();
    for kind in 0..=255 {
        for start in [0, starts[0], starts[6]] {
            let mut bytes = bytes.clone();
            bytes[start + 1] = kind;
            match kind {
                16..=22 => continue,
                23..=31 => assert_eq!(refusal(&bytes), Some(Refusal::ReservedKind { offset: start })),
                _ => assert_eq!(refusal(&bytes), malformed(start)),
            }
            bytes[start] = b'M';
            assert_eq!(refusal(&bytes), malformed(start));
        }
    }
    assert_eq!(refusal(b"\x4c"), malformed(0));
    assert_eq!(refusal(b"\x4c\x17"), Some(Refusal::ReservedKind { offset: 0 }));
}

/// Places that are no earlier begin's, bytes over 1, lengths that reach past the end.
#[test]
fn wrong_operands() {
    for record in [
        &b"\x4c\x14\x01\x02\0"[..],                    // its own place
        b"\x4c\x14\x01\x01\0",                         // a sweep's
        b"\x4c\x14\x01\x03\0\x4c\x10",                 // a later begin's
        b"\x4c\x14\x01\0\x01",                         // none's
        b"\x4c\x14\x02\0\0\0\0\0\0\0\0",               // neither start nor place
        b"\x4c\x14\xff\0\0",                           // likewise
        b"\x4c\x11\x01\0\0\x03\0\0\0A1",               // a key past the end
        b"\x4c\x11\x01\0\0\xff\xff\xff\xffA1",         // far past it
        b"\x4c\x12\x01\0\0\x02\0\0\0A1\x05\0\0\0loop", // a value past it
    ] {
        let batch = [b"\x4c\x10\x4c\x16\0\0\0\0\0\0\0\0", record].concat();
        assert_eq!(refusal(&batch), malformed(12), "{record:?}");
    }
}

#[test]
fn whichever_stands_first() {
    let (begin, reserved, wrong) = (&b"\x4c\x10"[..], &b"\x4c\x17"[..], &b"\x4d\x17"[..]);
    assert_eq!(refusal(&[begin, reserved, wrong].concat()), Some(Refusal::ReservedKind { offset: 2 }));
    assert_eq!(refusal(&[begin, wrong, reserved].concat()), malformed(2));
    assert_eq!(Room::new().store().batch(begin, &mut [0; 17]), Err(Refusal::ShortOutput));
    // after both
}

#[test]
fn the_most_records() {
    let mut room = Room::new();
    let most = b"\x4c\x10".repeat(MAX_RECORDS);
    let mut out = vec![0; answers_len(&most)];
    let answers = room.store().batch(&most, &mut out).map(|answers| answers.iter().filter_map(|a| a.refusal()).count());
    assert_eq!(answers, Ok(MAX_RECORDS - SIZES.desks));
    for last in [&b"\x4c\x10"[..], b"\x4c\x17", b"\x4c", b"M"] {
        assert_eq!(refusal(&[&most, last].concat()), malformed(most.len()));
    }
}

#[test]
fn none_at_all() {
    let mut room = Room::new();
    let before = room.clone();
    let mut store = room.store();
    assert!(store.batch(&[][..], &mut []).is_ok_and(|answers| answers.is_empty()));
    assert!(store.batch(&Batch::new(&mut []), &mut []).is_ok_and(|answers| answers.is_empty()));
    assert_eq!(room.memories(), before.memories());
}

/// A value is copied, so what comes later in the batch does not change it; a transaction may stay open after it.
#[test]
fn over_two_batches() {
    let mut room = Room::new();
    let mut store = room.store();
    let (mut bytes, mut out) = ([0; 16 * RECORD_LEN], [0; 16 * ANSWER_LEN]);
    let mut batch = Batch::new(&mut bytes);
    let (anna, bram) = (batch.begin().expect("room"), batch.begin().expect("room"));
    for (who, feed) in [(anna, b"loop"), (bram, b"line")] {
        assert_eq!(batch.put(who, b"A1", feed), Ok(()));
        assert_eq!(batch.read(who, b"A1"), Ok(()));
    }
    assert_eq!((batch.commit(anna), batch.sweep(u64::MAX)), (Ok(()), Ok(())));
    let answers = store.batch(&batch, &mut out).expect("done");
    let read = answers.iter().filter_map(|answer| match answer {
        Answer::Read(found) => found.ok()?.bytes(),
        _ => None,
    });
    assert!(read.eq([b"loop", b"line"]));
    let bram = answers.begun(bram).expect("begun").start;
    batch.clear();
    assert_eq!(batch.commit(bram), Ok(()));
    let clashes = store.batch(&batch, &mut out).expect("done").iter().find_map(|answer| answer.refusal());
    assert_eq!(clashes.map(|refusal| refusal.to_string()).as_deref(), Some("A1 was changed by 3"));
    assert!(store.desks().is_ok_and(|mut open| open.next().is_none()));
}
