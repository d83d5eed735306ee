//! Random runs beside the independent store of `trials/`: few keys, wrong starts, edges of every size, damaged dumps.
//! Every answer is compared, and at the end the whole state.

use hourbracken::batch::Answer;
use hourbracken::{Committed, Found, Recorded, Refusal, Sizes, Start, Stopped, Store, RECORD_LEN};
use std::collections::BTreeSet;
use std::ops::Range;
use trials::batch::Space;
use trials::call::{call, open, Call, Opening, Reply};
use trials::language::{parse, Asked};
use trials::script::script;
use trials::store::{Kind, No};

const SEEDS: u64 = 100;
const LINES: usize = 250;

/// No dump is longer, so an output of this length does for any that is longer still.
const LONGEST_DUMP: u64 = Sizes::MAX.dump_len() as u64;

/// The floor's bytes in hall memory.
const FLOOR: Range<usize> = 24..32;

fn no(refusal: Refusal) -> No {
    match refusal {
        Refusal::Conflict(clashes) => {
            assert_eq!(clashes.len(), clashes.iter().len());
            No::Conflict(clashes.iter().map(|clash| (clash.key.to_vec(), clash.newest.number())).collect())
        }
        Refusal::CutShort { offset } => No::At { no: 13, offset: offset as u64 },
        Refusal::Malformed { offset } => No::At { no: 14, offset: offset as u64 },
        Refusal::TooBig { offset } => No::At { no: 15, offset: offset as u64 },
        Refusal::MalformedBatch { offset } => No::At { no: 18, offset: offset as u64 },
        Refusal::ReservedKind { offset } => No::At { no: 19, offset: offset as u64 },
        plain => No::Plain(plain.number() as u8),
    }
}

fn found(found: Found) -> Reply {
    let kind = match found {
        Found::Own(_) => Kind::Own,
        Found::Hall(_) => Kind::Hall,
        Found::Nothing => Kind::Nothing,
    };
    Reply::Found { kind, bytes: found.bytes().unwrap_or_default().to_vec() }
}

fn committed(committed: Committed) -> Reply {
    match committed {
        Committed::As(number) => Reply::Committed(number.number()),
        Committed::Closed => Reply::Closed,
    }
}

fn recorded(store: &mut Store, start: Start, room: u64) -> Result<Reply, Refusal> {
    let mut out = vec![0; room.min(RECORD_LEN as u64) as usize];
    let Recorded { committed, record } = store.commit_to(start, &mut out)?;
    let committed = match committed {
        Committed::As(number) => trials::store::Committed::Number(number.number()),
        Committed::Closed => trials::store::Committed::Closed,
    };
    Ok(Reply::Recorded { committed, record: record.to_vec() })
}

/// Of a record the offset is told too, whatever it is refused for.
fn replayed(store: &mut Store, journal: &[u8]) -> Reply {
    match store.replay(journal) {
        Ok(end) => Reply::Replayed(end as u64),
        Err(Stopped { refusal: Refusal::Unsound | Refusal::DesksOpen, offset: 1.. }) => {
            panic!("no record was looked at")
        }
        Err(Stopped { refusal: refusal @ (Refusal::Unsound | Refusal::DesksOpen), .. }) => Reply::No(no(refusal)),
        Err(Stopped { refusal, offset }) => Reply::No(No::At { no: refusal.number() as u8, offset: offset as u64 }),
    }
}

fn told(answer: Answer) -> Reply {
    let reply = match answer {
        Answer::Begin(begun) => begun.map(|b| Reply::Begun { start: b.start.number(), desk: b.desk }),
        Answer::Read(read) => read.map(found),
        Answer::Put(done) | Answer::Delete(done) | Answer::Abort(done) => done.map(|()| Reply::Done),
        Answer::Commit(commit) => commit.map(committed),
        Answer::Sweep(sweep) => sweep.map(|s| Reply::Swept { cutoff: s.cutoff, dropped: s.dropped }),
    };
    reply.unwrap_or_else(|refusal| Reply::No(no(refusal)))
}

/// The bytes of the answers are those that the independent store lays out.
fn batched(store: &mut Store, batch: &[u8], space: Space) -> Result<Reply, Refusal> {
    let mut out = vec![0xa5; space.room(batch) as usize];
    let replies: Vec<Reply> = store.batch(batch, &mut out)?.iter().map(told).collect();
    let records = trials::batch::parse(batch).expect("a batch that was done");
    assert!(out == trials::batch::answers(&records, &replies));
    Ok(Reply::Batched(replies))
}

fn dumped(store: &Store, room: u64) -> Result<Reply, Refusal> {
    let mut out = vec![0; room.min(LONGEST_DUMP) as usize];
    let length = store.dump(&mut out)?;
    out.truncate(length);
    Ok(Reply::Dumped(out))
}

fn answer(store: &mut Store, call: &Call) -> Reply {
    let start = |number: &u64| Start::from_number(*number);
    let reply = match call {
        Call::Begin => store.begin().map(|b| Reply::Begun { start: b.start.number(), desk: b.desk }),
        Call::Read { start: s, key } => store.read(start(s), key).map(found),
        Call::Bytes { start: s, key } => {
            let bytes = store.read(start(s), key).ok().and_then(Found::bytes).unwrap_or_default();
            Ok(Reply::Bytes(bytes.to_vec()))
        }
        Call::Newest { key } => store.newest(key).map(found),
        Call::AsOf { number, key } => store.as_of(*number, key).map(found),
        Call::Put { start: s, key, value } => store.put(start(s), key, value).map(|()| Reply::Done),
        Call::Delete { start: s, key } => store.delete(start(s), key).map(|()| Reply::Done),
        Call::Commit { start: s } => store.commit(start(s)).map(committed),
        Call::CommitTo { start: s, room } => recorded(store, start(s), *room),
        Call::Replay { journal } => Ok(replayed(store, journal)),
        Call::Abort { start: s } => store.abort(start(s)).map(|()| Reply::Done),
        Call::Sweep { limit } => store.sweep(*limit).map(|s| Reply::Swept { cutoff: s.cutoff, dropped: s.dropped }),
        Call::Thin { limit } => store.thin(*limit).map(|dropped| Reply::Thinned { dropped }),
        Call::Counts => store.counts().map(|c| Reply::Counted { keys: c.keys, versions: c.versions, desks: c.desks }),
        Call::Dump { room } => dumped(store, *room),
        Call::Batch { batch, space } => batched(store, batch, *space),
    };
    reply.unwrap_or_else(|refusal| Reply::No(no(refusal)))
}

fn sizes(given: trials::store::Sizes) -> Sizes {
    let size = |number: u64| number as usize;
    Sizes { key_rooms: size(given.key_rooms), version_rooms: size(given.version_rooms), desks: size(given.desks) }
}

fn opened(opening: &Opening, hall: &mut [u8], desk: &mut [u8]) -> Result<(), No> {
    let store = match opening {
        Opening::Make { sizes: given } => Store::make(hall, desk, sizes(*given)),
        Opening::Load { dump, sizes: given } => Store::load(dump, hall, desk, sizes(*given)),
    };
    store.map(|_| ()).map_err(no)
}

/// The hall memory of a store is that of its dump, loaded, but for the floor, which is then the counter.
fn same_state(store: &trials::store::Store, hall: &[u8]) {
    let (mut other_hall, mut other_desk) = (vec![0; hall.len()], vec![0; Sizes::MAX.desk_len()]);
    let dump = store.dump(u64::MAX).expect("dumped");
    let sizes = sizes(store.sizes);
    assert!(Store::load(&dump, &mut other_hall, &mut other_desk, sizes).is_ok());
    assert_eq!(other_hall[FLOOR], store.counter.to_le_bytes());
    other_hall[FLOOR].copy_from_slice(&store.floor.to_le_bytes());
    let needed = sizes.hall_len();
    assert!(hall[..needed] == other_hall[..needed]);
}

/// The past of up to sixteen keys is told alike, at and beside each number where it could change. Answers how often it
/// was told, and was not what is there now.
fn same_past(model: &mut trials::store::Store, store: &mut Store) -> usize {
    let numbers = model.keys.values().flatten().map(|version| version.number).chain([model.floor, model.counter]);
    let near: BTreeSet<u64> = numbers.flat_map(|n| [n.wrapping_sub(1), n, n.wrapping_add(1)]).collect();
    let keys: Vec<_> = model.keys.keys().take(16).cloned().collect();
    let mut past = 0;
    for key in keys {
        let newest = store.newest(&key).map(found);
        for number in &near {
            let asked = Call::AsOf { number: *number, key: key.clone() };
            let reply = answer(store, &asked);
            assert_eq!(reply, call(model, &asked), "{asked:?}");
            past += usize::from(matches!(reply, Reply::Found { .. }) && newest != Ok(reply));
        }
    }
    past
}

#[test]
fn answers_as_the_plain_store() {
    let (mut hall, mut desk) = (vec![0; Sizes::MAX.hall_len()], vec![0; Sizes::MAX.desk_len()]);
    let (mut calls, mut openings, mut past, mut thinned, mut clashes) = (0, 0, 0, 0, 0);
    let (mut records, mut replays, mut stops) = (0, 0, 0);
    for seed in 0..SEEDS {
        let mut plain = None;
        for (at, line) in script(seed, LINES).lines().enumerate() {
            match parse(line) {
                Some(Asked::Open(opening)) => {
                    let expected = open(&opening);
                    assert_eq!(
                        opened(&opening, &mut hall, &mut desk),
                        expected.as_ref().map(|_| ()).map_err(No::clone),
                        "seed {} line {}: {:?}",
                        seed,
                        at,
                        opening
                    );
                    plain = expected.ok().or(plain);
                    openings += 1;
                }
                Some(Asked::Call(asked)) => {
                    let Some(model) = plain.as_mut() else { continue };
                    let mut store = Store::open(&mut hall, &mut desk).expect("attached");
                    let reply = answer(&mut store, &asked);
                    assert_eq!(reply, call(model, &asked), "seed {seed} line {at}: {asked:?}");
                    thinned += usize::from(matches!(reply, Reply::Thinned { dropped: 1.. }));
                    clashes += usize::from(matches!(&reply, Reply::No(No::Conflict(keys)) if keys.len() > 1));
                    records += usize::from(matches!(&reply, Reply::Recorded { record, .. } if !record.is_empty()));
                    replays += usize::from(matches!(reply, Reply::Replayed(1..)));
                    stops += usize::from(matches!(reply, Reply::No(No::At { .. })));
                    calls += 1;
                }
                _ => {}
            }
        }
        if let Some(model) = &mut plain {
            same_state(model, &hall);
            past += same_past(model, &mut Store::open(&mut hall, &mut desk).expect("attached"));
        }
    }
    println!("{} calls and {} openings answered alike", calls, openings);
    assert!(calls > 5_000 && openings > 100, "{calls} calls, {openings} openings");
    assert!(past > 200 && thinned > 20, "{past} answers from the past, {thinned} times thinned");
    assert!(clashes > 20, "{clashes} conflicts in several keys");
    assert!(records > 20 && replays > 20 && stops > 20, "{records} records, {replays} replays, {stops} stopped");
}
