//! Batches.

use crate::batch::{Record, Space, Who};
use crate::call::Call;
use crate::language::call_text;
use crate::store::{Bytes, KEY_MAX, VALUE_MAX};

/// All of it, for a console that knows batches.
pub fn batches() -> String {
    [singly(), refused_begins(), lengths(), space(), faults(), unsound(), NO_CALLS.to_string()].concat()
}

const SUMS: &str = "sum hall\nsum desk\n";

fn line(bytes: &[u8], space: Space) -> String {
    call_text(&Call::Batch { batch: bytes.to_vec(), space }) + "\n"
}

fn bytes(records: &[Record]) -> Bytes {
    records.iter().flat_map(Record::bytes).collect()
}

fn full(records: &[Record]) -> String {
    line(&bytes(records), Space::Full)
}

fn read(who: Who, key: &str) -> Record {
    Record::Read { who, key: key.as_bytes().to_vec() }
}

fn put(who: Who, key: &str, value: &[u8]) -> Record {
    Record::Put { who, key: key.as_bytes().to_vec(), value: value.to_vec() }
}

fn delete(who: Who, key: &str) -> Record {
    Record::Delete { who, key: key.as_bytes().to_vec() }
}

fn commit(who: Who) -> Record {
    Record::Commit { who }
}

fn abort(who: Who) -> Record {
    Record::Abort { who }
}

const SWEEP: Record = Record::Sweep { limit: u64::MAX };

fn singly() -> String {
    let [first, fifth, last] = [0, 5, 9].map(Who::Place);
    let a_night = [
        Record::Begin,
        read(first, "A1"),
        put(first, "A1", &[7]),
        read(first, "A1"),
        commit(first),
        Record::Begin,
        read(fifth, "A1"),
        delete(fifth, "A1"),
        commit(first),
        Record::Begin,
        commit(fifth),
        SWEEP,
        read(last, "A1"),
        commit(last),
        SWEEP,
        abort(last),
    ];
    let clash = [
        Record::Begin,
        Record::Begin,
        put(Who::Place(1), "A2", &[]),
        put(Who::Place(1), "A1", &[1, 2]),
        put(Who::Place(0), "A1", &[3]),
        put(Who::Place(0), "A2", &[4]),
        commit(Who::Place(0)),
        commit(Who::Place(1)),
        Record::Begin,
        read(Who::Place(8), "A2"),
    ];
    let by_start = [read(Who::Start(9), "A1"), abort(Who::Start(9)), Record::Begin, put(Who::Start(10), "A1", &[9])];
    format!(
        "# A batch is its calls made singly. A place is that of a begin among the records, and none is done yet.\n\
         make 4 8 3\n{}counts\n{SUMS}dump 200\n# A conflict names its keys, and what comes behind it is done.\n{}{SUMS}\
         # By a start, also one that the batch itself begins.\n{}{SUMS}read 10 4131\n\
         # One key room: a commit that finds none, and finds one behind a sweep.\nmake 1 4 2\n{}{SUMS}",
        full(&a_night),
        full(&clash),
        full(&by_start),
        full(&[
            Record::Begin,
            delete(Who::Place(0), "A1"),
            commit(Who::Place(0)),
            Record::Begin,
            put(Who::Place(3), "A2", &[1]),
            commit(Who::Place(3)),
            SWEEP,
            commit(Who::Place(3)),
        ])
    )
}

fn refused_begins() -> String {
    let (first, second) = (Who::Place(0), Who::Place(1));
    let records = [
        Record::Begin,
        Record::Begin,
        read(second, "A1"),
        read(second, ""),
        put(second, "A 1", &[0; VALUE_MAX + 1]),
        put(second, "A1", &[0; VALUE_MAX + 1]),
        put(second, "A1", &[]),
        delete(second, "A1"),
        commit(second),
        abort(second),
        abort(first),
        abort(first),
        read(first, "A1"),
        Record::Begin,
    ];
    format!("# A begin that is refused is no open transaction, after 3 and 4.\nmake 1 1 1\n{}{SUMS}", full(&records))
}

fn lengths() -> String {
    let who = Who::Place(0);
    let key = "k".repeat(KEY_MAX + 1);
    let records = [
        Record::Begin,
        put(who, &key, &[0; VALUE_MAX + 1]),
        put(who, &key[1..], &[0; VALUE_MAX + 1]),
        put(who, &key[1..], &[0; VALUE_MAX]),
        delete(who, ""),
        delete(who, &key),
        read(who, &key),
        read(who, &key[1..]),
    ];
    format!("# Lengths out of range are 3 and 4.\nmake 1 1 1\n{}{SUMS}", full(&records))
}

fn space() -> String {
    let begun = bytes(&[Record::Begin, put(Who::Place(0), "A1", &[7]), commit(Who::Place(0))]);
    let wrong = [&begun[..], &[0x4c]].concat();
    format!(
        "# An output one byte short is 12, and nothing is done; an empty batch needs none. A fault comes before it.\n\
         make 1 1 1\n{}{SUMS}{}{}{}{SUMS}{}{SUMS}",
        line(&begun, Space::Short),
        line(&[], Space::Short),
        line(&[], Space::Full),
        line(&wrong, Space::Short),
        line(&begun, Space::Full)
    )
}

/// Each behind a begin that is not done.
fn faults() -> String {
    let far = [0xff; 4];
    let wrong: [&[u8]; 25] = [
        &[0x4c],
        &[0x10],
        &[0x10, 0x4c],
        &[0x4d, 16],
        &[0x4c, 0],
        &[0x4c, 1],
        &[0x4c, 15],
        &[0x4c, 23],
        &[0x4c, 31],
        &[0x4c, 32],
        &[0x4c, 255],
        &[0x4c, 20, 2, 0, 0],
        &[0x4c, 20, 255],
        &[0x4c, 20, 1, 1, 0],
        &[0x4c, 20, 1, 2, 0, 0x4c, 16],
        &[0x4c, 20, 1, 0, 1],
        &[0x4c, 22, 0, 0, 0, 0, 0, 0, 0, 0, 0x4c, 21, 1, 1, 0],
        &[0x4c, 20, 0, 1, 0, 0, 0, 0, 0, 0],
        &[0x4c, 22, 1, 0, 0, 0, 0, 0, 0],
        &[&[0x4c, 17, 1, 0, 0], &far[..], &[65]].concat(),
        &[0x4c, 19, 1, 0, 0, 2, 0, 0, 0, 65],
        &[0x4c, 18, 1, 0, 0, 1, 0, 0, 0, 65, 97, 0, 0, 0, 7],
        // The first one answers.
        &[0x4c, 20, 2, 0x4c, 23],
        &[0x4c, 23, 0x4c, 20, 2],
        &[0x4c, 20, 1, 1, 0, 0x4c, 23],
    ];
    let lines: String = wrong.iter().map(|bytes| line(&[&[0x4c, 16], *bytes].concat(), Space::Full)).collect();
    format!(
        "# Malformed is 18, a reserved kind 19, with the record's offset; nothing is done.\nmake 1 1 2\n{lines}{SUMS}"
    )
}

fn unsound() -> String {
    let batch = [&[0x4c, 16, 0x4c, 23][..], &[0x4c, 16], &[]].map(|bytes| line(bytes, Space::Short)).concat();
    format!("# Memory that is not sound comes first.\nmake 1 1 1\npoke hall 63 1\n{batch}poke hall 63 0\n{SUMS}")
}

const NO_CALLS: &str = "\
# No batches.
batch
batch -
batch full
batch 4c1 full
batch 4c10 half
batch 4c10 full full
batch '4c full
 Batch\t4C10  FULL
counts
";
