//! Batches for a console that knows them.

use super::inputs::Named;
use crate::batch::{Record, Space, Who, RECORDS_MAX};
use crate::call::Call;
use crate::console::LINE_MOST;
use crate::language::{call_text, hex};
use crate::store::{Bytes, KEY_MAX, VALUE_MAX};

pub fn batches() -> Vec<Named> {
    let longest = hex(&[0x4c, 16].repeat((LINE_MOST - 11) / 4));
    vec![
        ("a batch cut after every byte", cut_batches()),
        ("every value of every byte of a batch", changed_batches()),
        ("a batch as long as a line may be", format!("make 1 1 2\nbatch {longest} full\nsum hall\nsum desk\nbegin\n")),
        ("as many of the longest records as a batch takes", longest_records()),
        ("as many records as a batch takes, and one more", a_record_too_many()),
    ]
}

fn line(batch: &[u8]) -> String {
    call_text(&Call::Batch { batch: batch.to_vec(), space: Space::Full }) + "\n"
}

/// Each kind of record; of two transactions, one by its start.
fn a_night() -> Vec<Record> {
    let (first, second) = (Who::Place(0), Who::Place(3));
    let key = b"A1".to_vec();
    vec![
        Record::Begin,
        Record::Put { who: first, key: key.clone(), value: vec![7, 8] },
        Record::Commit { who: first },
        Record::Begin,
        Record::Read { who: second, key: key.clone() },
        Record::Delete { who: Who::Start(3), key },
        Record::Sweep { limit: u64::MAX },
        Record::Abort { who: second },
    ]
}

fn cut_batches() -> String {
    let batch: Bytes = a_night().iter().flat_map(Record::bytes).collect();
    let one = |end: usize| format!("make 2 4 1\n{}counts\ndump 200\nsum hall\nbegin\n", line(&batch[..end]));
    (0..=batch.len()).map(one).collect::<String>() + "sum desk\n"
}

fn changed_batches() -> String {
    let batch: Bytes = a_night().iter().flat_map(Record::bytes).collect();
    let mut script = String::new();
    for at in 0..batch.len() {
        for byte in 0..=255 {
            let mut changed = batch.clone();
            changed[at] = byte;
            script += &format!("make 2 4 2\n{}counts\n", line(&changed));
        }
        script += "sum hall\nsum desk\n";
    }
    script
}

/// Whatever it is.
fn a_record_too_many() -> String {
    let pair = |place: u16| [Record::Begin, Record::Abort { who: Who::Place(place) }];
    let pairs = (0..RECORDS_MAX as u16).step_by(2).flat_map(pair);
    let most: Bytes = pairs.flat_map(|record| record.bytes()).collect();
    let more = [&[][..], &[0x4c, 16], &[0x4c, 23], &[0x4c], &[0]].map(|bytes| line(&[&most, bytes].concat()));
    format!("make 1 1 1\n{}sum hall\nsum desk\n", more.concat())
}

/// Puts of sixteen keys, again and again.
fn longest_records() -> String {
    let put = |i: usize| Record::Put {
        who: Who::Place(0),
        key: [vec![b'k'; KEY_MAX - 1], vec![b'a' + (i % 16) as u8]].concat(),
        value: vec![i as u8; VALUE_MAX],
    };
    let batch: Bytes =
        [Record::Begin].into_iter().chain((1..RECORDS_MAX).map(put)).flat_map(|record| record.bytes()).collect();
    format!("make 16 16 1\n{}commit 1\ncounts\nsum hall\nsum desk\n", line(&batch))
}
