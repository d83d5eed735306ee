//! Batches that are wrong at a place of choice, or at two: the first one answers.

use crate::batch::{Record, Who};
use crate::random::OTHER_BYTES;
use crate::rng::SplitMix64;
use crate::store::{Bytes, KEY_MAX, VALUE_MAX};

/// The records' bytes: as they are, or with records wrong, missing, twice or in another order; whole or cut.
pub fn damaged_batch(rng: &mut SplitMix64, records: &[Record]) -> Bytes {
    let mut pieces: Vec<Bytes> = records.iter().map(Record::bytes).collect();
    if !pieces.is_empty() {
        for _ in 0..rng.pick(&[0, 1, 1, 1, 2, 2]) {
            spoil(rng, records, &mut pieces);
        }
    }
    let last = pieces.last().map_or(0, Vec::len);
    cut(rng, pieces.concat(), last)
}

fn spoil(rng: &mut SplitMix64, records: &[Record], pieces: &mut Vec<Bytes>) {
    let (at, other) = (rng.below(records.len()), rng.below(records.len()));
    match rng.below(16) {
        0 => pieces.swap(at, other),
        1 => pieces.insert(at, pieces[other].clone()),
        2 if pieces[at].len() > 2 => {
            let byte = rng.below(pieces[at].len());
            pieces[at][byte] = rng.draw() as u8;
        }
        3 | 4 => pieces.insert(at, vec![0x4c, rng.pick(&[23, 23, 27, 31, 31])]),
        5..=7 => pieces[at] = misplaced(rng, records, at).bytes(),
        8 => pieces[at].truncate(rng.below(records[at].bytes().len())),
        _ => pieces[at] = forged(rng, &records[at]),
    }
}

/// Of a place that has no begin, or none as yet.
fn misplaced(rng: &mut SplitMix64, records: &[Record], at: usize) -> Record {
    let begins = |place: &usize| records[*place] == Record::Begin;
    let mut places = vec![at, at + 1, records.len() - 1, records.len(), 65_535, at + 256, at + 32_768];
    places.extend((at..records.len()).filter(begins));
    // By what its desk or the number of begins before it would be.
    places.extend(0..at.min(4));
    places.extend((0..at).filter(|place| !begins(place)).take(8));
    let place = rng.pick(&places) as u16;
    match &records[at] {
        Record::Begin | Record::Sweep { .. } => Record::Commit { who: Who::Place(place) },
        record => record.clone().with_who(Who::Place(place)),
    }
}

/// Cut anywhere, or in its last record, or with some bytes more.
fn cut(rng: &mut SplitMix64, mut batch: Bytes, last: usize) -> Bytes {
    let edge = batch.len() - last.min(batch.len());
    match rng.below(12) {
        0 => batch.truncate(rng.below(batch.len() + 1)),
        1 => batch.truncate(edge + rng.below(last + 1)),
        2 => batch.truncate(batch.len().saturating_sub(1)),
        3 | 4 => {
            let ends = [
                &[0x4c][..],
                &[0x4c],
                &[0],
                &[0x4c, 1],
                &[0x4c, 15],
                &[0x4c, 23],
                &[0x4c, 31],
                &[0x4c, 32],
                &[0x17, 0x4c],
                &[0x4c, 20, 1],
                &[0x4c, 20, 2],
                &[0x4c, 21, 1, 0],
                &[0x4c, 22, 0, 0, 0, 0, 0, 0, 0],
            ];
            batch.extend(rng.pick(&ends));
        }
        _ => {}
    }
    batch
}

#[derive(Clone, Copy, PartialEq, Eq, Debug)]
enum Part {
    Mark,
    Kind,
    Tag,
    Transaction,
    KeyLength,
    Key,
    ValueLength,
    Value,
    Limit,
}

/// A record, field by field.
fn fields(record: &Record) -> Vec<(Part, Bytes)> {
    let mut fields = vec![(Part::Mark, vec![0x4c]), (Part::Kind, vec![record.kind()])];
    if let Some(who) = record.who() {
        fields.push((Part::Tag, who.bytes()[..1].to_vec()));
        fields.push((Part::Transaction, who.bytes()[1..].to_vec()));
    }
    let length = |bytes: &Bytes| (bytes.len() as u32).to_le_bytes().to_vec();
    match record {
        Record::Read { key, .. } | Record::Delete { key, .. } => {
            fields.extend([(Part::KeyLength, length(key)), (Part::Key, key.clone())]);
        }
        Record::Put { key, value, .. } => {
            fields.extend([(Part::KeyLength, length(key)), (Part::Key, key.clone())]);
            fields.extend([(Part::ValueLength, length(value)), (Part::Value, value.clone())]);
        }
        Record::Sweep { limit } => fields.push((Part::Limit, limit.to_le_bytes().to_vec())),
        _ => {}
    }
    fields
}

/// The record with one field wrong, or nearly.
fn forged(rng: &mut SplitMix64, record: &Record) -> Bytes {
    let mut fields = fields(record);
    let at = rng.below(fields.len());
    fields[at].1 = wrong(rng, fields[at].0, &fields[at].1);
    fields.into_iter().flat_map(|(_, bytes)| bytes).collect()
}

fn wrong(rng: &mut SplitMix64, part: Part, bytes: &[u8]) -> Bytes {
    let now = bytes.iter().rev().fold(0u64, |high, byte| high << 8 | *byte as u64);
    let count = |n: u64| (n as u32).to_le_bytes().to_vec();
    let far = u32::MAX as u64;
    match part {
        Part::Mark => vec![rng.pick(&[0, 1, 0x4b, 0x4d, 0xff])],
        Part::Kind => vec![rng.pick(&[0, 1, 2, 15, 16, 17, 18, 19, 20, 21, 22, 23, 28, 31, 32, 50, 144, 255])],
        Part::Tag => vec![rng.pick(&[0, 1, 2, 2, 3, 128, 255])],
        Part::Transaction => {
            let mut other = bytes.to_vec();
            let at = rng.below(other.len());
            other[at] = rng.pick(&[0, 1, 2, 255]);
            other
        }
        Part::KeyLength => {
            let most = KEY_MAX as u64;
            count(rng.pick(&[0, now.wrapping_sub(1), now + 1, most, most + 1, far, 1 << 31, now + 256, now + 65_536]))
        }
        Part::Key if bytes.is_empty() => vec![b'k'],
        Part::Key => {
            let mut key = bytes.to_vec();
            let at = rng.below(key.len());
            key[at] = rng.pick(&OTHER_BYTES);
            key
        }
        Part::ValueLength => {
            let most = VALUE_MAX as u64;
            count(rng.pick(&[0, now.wrapping_sub(1), now + 1, most, most + 1, far, 1 << 31, now + 256]))
        }
        Part::Value => vec![rng.draw() as u8; bytes.len() + rng.below(3)],
        Part::Limit => vec![rng.draw() as u8; rng.pick(&[7, 8, 9])],
    }
}
