//! Dumps, journals and batches that are wrong at a place of choice.

pub mod batches;

use crate::journal::{Commit, HEAD, MARK};
use crate::random::OTHER_BYTES;
use crate::rng::SplitMix64;
use crate::store::{Bytes, Store, Writes, KEY_MAX, TOP, VALUE_MAX, WRITES_MAX};

/// The kinds of field that a dump has.
#[derive(Clone, Copy, PartialEq, Eq, PartialOrd, Ord, Debug)]
pub enum Part {
    Opening,
    Next,
    KeyCount,
    KeyLength,
    Key,
    VersionCount,
    Number,
    Tag,
    ValueLength,
    Value,
}

pub struct Field {
    pub part: Part,
    pub bytes: Bytes,
}

/// The dump of a hall, field by field.
pub fn fields(hall: &Store) -> Vec<Field> {
    let mut all = Vec::new();
    let mut add = |part: Part, bytes: &[u8]| all.push(Field { part, bytes: bytes.to_vec() });
    add(Part::Opening, b"DSEMVCC1");
    add(Part::Next, &(hall.counter + 1).to_le_bytes());
    add(Part::KeyCount, &(hall.keys.len() as u32).to_le_bytes());
    for (key, versions) in &hall.keys {
        add(Part::KeyLength, &(key.len() as u32).to_le_bytes());
        add(Part::Key, key);
        add(Part::VersionCount, &(versions.len() as u32).to_le_bytes());
        for version in versions {
            add(Part::Number, &version.number.to_le_bytes());
            add(Part::Tag, &[version.content.is_some() as u8]);
            if let Some(value) = &version.content {
                add(Part::ValueLength, &(value.len() as u32).to_le_bytes());
                add(Part::Value, value);
            }
        }
    }
    all
}

/// The hall's dump with one field made wrong, or cut, or with bytes after its end, or one byte changed.
pub fn damaged(rng: &mut SplitMix64, hall: &Store) -> Bytes {
    let mut fields = fields(hall);
    match rng.below(8) {
        0..=4 => {
            let at = one_of_a_part(rng, &fields);
            let before = fields[..at].iter().rev().find(|f| f.part == fields[at].part).map(|f| f.bytes.clone());
            fields[at].bytes = wrong(rng, &fields[at], before.unwrap_or_default(), hall.counter);
        }
        5 => {
            let at = rng.below(fields.len());
            let length = fields[at].bytes.len();
            if length > 0 {
                let byte = rng.below(length);
                fields[at].bytes[byte] = rng.draw() as u8;
            }
        }
        _ => {}
    }
    let cut_at = one_of_a_part(rng, &fields);
    let cut_from: usize = fields[..cut_at].iter().map(|f| f.bytes.len()).sum();
    let within = fields[cut_at].bytes.len();
    let mut dump: Bytes = fields.into_iter().flat_map(|f| f.bytes).collect();
    match rng.below(8) {
        0 => dump.truncate(rng.below(dump.len() + 1)),
        1 => dump.truncate(cut_from + rng.below(within + 1)),
        2 => dump.extend(vec![rng.draw() as u8; 1 + rng.below(3)]),
        _ => {}
    }
    dump
}

/// First the part, then one of its fields: there are many more fields of some parts than of others.
fn one_of_a_part(rng: &mut SplitMix64, fields: &[Field]) -> usize {
    let part = fields[rng.below(fields.len().min(10))].part;
    let of_part: Vec<usize> = (0..fields.len()).filter(|i| fields[*i].part == part).collect();
    rng.pick(&of_part)
}

fn wrong(rng: &mut SplitMix64, field: &Field, before: Bytes, counter: u64) -> Bytes {
    let now = field.bytes.iter().rev().fold(0u64, |high, byte| high << 8 | *byte as u64);
    let count = |n: u64| (n as u32).to_le_bytes().to_vec();
    match field.part {
        Part::Opening => b"DSEMVCC2".to_vec(),
        Part::Next => rng.pick(&[0, 1, counter, counter.wrapping_add(2), u64::MAX]).to_le_bytes().to_vec(),
        Part::KeyCount => count(rng.pick(&[0, now.wrapping_sub(1), now + 1, u32::MAX as u64, 1 << 31])),
        Part::KeyLength => count(rng.pick(&[0, now - 1, now + 1, 24, 25, 25, 25, u32::MAX as u64, now + 256])),
        Part::Key => match rng.below(4) {
            0 => before,
            1 => vec![rng.pick(b"!~"); field.bytes.len()],
            _ => {
                let mut key = field.bytes.clone();
                let at = rng.below(key.len());
                key[at] = rng.pick(&OTHER_BYTES);
                key
            }
        },
        Part::VersionCount => count(rng.pick(&[0, now - 1, now + 1, u32::MAX as u64, now + 65_536])),
        Part::Number => match rng.below(4) {
            0 if !before.is_empty() => before,
            1 => 0u64.to_le_bytes().to_vec(),
            2 => (counter + 1).to_le_bytes().to_vec(),
            _ => rng.pick(&[now - 1, now + 1, u64::MAX, now ^ (1 << 40)]).to_le_bytes().to_vec(),
        },
        Part::Tag => vec![rng.pick(&[0, 1, 2, 255, 128])],
        Part::ValueLength => {
            let most = VALUE_MAX as u64;
            count(rng.pick(&[0, now + 1, most, most + 1, most + 1, u32::MAX as u64, now + 256]))
        }
        Part::Value => vec![rng.draw() as u8; field.bytes.len() + rng.below(2)],
    }
}

/// The kinds of field that a record has.
#[derive(Clone, Copy, PartialEq, Eq, PartialOrd, Ord, Debug)]
enum InRecord {
    Mark,
    BodyLength,
    Number,
    Count,
    KeyLength,
    Key,
    Tag,
    ValueLength,
    Value,
}

const IN_RECORD: [InRecord; 9] = [
    InRecord::Mark,
    InRecord::BodyLength,
    InRecord::Number,
    InRecord::Count,
    InRecord::KeyLength,
    InRecord::Key,
    InRecord::Tag,
    InRecord::ValueLength,
    InRecord::Value,
];

/// A record, field by field.
struct Record(Vec<(InRecord, Bytes)>);

impl Record {
    fn new(commit: &Commit) -> Record {
        let count = |n: usize| (n as u32).to_le_bytes().to_vec();
        let mut fields = vec![
            (InRecord::Mark, MARK.to_vec()),
            (InRecord::BodyLength, count(commit.record().len() - HEAD)),
            (InRecord::Number, commit.number.to_le_bytes().to_vec()),
            (InRecord::Count, count(commit.writes.len())),
        ];
        for (key, content) in &commit.writes {
            fields.push((InRecord::KeyLength, count(key.len())));
            fields.push((InRecord::Key, key.clone()));
            fields.push((InRecord::Tag, vec![content.is_some() as u8]));
            if let Some(value) = content {
                fields.push((InRecord::ValueLength, count(value.len())));
                fields.push((InRecord::Value, value.clone()));
            }
        }
        Record(fields)
    }

    fn bytes(&self) -> Bytes {
        self.0.iter().flat_map(|(_, bytes)| bytes.clone()).collect()
    }

    /// As long as the body is now.
    fn measured(mut self) -> Record {
        let body: usize = self.0[2..].iter().map(|(_, bytes)| bytes.len()).sum();
        self.0[1].1 = (body as u32).to_le_bytes().to_vec();
        self
    }
}

/// The commits' journal: as it is, or with records wrong, missing, twice or in another order; whole or cut.
pub fn damaged_journal(rng: &mut SplitMix64, commits: &[Commit], counter: u64) -> Bytes {
    let mut records: Vec<Bytes> = commits.iter().map(Commit::record).collect();
    if !records.is_empty() {
        let (at, other) = (rng.below(records.len()), rng.below(records.len()));
        match rng.below(14) {
            0 => records.swap(at, other),
            1 => drop(records.remove(at)),
            2 => records.insert(at, records[other].clone()),
            3 | 4 => {
                let byte = rng.below(records[at].len());
                records[at][byte] = rng.draw() as u8;
            }
            5..=11 => {
                let before = if at == 0 { counter } else { commits[at - 1].number };
                records[at] = forged(rng, &commits[at], before);
            }
            _ => {}
        }
    }
    let last = records.last().map_or(0, Vec::len);
    cut(rng, records.concat(), last)
}

/// Cut anywhere, or in its last record, or with some bytes more.
fn cut(rng: &mut SplitMix64, mut journal: Bytes, last: usize) -> Bytes {
    let edge = journal.len() - last;
    match rng.below(8) {
        0 => journal.truncate(rng.below(journal.len() + 1)),
        1 => journal.truncate(edge + rng.below(last + 1)),
        2 => journal.truncate(edge + rng.below(HEAD + 1)),
        3 => {
            let ends =
                [&[0x4c][..], &[0], &[0x4c, 2], &[1, 0x4c], &[0x4c, 1, 0xff, 0xff, 0xff, 0xff], &[0x4c, 1, 12, 0]];
            journal.extend(rng.pick(&ends));
        }
        _ => {}
    }
    journal
}

/// A record of a commit that breaks a rule, or nearly.
fn forged(rng: &mut SplitMix64, commit: &Commit, counter: u64) -> Bytes {
    match rng.below(9) {
        0 | 4 => crowded(rng, commit.number),
        1 => {
            let length = rng.pick(&[VALUE_MAX, VALUE_MAX + 1]);
            let mut longer = commit.clone();
            longer.writes.insert(b"A1".to_vec(), Some(vec![rng.draw() as u8; length]));
            longer.record()
        }
        2 => Commit { number: rng.pick(&[counter, counter, TOP, TOP + 1, 0]), ..commit.clone() }.record(),
        3 => out_of_order(rng, commit),
        5 => {
            // Bytes behind the last write, which the length counts.
            let mut record = Record::new(commit);
            record.0.push((InRecord::Value, vec![rng.draw() as u8; 1 + rng.below(2)]));
            record.measured().bytes()
        }
        _ => forged_field(rng, Record::new(commit)),
    }
}

/// About as many writes as a commit may have, or none.
fn crowded(rng: &mut SplitMix64, number: u64) -> Bytes {
    let count = rng.pick(&[0, WRITES_MAX, WRITES_MAX + 1, WRITES_MAX + 1]);
    let writes: Writes = (0..count).map(|i| (vec![b'a' + i as u8], (i % 3 > 0).then(|| vec![i as u8]))).collect();
    Commit { number, writes }.record()
}

/// The same writes in another order, or one of them twice.
fn out_of_order(rng: &mut SplitMix64, commit: &Commit) -> Bytes {
    let one = |(key, content): (&Bytes, &Option<Bytes>)| {
        let alone = Commit { number: 1, writes: [(key.clone(), content.clone())].into() };
        alone.record()[HEAD + 12..].to_vec()
    };
    let mut writes: Vec<Bytes> = commit.writes.iter().map(one).collect();
    let (at, other) = (rng.below(writes.len()), rng.below(writes.len()));
    if at == other {
        writes.insert(at, writes[at].clone());
    } else {
        writes.swap(at, other);
    }
    let count = (writes.len() as u32).to_le_bytes();
    let body = [&commit.number.to_le_bytes()[..], &count, &writes.concat()].concat();
    [&MARK[..], &(body.len() as u32).to_le_bytes(), &body].concat()
}

fn forged_field(rng: &mut SplitMix64, mut record: Record) -> Bytes {
    let part = rng.pick(&IN_RECORD);
    let of_part: Vec<usize> = (0..record.0.len()).filter(|at| record.0[*at].0 == part).collect();
    if of_part.is_empty() {
        return record.bytes();
    }
    let at = rng.pick(&of_part);
    record.0[at].1 = wrong_in_record(rng, part, &record.0[at].1);
    // A length that is left as it was is wrong too, where the body has another.
    let measures = part != InRecord::BodyLength && rng.chance(3, 4);
    if measures { record.measured() } else { record }.bytes()
}

fn wrong_in_record(rng: &mut SplitMix64, part: InRecord, bytes: &[u8]) -> Bytes {
    let now = bytes.iter().rev().fold(0u64, |high, byte| high << 8 | *byte as u64);
    let count = |n: u64| (n as u32).to_le_bytes().to_vec();
    let far = u32::MAX as u64;
    match part {
        InRecord::Mark => rng.pick(&[[0x4c, 0], [0x4c, 2], [0x4d, 1], [1, 0x4c], [0, 0], [0x4c, 0x32]]).to_vec(),
        InRecord::BodyLength => {
            count(rng.pick(&[0, 7, 8, 11, 12, 13, now - 1, now + 1, now + 2, far, 1 << 31, now + 256]))
        }
        InRecord::Number => rng
            .pick(&[0, now.wrapping_sub(1), now.wrapping_add(1), now ^ (1 << 40), TOP, u64::MAX])
            .to_le_bytes()
            .to_vec(),
        InRecord::Count => count(rng.pick(&[0, 1, now - 1, now + 1, 16, 17, 17, far, now + 256])),
        InRecord::KeyLength => count(rng.pick(&[0, now - 1, now + 1, 24, 25, far, now + 256])),
        InRecord::Key => {
            let mut key = bytes.to_vec();
            let at = rng.below(key.len());
            key[at] = rng.pick(&[&OTHER_BYTES[..], b"!~"].concat());
            key.resize(rng.pick(&[key.len(), key.len(), KEY_MAX, KEY_MAX + 1, 0]), b'k');
            key
        }
        InRecord::Tag => vec![rng.pick(&[0, 1, 2, 128, 255])],
        InRecord::ValueLength => {
            let most = VALUE_MAX as u64;
            count(rng.pick(&[0, now.wrapping_sub(1), now + 1, most, most + 1, far, now + 256]))
        }
        InRecord::Value => vec![rng.draw() as u8; bytes.len() + rng.below(3)],
    }
}
