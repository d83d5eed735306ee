//! A batch: calls as records, parsed whole before the first of them is done. Their answers as values, and as the bytes
//! that an output of the caller's gets.

use crate::call::{number as refusal_number, Call, Reply};
use crate::journal::{number, take};
use crate::layout::KEY_CELL;
use crate::store::{Bytes, Kind, No, Store, VALUE_MAX, WRITES_MAX};

pub const RECORDS_MAX: usize = 4_096;

const MARK: u8 = 0x4c;
const MALFORMED: u8 = 18;
const RESERVED: u8 = 19;

/// Of each answer: two numbers, a refusal and a flag.
const HEAD: usize = 8 + 8 + 1 + 1;
const CLASH: usize = 8 + KEY_CELL;

/// The transaction that a record names: by its start, or by the place of its begin in the batch.
#[derive(Clone, Copy, PartialEq, Eq, Debug)]
pub enum Who {
    Start(u64),
    Place(u16),
}

#[derive(Clone, PartialEq, Eq, Debug)]
pub enum Record {
    Begin,
    Read { who: Who, key: Bytes },
    Put { who: Who, key: Bytes, value: Bytes },
    Delete { who: Who, key: Bytes },
    Commit { who: Who },
    Abort { who: Who },
    Sweep { limit: u64 },
}

/// How much space for the answers is lent: what they need, or one byte less.
#[derive(Clone, Copy, PartialEq, Eq, Debug)]
pub enum Space {
    Full,
    Short,
}

impl Space {
    pub fn name(self) -> &'static str {
        match self {
            Space::Full => "full",
            Space::Short => "short",
        }
    }

    pub fn room(self, batch: &[u8]) -> u64 {
        let needed = parse(batch).map_or(0, |records| answers_length(&records) as u64);
        match self {
            Space::Full => needed,
            Space::Short => needed.saturating_sub(1),
        }
    }
}

fn take_who(left: &mut &[u8]) -> Option<Who> {
    match take(left, 1)? {
        [0] => Some(Who::Start(number(take(left, 8)?))),
        [1] => Some(Who::Place(number(take(left, 2)?) as u16)),
        _ => None,
    }
}

/// A key or a value of any length.
fn take_bytes(left: &mut &[u8]) -> Option<Bytes> {
    let length = number(take(left, 4)?);
    take(left, length).map(<[u8]>::to_vec)
}

fn take_operands(kind: u8, left: &mut &[u8]) -> Option<Record> {
    let record = match kind {
        16 => Record::Begin,
        17 => Record::Read { who: take_who(left)?, key: take_bytes(left)? },
        18 => Record::Put { who: take_who(left)?, key: take_bytes(left)?, value: take_bytes(left)? },
        19 => Record::Delete { who: take_who(left)?, key: take_bytes(left)? },
        20 => Record::Commit { who: take_who(left)? },
        21 => Record::Abort { who: take_who(left)? },
        22 => Record::Sweep { limit: number(take(left, 8)?) },
        _ => return None,
    };
    Some(record)
}

/// The record in front of these bytes, whatever place it names, and its length; or why there is none.
pub fn front(bytes: &[u8]) -> Result<(Record, usize), u8> {
    let kind = match bytes {
        [MARK, 23..=31, ..] => return Err(RESERVED),
        [MARK, kind, ..] => *kind,
        _ => return Err(MALFORMED),
    };
    let mut left = &bytes[2..];
    let record = take_operands(kind, &mut left).ok_or(MALFORMED)?;
    Ok((record, bytes.len() - left.len()))
}

/// The records before the first that is refused, where they end, and that refusal.
pub fn split(batch: &[u8]) -> (Vec<Record>, usize, Option<u8>) {
    let (mut records, mut at) = (Vec::new(), 0);
    while at < batch.len() {
        if records.len() == RECORDS_MAX {
            return (records, at, Some(MALFORMED));
        }
        match front(&batch[at..]) {
            Ok((record, length)) if record.names_a_begin_of(&records) => {
                records.push(record);
                at += length;
            }
            Ok(_) => return (records, at, Some(MALFORMED)),
            Err(no) => return (records, at, Some(no)),
        }
    }
    (records, at, None)
}

pub fn parse(batch: &[u8]) -> Result<Vec<Record>, No> {
    match split(batch) {
        (records, _, None) => Ok(records),
        (_, at, Some(no)) => Err(No::At { no, offset: at as u64 }),
    }
}

/// Does the batch's calls, each by `each`, if there is room for the answers.
pub fn run(
    store: &mut Store,
    batch: &[u8],
    room: u64,
    mut each: impl FnMut(&mut Store, &Call) -> Reply,
) -> Result<Vec<Reply>, No> {
    let records = parse(batch)?;
    if room < answers_length(&records) as u64 {
        return Err(No::Plain(12));
    }
    let mut replies = Vec::new();
    for record in &records {
        let next = record.call(&replies);
        replies.push(each(store, &next));
    }
    Ok(replies)
}

impl Who {
    /// Its start, after these replies. A begin that was refused has none: that is 0, which no transaction has.
    pub fn start(self, replies: &[Reply]) -> u64 {
        match self {
            Who::Start(start) => start,
            Who::Place(place) => match replies[place as usize] {
                Reply::Begun { start, .. } => start,
                _ => 0,
            },
        }
    }

    pub fn bytes(self) -> Bytes {
        match self {
            Who::Start(start) => [&[0][..], &start.to_le_bytes()].concat(),
            Who::Place(place) => [&[1][..], &place.to_le_bytes()].concat(),
        }
    }
}

/// Behind its length.
fn measured(bytes: &[u8]) -> Bytes {
    [&(bytes.len() as u32).to_le_bytes(), bytes].concat()
}

impl Record {
    pub fn kind(&self) -> u8 {
        match self {
            Record::Begin => 16,
            Record::Read { .. } => 17,
            Record::Put { .. } => 18,
            Record::Delete { .. } => 19,
            Record::Commit { .. } => 20,
            Record::Abort { .. } => 21,
            Record::Sweep { .. } => 22,
        }
    }

    pub fn who(&self) -> Option<Who> {
        match self {
            Record::Begin | Record::Sweep { .. } => None,
            Record::Read { who, .. } | Record::Put { who, .. } | Record::Delete { who, .. } => Some(*who),
            Record::Commit { who } | Record::Abort { who } => Some(*who),
        }
    }

    /// The same of another transaction.
    pub fn with_who(mut self, now: Who) -> Record {
        match &mut self {
            Record::Begin | Record::Sweep { .. } => {}
            Record::Read { who, .. } | Record::Put { who, .. } | Record::Delete { who, .. } => *who = now,
            Record::Commit { who } | Record::Abort { who } => *who = now,
        }
        self
    }

    fn names_a_begin_of(&self, before: &[Record]) -> bool {
        match self.who() {
            Some(Who::Place(place)) => before.get(place as usize) == Some(&Record::Begin),
            _ => true,
        }
    }

    pub fn bytes(&self) -> Bytes {
        let who = self.who().map_or(Vec::new(), Who::bytes);
        let rest = match self {
            Record::Read { key, .. } | Record::Delete { key, .. } => measured(key),
            Record::Put { key, value, .. } => [measured(key), measured(value)].concat(),
            Record::Sweep { limit } => limit.to_le_bytes().to_vec(),
            _ => Vec::new(),
        };
        [&[MARK, self.kind()][..], &who, &rest].concat()
    }

    /// The single call, after these replies to the records before it.
    pub fn call(&self, replies: &[Reply]) -> Call {
        let start = self.who().map_or(0, |who| who.start(replies));
        match self.clone() {
            Record::Begin => Call::Begin,
            Record::Read { key, .. } => Call::Read { start, key },
            Record::Put { key, value, .. } => Call::Put { start, key, value },
            Record::Delete { key, .. } => Call::Delete { start, key },
            Record::Commit { .. } => Call::Commit { start },
            Record::Abort { .. } => Call::Abort { start },
            Record::Sweep { limit } => Call::Sweep { limit },
        }
    }

    /// What its answer has behind all heads.
    fn detail_length(&self) -> usize {
        match self {
            Record::Read { .. } => 4 + VALUE_MAX,
            Record::Commit { .. } => WRITES_MAX * CLASH,
            _ => 0,
        }
    }

    fn detail(&self, reply: &Reply) -> Bytes {
        let mut bytes = match (self, reply) {
            (Record::Read { .. }, Reply::Found { bytes, .. }) => measured(bytes),
            (_, Reply::No(No::Conflict(keys))) => keys.iter().flat_map(|(key, number)| clash(key, *number)).collect(),
            _ => Vec::new(),
        };
        bytes.resize(self.detail_length(), 0);
        bytes
    }
}

/// A key that clashes: its newest number, its length, its bytes.
fn clash(key: &[u8], newest: u64) -> Bytes {
    let mut bytes = [&newest.to_le_bytes()[..], &[key.len() as u8], key].concat();
    bytes.resize(CLASH, 0);
    bytes
}

fn head(reply: &Reply) -> Bytes {
    let (first, second, refusal, flag) = match reply {
        Reply::No(No::Conflict(keys)) => (keys.len() as u64, 0, 9, 0),
        Reply::No(no) => (0, 0, refusal_number(no), 0),
        Reply::Done => (0, 0, 0, 0),
        Reply::Begun { start, desk } => (*start, *desk as u64, 0, 0),
        Reply::Found { kind: Kind::Nothing, .. } => (0, 0, 0, 0),
        Reply::Found { kind: Kind::Own, .. } => (0, 0, 0, 1),
        Reply::Found { kind: Kind::Hall, .. } => (0, 0, 0, 2),
        Reply::Committed(number) => (*number, 0, 0, 0),
        Reply::Closed => (0, 0, 0, 1),
        Reply::Swept { cutoff, dropped } => (*cutoff, *dropped, 0, 0),
        other => unreachable!("no record is answered {other:?}"),
    };
    [&first.to_le_bytes()[..], &second.to_le_bytes(), &[refusal, flag]].concat()
}

/// By the kinds of the records alone.
pub fn answers_length(records: &[Record]) -> usize {
    records.iter().map(|record| HEAD + record.detail_length()).sum()
}

/// The answers' bytes: a head for each record, then what reads and commits have besides, in the records' order.
pub fn answers(records: &[Record], replies: &[Reply]) -> Bytes {
    let heads = replies.iter().flat_map(head);
    let details = records.iter().zip(replies).flat_map(|(record, reply)| record.detail(reply));
    heads.chain(details).collect()
}

#[cfg(test)]
mod tests {
    use super::*;
    use crate::call::call;
    use crate::random::{Gen, Theme};
    use crate::rng::SplitMix64;
    use crate::store::Sizes;

    fn hex(text: &str) -> Bytes {
        text.split_whitespace().map(|pair| u8::from_str_radix(pair, 16).unwrap()).collect()
    }

    fn new_store(desks: u64) -> Store {
        Store::make(Sizes::new(4, 8, desks)).unwrap()
    }

    fn done(store: &mut Store, batch: &[u8]) -> Result<Vec<Reply>, No> {
        run(store, batch, u64::MAX, call)
    }

    fn at(no: u8, offset: u64) -> Result<Vec<Record>, No> {
        Err(No::At { no, offset })
    }

    fn begun(start: u64, desk: usize) -> Reply {
        Reply::Begun { start, desk }
    }

    fn no(number: u8) -> Reply {
        Reply::No(No::Plain(number))
    }

    const BEGIN: &str = "4C 10 ";
    const READ_0: &str = "4C 11 01 00 00 02 00 00 00 41 31 ";
    const PUT_0: &str = "4C 12 01 00 00 02 00 00 00 41 31 01 00 00 00 07 ";
    const DELETE_0: &str = "4C 13 01 00 00 02 00 00 00 41 31 ";
    const COMMIT_0: &str = "4C 14 01 00 00 ";
    const ABORT_0: &str = "4C 15 01 00 00 ";
    const SWEEP: &str = "4C 16 FF FF FF FF FF FF FF FF ";

    #[test]
    fn one_of_each_kind() {
        let text = [BEGIN, READ_0, PUT_0, DELETE_0, COMMIT_0, ABORT_0, SWEEP].concat();
        let (who, key) = (Who::Place(0), b"A1".to_vec());
        let records = vec![
            Record::Begin,
            Record::Read { who, key: key.clone() },
            Record::Put { who, key: key.clone(), value: vec![7] },
            Record::Delete { who, key },
            Record::Commit { who },
            Record::Abort { who },
            Record::Sweep { limit: u64::MAX },
        ];
        assert_eq!(parse(&hex(&text)), Ok(records.clone()));
        assert_eq!(records.iter().flat_map(Record::bytes).collect::<Bytes>(), hex(&text));
        let by_start = hex("4C 15 00 08 07 06 05 04 03 02 01");
        let record = Record::Abort { who: Who::Start(0x0102_0304_0506_0708) };
        assert_eq!((record.bytes(), parse(&by_start)), (by_start, Ok(vec![record])));
    }

    #[test]
    fn places_and_starts() {
        let mut s = new_store(2);
        s.begin().unwrap();
        // The second begin is at place 2; a third finds no desk.
        let text = [
            "4C 15 00 01 00 00 00 00 00 00 00 4C 16 00 00 00 00 00 00 00 00 ",
            "4C 10 4C 12 01 02 00 01 00 00 00 41 00 00 00 00 ",
            "4C 10 4C 10 4C 15 01 05 00 4C 11 01 05 00 00 00 00 00 4C 11 00 02 00 00 00 00 00 00 00 01 00 00 00 41 ",
            "4C 14 01 02 00 4C 14 01 02 00",
        ]
        .concat();
        let own = Reply::Found { kind: Kind::Own, bytes: Vec::new() };
        let swept = Reply::Swept { cutoff: 0, dropped: 0 };
        assert_eq!(
            done(&mut s, &hex(&text)),
            Ok(vec![
                Reply::Done,
                swept,
                begun(2, 0),
                Reply::Done,
                begun(3, 1),
                no(6),
                no(5),
                no(3),
                own,
                Reply::Committed(4),
                no(5),
            ])
        );
        assert_eq!(s.counts(), (1, 1, 1));
    }

    #[test]
    fn an_empty_batch() {
        let mut s = new_store(1);
        assert_eq!(done(&mut s, b""), Ok(Vec::new()));
        assert_eq!(run(&mut s, b"", Space::Short.room(b""), call), Ok(Vec::new()));
        assert_eq!(s, new_store(1));
    }

    /// A record is read again after a sweep that dropped what it saw: what it read is not lost.
    #[test]
    fn a_read_keeps_its_bytes() {
        let mut s = new_store(2);
        let first = [BEGIN, PUT_0, COMMIT_0, BEGIN].concat();
        assert_eq!(done(&mut s, &hex(&first)), Ok(vec![begun(1, 0), Reply::Done, Reply::Committed(2), begun(3, 0)]));
        let reads = "4C 11 00 03 00 00 00 00 00 00 00 02 00 00 00 41 31 4C 15 00 03 00 00 00 00 00 00 00 ";
        let text = [reads, BEGIN, &DELETE_0.replace("01 00 00", "01 02 00"), "4C 14 01 02 00 ", SWEEP].concat();
        let hall = Reply::Found { kind: Kind::Hall, bytes: vec![7] };
        let swept = Reply::Swept { cutoff: 5, dropped: 2 };
        assert_eq!(
            done(&mut s, &hex(&text)),
            Ok(vec![hall, Reply::Done, begun(4, 0), Reply::Done, Reply::Committed(5), swept])
        );
    }

    #[test]
    fn every_cut_of_a_batch() {
        let parts = [BEGIN, READ_0, PUT_0, DELETE_0, COMMIT_0, ABORT_0, SWEEP].map(hex);
        let ends: Vec<usize> = (0..=7).map(|count| parts[..count].concat().len()).collect();
        let batch = parts.concat();
        for cut in 0..=batch.len() {
            let whole = ends.iter().rposition(|end| *end <= cut).unwrap();
            let answer = match ends[whole] == cut {
                true => parse(&parts[..whole].concat()),
                false => at(18, ends[whole] as u64),
            };
            assert_eq!(parse(&batch[..cut]), answer, "cut after {cut}");
            assert_eq!(answer.is_ok(), ends.contains(&cut));
        }
    }

    #[test]
    fn every_kind() {
        for kind in 0..=255 {
            // Begins alone have no operands.
            let answer = match kind {
                16 => Ok(vec![Record::Begin, Record::Begin]),
                23..=31 => at(19, 2),
                _ => at(18, 2),
            };
            assert_eq!(parse(&[0x4c, 16, 0x4c, kind]), answer);
            assert_eq!(parse(&[0x4c, 16, 0x4d, kind]), at(18, 2));
            assert_eq!(parse(&[0x4c, 16, kind]), at(18, 2));
        }
    }

    #[test]
    fn faults_of_a_record() {
        for (text, answer) in [
            // A byte over 1, a place of itself, of a later begin, of no begin, of none.
            ("4C 10 4C 14 02 00 00", at(18, 2)),
            ("4C 10 4C 14 FF 00 00 00 00 00 00 00 00", at(18, 2)),
            ("4C 10 4C 14 01 01 00", at(18, 2)),
            ("4C 14 01 00 00 4C 10", at(18, 0)),
            ("4C 14 01 01 00 4C 10", at(18, 0)),
            ("4C 10 4C 15 01 00 00 4C 15 01 01 00", at(18, 7)),
            ("4C 10 4C 14 01 00 01", at(18, 2)),
            ("4C 10 4C 14 01 FF FF", at(18, 2)),
            // Lengths past the end, of which the first would be 3 and the second 4.
            ("4C 10 4C 11 01 00 00 FF FF FF FF 41", at(18, 2)),
            ("4C 10 4C 12 01 00 00 01 00 00 00 41 61 00 00 00 07", at(18, 2)),
            ("4C 10 4C 11 01 00 00 03 00 00 00 41 31", at(18, 2)),
            // Whichever stands first, whatever stands behind.
            ("4C 10 4C 17 4C 14 02", at(19, 2)),
            ("4C 10 4C 14 02 4C 17", at(18, 2)),
            ("4C 1F", at(19, 0)),
            ("4C 20", at(18, 0)),
            ("4C 0F", at(18, 0)),
            ("4C", at(18, 0)),
            ("17", at(18, 0)),
            ("4C 10 4C", at(18, 2)),
            ("4C 10 17 4C", at(18, 2)),
        ] {
            assert_eq!(parse(&hex(text)), answer, "{text}");
            let mut s = new_store(2);
            assert_eq!(run(&mut s, &hex(text), 0, call).map(drop), answer.map(drop));
            assert_eq!(s, new_store(2));
        }
    }

    /// As singly: 3 before 4 before 5, and that of a begin that found no desk too.
    #[test]
    fn lengths_out_of_range() {
        let (key, value) = (vec![b'k'; 25], vec![7; 97]);
        let put = |who, key: &[u8], value: &[u8]| Record::Put { who, key: key.to_vec(), value: value.to_vec() };
        for who in [Who::Place(0), Who::Place(1), Who::Start(9)] {
            let records = [
                Record::Begin,
                Record::Begin,
                put(who, &key, &value),
                put(who, b"", &value),
                put(who, b" ", &value),
                put(who, b"A1", &value),
                put(who, b"A1", &value[..96]),
                Record::Read { who, key: key.clone() },
                Record::Delete { who, key: Vec::new() },
                Record::Delete { who, key: b"A1".to_vec() },
            ];
            let batch: Bytes = records.iter().flat_map(Record::bytes).collect();
            let last = || if who == Who::Place(0) { Reply::Done } else { no(5) };
            let replies = done(&mut new_store(1), &batch).unwrap();
            assert_eq!(replies[..2], [begun(1, 0), no(6)]);
            assert_eq!(replies[2..], [no(3), no(3), no(3), no(4), last(), no(3), no(3), last()]);
        }
    }

    #[test]
    fn records_4096_and_4097() {
        let mut s = new_store(64);
        let most = [0x4c, 16].repeat(4_096);
        assert_eq!(parse(&most).map(|records| records.len()), Ok(4_096));
        for more in [&[0x4c, 16][..], &[0x4c, 23], &[0x4c], &[0], &[0x4c, 20]] {
            assert_eq!(parse(&[&most[..], more].concat()), at(18, 8_192));
        }
        let replies = done(&mut s, &most).unwrap();
        assert_eq!((replies.len(), &replies[63], &replies[64], s.counter), (4_096, &begun(64, 63), &no(6), 64));
        // A place of two bytes.
        let pair = |place: u16| [Record::Begin, Record::Abort { who: Who::Place(place) }];
        let pairs: Bytes = (0..2_048).flat_map(|i| pair(2 * i)).flat_map(|record| record.bytes()).collect();
        let replies = done(&mut new_store(1), &pairs).unwrap();
        assert_eq!(replies[4_094..], [begun(2_048, 0), Reply::Done]);
    }

    #[test]
    fn space_for_the_answers() {
        let batch = hex(&[BEGIN, READ_0, PUT_0, DELETE_0, COMMIT_0, ABORT_0, SWEEP].concat());
        let needed = 7 * 18 + 100 + 528;
        assert_eq!((Space::Full.room(&batch), Space::Short.room(&batch)), (needed, needed - 1));
        let mut s = new_store(1);
        assert_eq!(run(&mut s, &batch, needed - 1, call), Err(No::Plain(12)));
        assert_eq!(s, new_store(1));
        assert!(run(&mut s, &batch, needed, call).is_ok());
        let length = |text: &str| answers_length(&parse(&hex(text)).unwrap());
        assert_eq!([BEGIN, SWEEP, ""].map(length), [18, 18, 0]);
    }

    #[test]
    fn the_answers_bytes() {
        let mut s = new_store(2);
        let text = [
            "4C 10 4C 10 4C 12 01 00 00 01 00 00 00 42 00 00 00 00 4C 14 01 00 00 ",
            "4C 12 01 01 00 01 00 00 00 42 02 00 00 00 08 09 4C 13 01 01 00 02 00 00 00 41 31 ",
            "4C 11 01 01 00 01 00 00 00 42 4C 14 01 01 00 4C 10 ",
            "4C 11 01 08 00 01 00 00 00 42 4C 11 01 08 00 00 00 00 00 ",
            "4C 16 09 00 00 00 00 00 00 00 4C 14 01 08 00 4C 15 01 08 00",
        ]
        .concat();
        let records = parse(&hex(&text)).unwrap();
        let replies = done(&mut s, &hex(&text)).unwrap();
        let found = answers(&records, &replies);
        assert_eq!(found.len(), answers_length(&records));
        let head = |first: u8, second: u8, refusal: u8, flag: u8| {
            let mut bytes = vec![0; 18];
            (bytes[0], bytes[8], bytes[16], bytes[17]) = (first, second, refusal, flag);
            bytes
        };
        let heads = [
            head(1, 0, 0, 0),
            head(2, 1, 0, 0),
            head(0, 0, 0, 0),
            head(3, 0, 0, 0),
            head(0, 0, 0, 0),
            head(0, 0, 0, 0),
            head(0, 0, 0, 1),
            head(1, 0, 9, 0),
            head(4, 0, 0, 0),
            head(0, 0, 0, 2),
            head(0, 0, 3, 0),
            head(4, 0, 0, 0),
            head(0, 0, 0, 1),
            head(0, 0, 5, 0),
        ];
        assert_eq!(found[..14 * 18], heads.concat());
        let padded = |front: &str, length: usize| {
            let mut bytes = hex(front);
            bytes.resize(length, 0);
            bytes
        };
        let details = [
            padded("", 528),
            padded("02 00 00 00 08 09", 100),
            padded("03 00 00 00 00 00 00 00 01 42", 528),
            padded("", 100),
            padded("", 100),
            padded("", 528),
        ];
        assert_eq!(found[14 * 18..], details.concat());
    }

    /// The reply to a record, by its head and its detail.
    fn told(record: &Record, head: &[u8], detail: &[u8]) -> Reply {
        let (first, second) = (number(&head[..8]), number(&head[8..16]));
        let key = |clash: &[u8]| clash[9..9 + clash[8] as usize].to_vec();
        match (record, head[16], head[17]) {
            (_, 9, _) => {
                let clashes = detail.chunks(33).take(first as usize);
                Reply::No(No::Conflict(clashes.map(|clash| (key(clash), number(&clash[..8]))).collect()))
            }
            (_, refusal @ 1.., _) => no(refusal),
            (Record::Begin, ..) => begun(first, second as usize),
            (Record::Read { .. }, _, flag) => {
                let kind = [Kind::Nothing, Kind::Own, Kind::Hall][flag as usize];
                Reply::Found { kind, bytes: detail[4..4 + number(&detail[..4]) as usize].to_vec() }
            }
            (Record::Commit { .. }, _, 0) => Reply::Committed(first),
            (Record::Commit { .. }, ..) => Reply::Closed,
            (Record::Sweep { .. }, ..) => Reply::Swept { cutoff: first, dropped: second },
            _ => Reply::Done,
        }
    }

    /// Of random batches the bytes say all that the values say.
    #[test]
    fn the_bytes_tell_the_answers() {
        let mut told_of = 0;
        for seed in 0..40 {
            let mut gen = Gen::about(Theme::Batches, SplitMix64::new(seed));
            gen.batches = true;
            gen.next_opening();
            for _ in 0..40 {
                let before = gen.store.clone();
                let Call::Batch { batch, .. } = gen.next_call() else { continue };
                let (Some(mut store), Ok(records)) = (before, parse(&batch)) else { continue };
                let replies = done(&mut store, &batch).unwrap();
                let bytes = answers(&records, &replies);
                assert_eq!(bytes.len(), answers_length(&records));
                let (heads, mut details) = bytes.split_at(18 * records.len());
                for (place, record) in records.iter().enumerate() {
                    let (detail, rest) = details.split_at(record.detail_length());
                    assert_eq!(
                        told(record, &heads[18 * place..18 * place + 18], detail),
                        replies[place],
                        "seed {seed}"
                    );
                    details = rest;
                    told_of += 1;
                }
            }
        }
        assert!(told_of > 2_000, "{told_of}");
    }

    /// Sixteen keys that clash fill their part of the answer.
    #[test]
    fn all_clashes_have_room() {
        let mut s = Store::make(Sizes::new(16, 40, 2)).unwrap();
        let put = |place: u16, i: u8| Record::Put {
            who: Who::Place(place),
            key: [&[b'k'; 23][..], &[b'a' + i]].concat(),
            value: vec![i],
        };
        let mut records = vec![Record::Begin, Record::Begin];
        for place in [0, 1] {
            records.extend((0..16).map(|i| put(place, i)));
            records.push(Record::Commit { who: Who::Place(place) });
        }
        let batch: Bytes = records.iter().flat_map(Record::bytes).collect();
        let replies = done(&mut s, &batch).unwrap();
        let found = answers(&records, &replies);
        assert_eq!(found.len(), 36 * 18 + 2 * 528);
        let one = |i: u8| [&[3, 0, 0, 0, 0, 0, 0, 0, 24][..], &[b'k'; 23], &[b'a' + i]].concat();
        assert_eq!(found[36 * 18 + 528..], (0..16).flat_map(one).collect::<Bytes>());
        assert_eq!(found[35 * 18..36 * 18], hex("10 00 00 00 00 00 00 00 00 00 00 00 00 00 00 00 09 00"));
    }
}
