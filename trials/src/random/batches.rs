//! Random batches: the calls that the run might make next, as records, then maybe damaged.

use super::Gen;
use crate::batch::{Record, Space, Who, RECORDS_MAX};
use crate::call::{call, Call, Reply};
use crate::damage::batches::damaged_batch;
use crate::store::{Bytes, No};

impl Gen {
    /// The calls are drawn by a store that does them, and which is then put back.
    pub(super) fn batch(&mut self) -> Call {
        let (store, begun) = (self.store.clone(), self.starts.len());
        self.batches = false;
        let records = match self.rng.below(30) {
            0 => self.many_records(),
            _ => self.some_records(),
        };
        self.batches = true;
        self.store = store;
        self.starts.truncate(begun);
        self.queue.clear();
        let mut batch = match self.rng.below(3) {
            0 => damaged_batch(&mut self.rng, &records),
            _ => records.iter().flat_map(Record::bytes).collect::<Bytes>(),
        };
        if records.len() == RECORDS_MAX {
            let more = [&[][..], &[0x4c], &[0x4c, 16], &[0x4c, 23], &[0x4c, 23], &[0x4c, 31]];
            batch.extend(self.rng.pick(&more));
        }
        let space = self.rng.pick(&[Space::Full, Space::Full, Space::Full, Space::Full, Space::Short]);
        Call::Batch { batch, space }
    }

    fn some_records(&mut self) -> Vec<Record> {
        let count = self.rng.pick(&[0, 1, 1, 2, 3, 4, 5, 6, 8, 8, 12, 12, 20, 30]);
        let (mut records, mut replies) = (Vec::new(), Vec::new());
        let free = self.desks() - self.opens().len();
        if free < 6 && self.rng.chance(1, 6) {
            self.queue = vec![Call::Begin; free + 1];
        }
        while records.len() < count {
            let next = match self.queue.pop() {
                Some(next) => next,
                None => self.any_call(),
            };
            let next = self.kept_open(next);
            let Some(record) = self.record(next, &records, &replies) else { continue };
            let reply = match &mut self.store {
                Some(store) => call(store, &record.call(&replies)),
                None => Reply::No(No::Plain(1)),
            };
            if let Reply::Begun { start, .. } = reply {
                self.starts.push(start);
            }
            records.push(record);
            replies.push(reply);
        }
        records
    }

    /// The call as the next record of a batch, if there is such a record.
    fn record(&mut self, next: Call, records: &[Record], replies: &[Reply]) -> Option<Record> {
        let record = match next {
            Call::Begin => Record::Begin,
            Call::Read { start, key } | Call::Bytes { start, key } => {
                Record::Read { who: self.who(start, records, replies), key }
            }
            Call::Put { start, key, value } => Record::Put { who: self.who(start, records, replies), key, value },
            Call::Delete { start, key } => Record::Delete { who: self.who(start, records, replies), key },
            Call::Commit { start } => Record::Commit { who: self.who(start, records, replies) },
            Call::Abort { start } => Record::Abort { who: self.who(start, records, replies) },
            Call::Sweep { limit } | Call::Thin { limit } => Record::Sweep { limit },
            _ => return None,
        };
        Some(record)
    }

    /// By its place, if it began in the batch; now and then by that of another, refused or closed as it may be.
    fn who(&mut self, start: u64, records: &[Record], replies: &[Reply]) -> Who {
        let began = |reply: &Reply| matches!(reply, Reply::Begun { start: of, .. } if *of == start);
        let begins: Vec<usize> = (0..records.len()).filter(|place| records[*place] == Record::Begin).collect();
        let refused: Vec<usize> =
            begins.iter().copied().filter(|place| matches!(replies[*place], Reply::No(_))).collect();
        match replies.iter().position(began) {
            _ if !refused.is_empty() && self.rng.chance(1, 8) => Who::Place(self.rng.pick(&refused) as u16),
            Some(place) if self.rng.chance(7, 8) => Who::Place(place as u16),
            _ if !begins.is_empty() && self.rng.chance(1, 4) => Who::Place(self.rng.pick(&begins) as u16),
            _ => Who::Start(start),
        }
    }

    /// As many as a batch takes, one more, or so many that a place has two bytes.
    fn many_records(&mut self) -> Vec<Record> {
        let most = RECORDS_MAX;
        let count = self.rng.pick(&[257, 600, most - 1, most, most, most, most + 1]);
        let keys = self.keys.clone();
        let one = |place: usize, gen: &mut Gen| {
            let who = Who::Place((place - place % 4) as u16);
            match place % 4 {
                0 => Record::Begin,
                1 => Record::Put { who, key: gen.rng.pick(&keys), value: vec![place as u8] },
                2 => match gen.rng.below(32) {
                    0 => Record::Commit { who },
                    1 => Record::Sweep { limit: u64::MAX },
                    _ => Record::Read { who, key: gen.rng.pick(&keys) },
                },
                _ => Record::Abort { who },
            }
        };
        (0..count).map(|place| one(place, self)).collect()
    }
}

#[cfg(test)]
mod tests {
    use super::*;
    use crate::batch::{parse, split};
    use crate::random::Theme;
    use crate::rng::SplitMix64;
    use std::collections::BTreeMap;

    /// What a record met, where its answer does not tell.
    fn corner(record: &Record, records: &[Record], replies: &[Reply], reply: &Reply) -> Option<&'static str> {
        let Some(Who::Place(place)) = record.who() else { return None };
        let refused = |number: u8| *reply == Reply::No(No::Plain(number));
        let begun = matches!(replies[place as usize], Reply::Begun { .. });
        assert_eq!(records[place as usize], Record::Begin);
        match begun {
            false if refused(5) => Some("5 of a begin that was refused"),
            false if refused(3) => Some("3 before 5 of a begin that was refused"),
            false if refused(4) => Some("4 before 5 of a begin that was refused"),
            true if refused(5) => Some("5 of a begin that is closed by then"),
            true if refused(3) => Some("3 of an open begin"),
            true if refused(4) => Some("4 of an open begin"),
            true if place > 255 && *reply == Reply::Done => Some("a place of two bytes"),
            true if place as usize != replies.iter().filter(|reply| matches!(reply, Reply::Begun { .. })).count() => {
                Some("a place that is not the number of begins")
            }
            _ => None,
        }
    }

    /// What a batch is refused for.
    fn fault(batch: &[u8]) -> Option<&'static str> {
        let (records, at, no) = split(batch);
        let rest = &batch[at..];
        let name = match (no?, crate::batch::front(rest)) {
            (19, _) => "a reserved kind",
            _ if records.len() == RECORDS_MAX => "a record too many",
            (_, Ok(_)) => "a place that is no earlier begin",
            _ if rest == [0x4c] => "a lone mark",
            _ if rest[0] != 0x4c => "another mark",
            _ if !(16..=22).contains(&rest[1]) => "no such kind",
            _ if (17..=21).contains(&rest[1]) && rest.get(2).is_some_and(|byte| *byte > 1) => "a byte over 1",
            _ => "cut, or a length past the end",
        };
        Some(name)
    }

    #[test]
    fn every_corner_of_a_batch_is_met() {
        let mut met: BTreeMap<&str, u64> = BTreeMap::new();
        let mut meet = |corner| *met.entry(corner).or_default() += 1;
        for seed in 0..150 {
            let mut gen = Gen::about(Theme::Batches, SplitMix64::new(seed));
            gen.batches = true;
            gen.next_opening();
            for _ in 0..60 {
                let before = gen.store.clone();
                let Call::Batch { batch, space } = gen.next_call() else { continue };
                fault(&batch).into_iter().for_each(&mut meet);
                let (Some(mut store), Ok(records)) = (before, parse(&batch)) else { continue };
                meet(match (records.len(), space) {
                    (0, Space::Full) => "an empty batch",
                    (0, Space::Short) => "an empty batch, short",
                    (RECORDS_MAX, _) => "as many records as a batch takes",
                    (_, Space::Full) => "a batch",
                    (_, Space::Short) => "a short output",
                });
                let mut replies = Vec::new();
                for record in &records {
                    let reply = call(&mut store, &record.call(&replies));
                    corner(record, &records, &replies, &reply).into_iter().for_each(&mut meet);
                    replies.push(reply);
                }
                let refused = replies.iter().position(|reply| matches!(reply, Reply::No(_)));
                if refused.is_some_and(|place| place + 1 < replies.len()) {
                    meet("a refusal before the last record");
                }
            }
        }
        println!("{met:?}");
        assert_eq!(met.len(), 22, "{met:?}");
        assert!(met.values().all(|times| *times >= 3), "{met:?}");
    }
}
