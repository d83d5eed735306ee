//! The store of docs/RULES.md as plain maps and vectors: the state, the calls on it and their refusals, with no
//! byte layout at all. Nothing here is taken from the proved side. There are no lent memories, so refusal 1 and
//! the memory half of refusal 2 cannot arise in this file.

use crate::journal::{front, Commit, Front, HEAD};
use std::collections::{BTreeMap, BTreeSet};
use std::ops::RangeInclusive;

pub const KEY_MAX: usize = 24;
/// A key's bytes are letters, digits and signs of ASCII: no space, nothing that does not show.
pub const KEY_BYTES: RangeInclusive<u8> = 33..=126;
pub const VALUE_MAX: usize = 96;
pub const KEY_ROOMS_MAX: u64 = 1_024;
pub const VERSION_ROOMS_MAX: u64 = 65_536;
pub const DESKS_MAX: u64 = 64;
pub const WRITES_MAX: usize = 16;
/// The highest refusal.
pub const LAST_REFUSAL: usize = 19;
/// The highest number ever issued.
pub const TOP: u64 = u64::MAX - 1;

pub type Bytes = Vec<u8>;
/// What a write or a version holds: `None` is a deletion, `Some` of no bytes is an empty value.
pub type Content = Option<Bytes>;
pub type Writes = BTreeMap<Bytes, Content>;

#[derive(Clone, PartialEq, Eq, Debug)]
pub struct Version {
    pub number: u64,
    pub content: Content,
}

#[derive(Clone, PartialEq, Eq, Debug)]
pub struct Desk {
    pub start: u64,
    pub writes: Writes,
}

/// What make and load are given, as whole 64-bit numbers.
#[derive(Clone, Copy, PartialEq, Eq, Debug)]
pub struct Sizes {
    pub key_rooms: u64,
    pub version_rooms: u64,
    pub desks: u64,
}

#[derive(Clone, PartialEq, Eq, Debug)]
pub struct Store {
    pub sizes: Sizes,
    pub counter: u64,
    /// Below it versions may have been swept: the past is not told there.
    pub floor: u64,
    /// Versions by ascending number, never an empty list. `Vec<u8>` compares as 01 asks: by bytes, a proper
    /// prefix first.
    pub keys: BTreeMap<Bytes, Vec<Version>>,
    /// As long as the sizes say.
    pub desks: Vec<Option<Desk>>,
}

#[derive(Clone, PartialEq, Eq, Debug)]
pub enum No {
    /// Every refusal that answers its number alone.
    Plain(u8),
    /// 9: every key that clashes, with its newest number, by ascending key.
    Conflict(Vec<(Bytes, u64)>),
    /// 13, 14 or 15 of a dump; 14, 10 or 11 of a journal's record; 18 or 19 of a batch's.
    At { no: u8, offset: u64 },
}

#[derive(Clone, Copy, PartialEq, Eq, Debug)]
pub enum Kind {
    Own,
    Hall,
    Nothing,
}

#[derive(Clone, PartialEq, Eq, Debug)]
pub enum Committed {
    Number(u64),
    /// There were no writes, so no number.
    Closed,
}

fn refuse<T>(number: u8) -> Result<T, No> {
    Err(No::Plain(number))
}

impl Sizes {
    pub const fn new(key_rooms: u64, version_rooms: u64, desks: u64) -> Sizes {
        Sizes { key_rooms, version_rooms, desks }
    }

    pub fn allowed(&self) -> bool {
        (1..=KEY_ROOMS_MAX).contains(&self.key_rooms)
            && (1..=VERSION_ROOMS_MAX).contains(&self.version_rooms)
            && (1..=DESKS_MAX).contains(&self.desks)
    }
}

fn printable(key: &[u8]) -> bool {
    key.iter().all(|byte| KEY_BYTES.contains(byte))
}

pub fn key_allowed(key: &[u8]) -> bool {
    (1..=KEY_MAX).contains(&key.len()) && printable(key)
}

fn content_allowed(content: &Content) -> bool {
    content.iter().all(|value| value.len() <= VALUE_MAX)
}

/// The kind and the bytes of what was found, where `held` is the kind of a value.
fn shown(held: Kind, content: Option<&Content>) -> (Kind, &[u8]) {
    match content {
        Some(Some(bytes)) => (held, bytes),
        Some(None) | None => (Kind::Nothing, &[]),
    }
}

impl Store {
    pub fn make(sizes: Sizes) -> Result<Store, No> {
        if !sizes.allowed() {
            return refuse(2);
        }
        let desks = vec![None; sizes.desks as usize];
        Ok(Store { sizes, counter: 0, floor: 0, keys: BTreeMap::new(), desks })
    }

    /// Whether the hall's part of the state keeps 01's "Sound memory". Keys ascend by what `keys` is.
    pub fn hall_is_sound(&self) -> bool {
        self.sizes.allowed()
            && self.counter <= TOP
            && self.floor <= self.counter
            && self.keys.len() as u64 <= self.sizes.key_rooms
            && self.versions_held() <= self.sizes.version_rooms
            && self.keys.iter().all(|(key, versions)| {
                let numbers = || versions.iter().map(|v| v.number);
                key_allowed(key)
                    && !versions.is_empty()
                    && numbers().all(|number| (1..=self.counter).contains(&number))
                    && numbers().zip(numbers().skip(1)).all(|(one, next)| one < next)
                    && versions.iter().all(|v| content_allowed(&v.content))
            })
    }

    /// The same of desks beside this hall.
    pub fn desks_are_sound(&self, desks: &[Option<Desk>]) -> bool {
        let mut taken: BTreeSet<u64> = self.keys.values().flatten().map(|v| v.number).collect();
        desks.len() as u64 == self.sizes.desks
            && desks.iter().flatten().all(|desk| {
                (1..=self.counter).contains(&desk.start)
                    && taken.insert(desk.start)
                    && desk.writes.len() <= WRITES_MAX
                    && desk.writes.iter().all(|(key, content)| key_allowed(key) && content_allowed(content))
            })
    }

    fn desk_of(&self, start: u64) -> Option<usize> {
        self.desks.iter().position(|d| d.as_ref().is_some_and(|d| d.start == start))
    }

    pub fn versions_held(&self) -> u64 {
        self.keys.values().map(|versions| versions.len() as u64).sum()
    }

    /// Answers start and desk.
    pub fn begin(&mut self) -> Result<(u64, usize), No> {
        let Some(free) = self.desks.iter().position(Option::is_none) else { return refuse(6) };
        if self.counter == TOP {
            return refuse(8);
        }
        self.counter += 1;
        self.desks[free] = Some(Desk { start: self.counter, writes: Writes::new() });
        Ok((self.counter, free))
    }

    fn look(&self, start: u64, key: &[u8]) -> Result<(Kind, &[u8]), No> {
        if !key_allowed(key) {
            return refuse(3);
        }
        let Some(at) = self.desk_of(start) else { return refuse(5) };
        if let Some(own) = self.desks[at].as_ref().unwrap().writes.get(key) {
            return Ok(shown(Kind::Own, Some(own)));
        }
        let seen = self.keys.get(key).and_then(|vs| vs.iter().rev().find(|v| v.number <= start));
        Ok(shown(Kind::Hall, seen.map(|v| &v.content)))
    }

    pub fn read_kind(&self, start: u64, key: &[u8]) -> Result<Kind, No> {
        self.look(start, key).map(|(kind, _)| kind)
    }

    pub fn read_bytes(&self, start: u64, key: &[u8]) -> Bytes {
        self.look(start, key).map_or(Vec::new(), |(_, bytes)| bytes.to_vec())
    }

    fn look_newest(&self, key: &[u8]) -> Result<(Kind, &[u8]), No> {
        if !key_allowed(key) {
            return refuse(3);
        }
        let last = self.keys.get(key).and_then(|vs| vs.last());
        Ok(shown(Kind::Hall, last.map(|v| &v.content)))
    }

    pub fn newest_kind(&self, key: &[u8]) -> Result<Kind, No> {
        self.look_newest(key).map(|(kind, _)| kind)
    }

    pub fn newest_bytes(&self, key: &[u8]) -> Bytes {
        self.look_newest(key).map_or(Vec::new(), |(_, bytes)| bytes.to_vec())
    }

    fn look_as_of(&self, number: u64, key: &[u8]) -> Result<(Kind, &[u8]), No> {
        if !key_allowed(key) {
            return refuse(3);
        }
        if !(self.floor..=self.counter).contains(&number) {
            return refuse(16);
        }
        let stood = self.keys.get(key).and_then(|vs| vs.iter().rev().find(|v| v.number <= number));
        Ok(shown(Kind::Hall, stood.map(|v| &v.content)))
    }

    pub fn as_of_kind(&self, number: u64, key: &[u8]) -> Result<Kind, No> {
        self.look_as_of(number, key).map(|(kind, _)| kind)
    }

    pub fn as_of_bytes(&self, number: u64, key: &[u8]) -> Bytes {
        self.look_as_of(number, key).map_or(Vec::new(), |(_, bytes)| bytes.to_vec())
    }

    fn write(&mut self, start: u64, key: &[u8], content: Content) -> Result<(), No> {
        if !key_allowed(key) {
            return refuse(3);
        }
        if !content_allowed(&content) {
            return refuse(4);
        }
        let Some(at) = self.desk_of(start) else { return refuse(5) };
        let writes = &mut self.desks[at].as_mut().unwrap().writes;
        if writes.len() == WRITES_MAX && !writes.contains_key(key) {
            return refuse(7);
        }
        writes.insert(key.to_vec(), content);
        Ok(())
    }

    pub fn put(&mut self, start: u64, key: &[u8], value: &[u8]) -> Result<(), No> {
        self.write(start, key, Some(value.to_vec()))
    }

    pub fn delete(&mut self, start: u64, key: &[u8]) -> Result<(), No> {
        self.write(start, key, None)
    }

    pub fn commit(&mut self, start: u64) -> Result<Committed, No> {
        self.settle(start, None).map(|(committed, _)| committed)
    }

    /// A commit that also hands back its record, if an output of so many bytes has room for it.
    pub fn commit_to(&mut self, start: u64, room: u64) -> Result<(Committed, Bytes), No> {
        self.settle(start, Some(room))
    }

    fn settle(&mut self, start: u64, room: Option<u64>) -> Result<(Committed, Bytes), No> {
        let Some(at) = self.desk_of(start) else { return refuse(5) };
        let writes = self.desks[at].as_ref().unwrap().writes.clone();
        if writes.is_empty() {
            self.desks[at] = None;
            return Ok((Committed::Closed, Vec::new()));
        }
        let newest = |key: &Bytes| self.keys.get(key).map_or(0, |vs| vs.last().unwrap().number);
        let written = writes.keys().map(|key| (key.clone(), newest(key)));
        let clashes: Vec<(Bytes, u64)> = written.filter(|(_, number)| *number > start).collect();
        if !clashes.is_empty() {
            self.desks[at] = None;
            return Err(No::Conflict(clashes));
        }
        if self.counter == TOP {
            return refuse(8);
        }
        if let Some(number) = self.lack(&writes) {
            return refuse(number);
        }
        let commit = Commit { number: self.counter + 1, writes };
        let record = commit.record();
        if room.is_some_and(|room| room < record.len() as u64) {
            return refuse(12);
        }
        self.publish(commit);
        self.desks[at] = None;
        Ok((Committed::Number(self.counter), record))
    }

    /// The refusal of these writes where key rooms or version rooms lack.
    fn lack(&self, writes: &Writes) -> Option<u8> {
        let new_keys = writes.keys().filter(|key| !self.keys.contains_key(*key)).count() as u64;
        if new_keys > self.sizes.key_rooms - self.keys.len() as u64 {
            return Some(10);
        }
        (writes.len() as u64 > self.sizes.version_rooms - self.versions_held()).then_some(11)
    }

    fn publish(&mut self, commit: Commit) {
        self.counter = commit.number;
        for (key, content) in commit.writes {
            self.keys.entry(key).or_default().push(Version { number: commit.number, content });
        }
    }

    /// Answers where the journal's whole records end.
    pub fn replay(&mut self, journal: &[u8]) -> Result<u64, No> {
        if self.desks.iter().any(Option::is_some) {
            return refuse(17);
        }
        let mut at = 0;
        loop {
            let offset = at as u64;
            let body = match front(&journal[at..]) {
                Front::Cut => return Ok(offset),
                Front::OtherMark => return Err(No::At { no: 14, offset }),
                Front::Body(body) => body,
            };
            let Some(commit) = Commit::read(body, self.counter) else { return Err(No::At { no: 14, offset }) };
            if let Some(no) = self.lack(&commit.writes) {
                return Err(No::At { no, offset });
            }
            self.publish(commit);
            at += HEAD + body.len();
        }
    }

    pub fn abort(&mut self, start: u64) -> Result<(), No> {
        let Some(at) = self.desk_of(start) else { return refuse(5) };
        self.desks[at] = None;
        Ok(())
    }

    /// Answers cutoff and number dropped.
    pub fn sweep(&mut self, limit: u64) -> (u64, u64) {
        let starts = self.desks.iter().flatten().map(|d| d.start);
        let cutoff = starts.chain([self.counter]).fold(limit, u64::min);
        let before = self.versions_held();
        for versions in self.keys.values_mut() {
            let old = std::mem::take(versions);
            for (i, version) in old.iter().enumerate() {
                let covered = old.get(i + 1).is_some_and(|next| next.number <= cutoff);
                let gone = version.content.is_none() && version.number <= cutoff;
                if !covered && !gone {
                    versions.push(version.clone());
                }
            }
        }
        self.keys.retain(|_, versions| !versions.is_empty());
        self.floor = self.floor.max(cutoff);
        (cutoff, before - self.versions_held())
    }

    /// The sweep between readers. Answers the number dropped.
    pub fn thin(&mut self, limit: u64) -> u64 {
        let starts: Vec<u64> = self.desks.iter().flatten().map(|d| d.start).collect();
        let before = self.versions_held();
        for versions in self.keys.values_mut() {
            let old = std::mem::take(versions);
            for (i, version) in old.iter().enumerate() {
                let unseen = |next: u64| !starts.iter().any(|start| (version.number..next).contains(start));
                let goes = old.get(i + 1).is_some_and(|next| next.number <= limit && unseen(next.number));
                if !goes {
                    versions.push(version.clone());
                }
            }
            let oldest = versions.first().expect("the newest is kept");
            let gone = oldest.content.is_none() && oldest.number <= limit;
            if gone && !starts.iter().any(|start| *start < oldest.number) {
                versions.remove(0);
            }
        }
        self.keys.retain(|_, versions| !versions.is_empty());
        self.floor = self.floor.max(limit.min(self.counter));
        let most = if limit < self.counter { usize::MAX } else { starts.len() + 1 };
        assert!(self.keys.values().all(|versions| versions.len() <= most), "a version that no start sees: {self:?}");
        before - self.versions_held()
    }

    /// Keys held, versions held, open desks.
    pub fn counts(&self) -> (u64, u64, u64) {
        (self.keys.len() as u64, self.versions_held(), self.desks.iter().flatten().count() as u64)
    }

    fn dump_bytes(&self) -> Bytes {
        let mut out = b"DSEMVCC1".to_vec();
        out.extend((self.counter + 1).to_le_bytes());
        out.extend((self.keys.len() as u32).to_le_bytes());
        for (key, versions) in &self.keys {
            out.extend((key.len() as u32).to_le_bytes());
            out.extend(key);
            out.extend((versions.len() as u32).to_le_bytes());
            for version in versions {
                out.extend(version.number.to_le_bytes());
                match &version.content {
                    None => out.push(0),
                    Some(value) => {
                        out.push(1);
                        out.extend((value.len() as u32).to_le_bytes());
                        out.extend(value);
                    }
                }
            }
        }
        out
    }

    pub fn dump(&self, room: u64) -> Result<Bytes, No> {
        let out = self.dump_bytes();
        if out.len() as u64 > room {
            return refuse(12);
        }
        Ok(out)
    }

    pub fn load(dump: &[u8], sizes: Sizes) -> Result<Store, No> {
        let mut store = Store::make(sizes)?;
        let mut fields = Fields { dump, at: 0 };

        let opening = fields.take(8)?;
        opening.fault_if(14, opening.bytes != b"DSEMVCC1")?;
        let next = fields.take(8)?;
        let next_number = next.number();
        next.fault_if(14, next_number == 0)?;
        store.counter = next_number - 1;
        // What was swept before the dump is not known.
        store.floor = store.counter;
        let key_count = fields.take(4)?;
        key_count.fault_if(15, key_count.number() > sizes.key_rooms)?;

        let mut rooms_left = sizes.version_rooms;
        for _ in 0..key_count.number() {
            let length = fields.take(4)?;
            length.fault_if(14, !(1..=KEY_MAX as u64).contains(&length.number()))?;
            let key = fields.take(length.number())?;
            key.fault_if(14, !printable(key.bytes))?;
            let last_key = store.keys.keys().next_back();
            key.fault_if(14, last_key.is_some_and(|last| key.bytes <= &last[..]))?;
            let count = fields.take(4)?;
            count.fault_if(14, count.number() == 0)?;
            count.fault_if(15, count.number() > rooms_left)?;
            rooms_left -= count.number();

            let mut versions: Vec<Version> = Vec::new();
            for _ in 0..count.number() {
                let number = fields.take(8)?;
                // Of a first version the last number is 0: that one test is also the test for 0.
                let last = versions.last().map_or(0, |v| v.number);
                number.fault_if(14, number.number() <= last || number.number() >= next_number)?;
                let tag = fields.take(1)?;
                tag.fault_if(14, tag.number() > 1)?;
                let content = if tag.number() == 0 {
                    None
                } else {
                    let length = fields.take(4)?;
                    length.fault_if(14, length.number() > VALUE_MAX as u64)?;
                    Some(fields.take(length.number())?.bytes.to_vec())
                };
                versions.push(Version { number: number.number(), content });
            }
            store.keys.insert(key.bytes.to_vec(), versions);
        }
        if fields.at < dump.len() {
            return Err(No::At { no: 14, offset: fields.at as u64 });
        }
        Ok(store)
    }
}

struct Fields<'a> {
    dump: &'a [u8],
    at: usize,
}

struct Field<'a> {
    at: usize,
    bytes: &'a [u8],
}

impl<'a> Fields<'a> {
    fn take(&mut self, length: u64) -> Result<Field<'a>, No> {
        let at = self.at;
        let left = (self.dump.len() - at) as u64;
        if left < length {
            return Err(No::At { no: 13, offset: at as u64 });
        }
        self.at = at + length as usize;
        Ok(Field { at, bytes: &self.dump[at..self.at] })
    }
}

impl Field<'_> {
    fn number(&self) -> u64 {
        self.bytes.iter().rev().fold(0, |high, byte| high << 8 | *byte as u64)
    }

    fn fault_if(&self, no: u8, fault: bool) -> Result<(), No> {
        if fault {
            return Err(No::At { no, offset: self.at as u64 });
        }
        Ok(())
    }
}

#[cfg(test)]
mod whiteboard {
    use super::*;

    const A1: &[u8] = b"A1";
    const A2: &[u8] = b"A2";

    const fn sized(key_rooms: u64, version_rooms: u64) -> Sizes {
        Sizes::new(key_rooms, version_rooms, 64)
    }

    fn new_store() -> Store {
        Store::make(sized(4, 8)).unwrap()
    }

    fn hex(text: &str) -> Bytes {
        text.split_whitespace().map(|pair| u8::from_str_radix(pair, 16).unwrap()).collect()
    }

    fn clash(keys: &[(&[u8], u64)]) -> Result<Committed, No> {
        Err(No::Conflict(keys.iter().map(|(key, number)| (key.to_vec(), *number)).collect()))
    }

    fn numbers(store: &Store, key: &[u8]) -> Vec<u64> {
        store.keys[key].iter().map(|v| v.number).collect()
    }

    #[test]
    fn a_new_store_dumps() {
        let expected = hex("44 53 45 4D 56 43 43 31 01 00 00 00 00 00 00 00 00 00 00 00");
        assert_eq!(new_store().dump(20), Ok(expected));
        assert_eq!(new_store().dump(19), refuse(12));
    }

    #[test]
    fn one_value_dumps() {
        let mut s = new_store();
        assert_eq!(s.begin(), Ok((1, 0)));
        assert_eq!(s.put(1, A1, &[7]), Ok(()));
        assert_eq!(s.commit(1), Ok(Committed::Number(2)));
        let expected = hex(
            "44 53 45 4D 56 43 43 31 03 00 00 00 00 00 00 00 01 00 00 00 02 00 00 00 41 31 01 00 00 00 02 00 00 00 00 \
             00 00 00 01 01 00 00 00 07",
        );
        assert_eq!(expected.len(), 44);
        assert_eq!(s.dump(44), Ok(expected));
        assert_eq!(s.dump(43), refuse(12));
    }

    /// The first of two has put A1 and committed.
    fn two_begun_one_saved() -> Store {
        let mut s = new_store();
        assert_eq!(s.begin(), Ok((1, 0)));
        assert_eq!(s.begin(), Ok((2, 1)));
        assert_eq!(s.put(1, A1, &[1]), Ok(()));
        assert_eq!(s.commit(1), Ok(Committed::Number(3)));
        assert_eq!(s.read_kind(2, A1), Ok(Kind::Nothing));
        assert_eq!(s.read_bytes(2, A1), Vec::<u8>::new());
        s
    }

    #[test]
    fn the_second_conflicts() {
        let mut s = two_begun_one_saved();
        assert_eq!(s.put(2, A1, &[2]), Ok(()));
        assert_eq!(s.commit(2), clash(&[(A1, 3)]));
        assert_eq!(s.commit(2), refuse(5));
        assert_eq!((s.counter, s.counts()), (3, (1, 1, 0)));
    }

    #[test]
    fn the_second_takes_another_seat() {
        let mut s = two_begun_one_saved();
        assert_eq!(s.put(2, A2, &[2]), Ok(()));
        assert_eq!(s.commit(2), Ok(Committed::Number(4)));
    }

    #[test]
    fn put_and_deleted() {
        let mut s = new_store();
        s.begin().unwrap();
        assert_eq!(s.put(1, A1, &[1]), Ok(()));
        assert_eq!(s.read_kind(1, A1), Ok(Kind::Own));
        assert_eq!(s.delete(1, A1), Ok(()));
        assert_eq!(s.read_kind(1, A1), Ok(Kind::Nothing));
        assert_eq!(s.read_bytes(1, A1), Vec::<u8>::new());
    }

    /// A1 at 2, 4 and 7, with 5 open.
    fn three_versions() -> Store {
        let mut s = new_store();
        for (start, number) in [(1, 2), (3, 4)] {
            assert_eq!(s.begin().unwrap().0, start);
            s.put(start, A1, &[start as u8]).unwrap();
            assert_eq!(s.commit(start), Ok(Committed::Number(number)));
        }
        assert_eq!(s.begin(), Ok((5, 0)));
        assert_eq!(s.begin(), Ok((6, 1)));
        s.put(6, A1, &[6]).unwrap();
        assert_eq!(s.commit(6), Ok(Committed::Number(7)));
        assert_eq!(numbers(&s, A1), [2, 4, 7]);
        s
    }

    #[test]
    fn sweep_to_the_open_start() {
        let mut s = three_versions();
        assert_eq!(s.sweep(u64::MAX), (5, 1));
        assert_eq!(numbers(&s, A1), [4, 7]);
    }

    #[test]
    fn sweep_at_three_and_at_four() {
        let mut s = three_versions();
        assert_eq!(s.sweep(3), (3, 0));
        assert_eq!(numbers(&s, A1), [2, 4, 7]);
        let mut s = three_versions();
        assert_eq!(s.sweep(4), (4, 1));
        assert_eq!(numbers(&s, A1), [4, 7]);
    }

    #[test]
    fn sweep_after_the_abort() {
        let mut s = three_versions();
        assert_eq!(s.abort(5), Ok(()));
        assert_eq!(s.abort(5), refuse(5));
        assert_eq!(s.sweep(u64::MAX), (7, 2));
        assert_eq!(numbers(&s, A1), [7]);
    }

    /// A1 put and committed at 2, deleted at 4, with 5 open.
    fn put_and_gone() -> Store {
        let mut s = Store::make(sized(1, 8)).unwrap();
        s.begin().unwrap();
        s.put(1, A1, &[1]).unwrap();
        s.commit(1).unwrap();
        s.begin().unwrap();
        s.delete(3, A1).unwrap();
        s.commit(3).unwrap();
        assert_eq!(s.begin(), Ok((5, 0)));
        s
    }

    #[test]
    fn a_swept_deletion_gives_its_key_room_back() {
        let mut s = put_and_gone();
        s.put(5, A2, &[2]).unwrap();
        assert_eq!(s.commit(5), refuse(10));
        assert_eq!(s.sweep(u64::MAX), (5, 2));
        assert_eq!((s.counts(), s.newest_kind(A1)), ((0, 0, 1), Ok(Kind::Nothing)));
        assert_eq!(s.commit(5), Ok(Committed::Number(6)));
        // At and above the floor the past is told as it was.
        assert_eq!(s.as_of_kind(5, A1), Ok(Kind::Nothing));
    }

    #[test]
    fn a_deletion_above_the_cutoff_stays() {
        let mut s = put_and_gone();
        assert_eq!(s.sweep(3), (3, 0));
        assert_eq!(numbers(&s, A1), [2, 4]);
        assert_eq!(s.sweep(4), (4, 2));
        assert_eq!(s.counts(), (0, 0, 1));
    }

    #[test]
    fn a_deletion_goes_from_below_later_versions() {
        let mut s = put_and_gone();
        s.begin().unwrap();
        s.put(6, A1, &[3]).unwrap();
        assert_eq!(s.commit(6), Ok(Committed::Number(7)));
        assert_eq!(s.sweep(u64::MAX), (5, 2));
        assert_eq!(numbers(&s, A1), [7]);
        assert_eq!(s.read_kind(5, A1), Ok(Kind::Nothing));
        assert_eq!(s.as_of_kind(6, A1), Ok(Kind::Nothing));
    }

    #[test]
    fn a_value_stays_whatever_the_cutoff() {
        let mut s = put_and_gone();
        s.put(5, A1, &[]).unwrap();
        assert_eq!(s.commit(5), Ok(Committed::Number(6)));
        assert_eq!(s.sweep(u64::MAX), (6, 2));
        assert_eq!(numbers(&s, A1), [6]);
        assert_eq!(s.newest_kind(A1), Ok(Kind::Hall));
    }

    /// A1 put at 2, 4, 6 and 8, then, with 9 left open, at 11, 13 and 15.
    fn a_week_with_nine_open() -> Store {
        let mut s = new_store();
        for number in [2, 4, 6, 8, 11, 13, 15] {
            if number == 11 {
                assert_eq!(s.begin(), Ok((9, 0)));
            }
            let (start, _) = s.begin().unwrap();
            s.put(start, A1, &[number as u8]).unwrap();
            assert_eq!(s.commit(start), Ok(Committed::Number(number)));
        }
        s
    }

    #[test]
    fn what_no_open_start_sees_goes() {
        let mut s = a_week_with_nine_open();
        assert_eq!(s.sweep(u64::MAX), (9, 3));
        assert_eq!(numbers(&s, A1), [8, 11, 13, 15]);
        assert_eq!(s.thin(u64::MAX), 2);
        assert_eq!(numbers(&s, A1), [8, 15]);
        assert_eq!(s.read_bytes(9, A1), [8]);
        assert_eq!(s.thin(u64::MAX), 0);
        s.abort(9).unwrap();
        assert_eq!(s.thin(u64::MAX), 1);
        assert_eq!(numbers(&s, A1), [15]);
    }

    #[test]
    fn a_successor_at_the_limit_and_above_it() {
        for (limit, held) in [
            (0, &[2, 4, 6, 8, 11, 13, 15][..]),
            (3, &[2, 4, 6, 8, 11, 13, 15]),
            (4, &[4, 6, 8, 11, 13, 15]),
            (12, &[8, 11, 13, 15]),
            (13, &[8, 13, 15]),
            (14, &[8, 13, 15]),
            (15, &[8, 15]),
        ] {
            let mut s = a_week_with_nine_open();
            assert_eq!(s.thin(limit), 7 - held.len() as u64, "limit {limit}");
            assert_eq!(numbers(&s, A1), held, "limit {limit}");
        }
    }

    /// A1 at 2 and 5, or at 4 and 7: the open start is the next number after one of them, or the last before it.
    #[test]
    fn both_ends_of_a_gap() {
        // 3 is just above 2, and below 5; 6 is just above 5.
        for (open, held) in [(3, &[2, 5][..]), (6, &[5])] {
            let mut s = new_store();
            s.begin().unwrap();
            s.put(1, A1, &[1]).unwrap();
            s.commit(1).unwrap();
            s.begin().unwrap();
            s.begin().unwrap();
            s.put(4, A1, &[2]).unwrap();
            assert_eq!(s.commit(4), Ok(Committed::Number(5)));
            s.begin().unwrap();
            s.abort(3 + 6 - open).unwrap();
            assert_eq!(s.thin(u64::MAX), 2 - held.len() as u64);
            assert_eq!(numbers(&s, A1), held, "start {open}");
        }
        // 3 is just below 4, and 6 just below 7.
        for (open, held) in [(3, &[7][..]), (6, &[4, 7])] {
            let mut s = new_store();
            s.begin().unwrap();
            s.begin().unwrap();
            s.begin().unwrap();
            s.put(1, A1, &[1]).unwrap();
            assert_eq!(s.commit(1), Ok(Committed::Number(4)));
            s.begin().unwrap();
            s.begin().unwrap();
            s.put(5, A1, &[2]).unwrap();
            assert_eq!(s.commit(5), Ok(Committed::Number(7)));
            s.abort(2).unwrap();
            s.abort(3 + 6 - open).unwrap();
            assert_eq!(s.thin(u64::MAX), 2 - held.len() as u64);
            assert_eq!(numbers(&s, A1), held, "start {open}");
        }
    }

    #[test]
    fn a_deletion_with_a_start_below_it_stays() {
        let mut s = new_store();
        s.begin().unwrap();
        s.begin().unwrap();
        s.delete(2, A1).unwrap();
        assert_eq!(s.commit(2), Ok(Committed::Number(3)));
        assert_eq!(s.thin(u64::MAX), 0);
        // For this it has to stay.
        s.put(1, A1, &[1]).unwrap();
        assert_eq!(s.commit(1), clash(&[(A1, 3)]));
        assert_eq!(s.thin(2), 0);
        assert_eq!(s.thin(3), 1);
        assert_eq!(s.counts(), (0, 0, 0));
    }

    #[test]
    fn a_deletion_that_a_start_sees_goes() {
        let mut s = put_and_gone();
        s.begin().unwrap();
        s.put(6, A1, &[3]).unwrap();
        assert_eq!(s.commit(6), Ok(Committed::Number(7)));
        assert_eq!(s.read_kind(5, A1), Ok(Kind::Nothing));
        assert_eq!(s.thin(u64::MAX), 2);
        assert_eq!(numbers(&s, A1), [7]);
        assert_eq!(s.read_kind(5, A1), Ok(Kind::Nothing));
    }

    #[test]
    fn open_starts_do_not_hold_the_floor() {
        let mut s = a_week_with_nine_open();
        for (limit, floor) in [(0, 0), (3, 3), (2, 3), (12, 12), (u64::MAX, 15), (14, 15)] {
            s.thin(limit);
            assert_eq!(s.floor, floor, "limit {limit}");
        }
        assert_eq!(s.as_of_kind(14, A1), refuse(16));
        assert_eq!(s.as_of_bytes(15, A1), [15]);
        assert_eq!(s.read_bytes(9, A1), [8]);
    }

    #[test]
    fn as_of_between_floor_and_counter() {
        let mut s = three_versions();
        let shown = |s: &Store, n| (s.as_of_kind(n, A1), s.as_of_bytes(n, A1));
        let value = |byte| (Ok(Kind::Hall), vec![byte]);
        for (n, answer) in [
            (0, (Ok(Kind::Nothing), vec![])),
            (1, (Ok(Kind::Nothing), vec![])),
            (2, value(1)),
            (3, value(1)),
            (4, value(3)),
            (6, value(3)),
            (7, value(6)),
            (8, (refuse(16), vec![])),
            (u64::MAX, (refuse(16), vec![])),
        ] {
            assert_eq!(shown(&s, n), answer, "as of {n}");
        }
        assert_eq!(s.as_of_kind(9, &[]), refuse(3));
        assert_eq!(s.as_of_kind(4, A2), Ok(Kind::Nothing));
        // One that drops nothing, and one that is held back.
        assert_eq!(s.sweep(3), (3, 0));
        assert_eq!((shown(&s, 2), shown(&s, 3)), ((refuse(16), vec![]), value(1)));
        assert_eq!(s.sweep(u64::MAX), (5, 1));
        assert_eq!((shown(&s, 4), shown(&s, 5), shown(&s, 7)), ((refuse(16), vec![]), value(3), value(6)));
        // A lower cutoff lowers nothing.
        assert_eq!(s.sweep(1), (1, 0));
        assert_eq!(shown(&s, 4), (refuse(16), vec![]));
        let loaded = Store::load(&s.dump(u64::MAX).unwrap(), sized(4, 8)).unwrap();
        assert_eq!((shown(&loaded, 6), shown(&loaded, 7)), ((refuse(16), vec![]), value(6)));
    }

    #[test]
    fn commit_without_writes() {
        let mut s = new_store();
        assert_eq!(s.begin(), Ok((1, 0)));
        assert_eq!(s.commit(1), Ok(Committed::Closed));
        assert_eq!(s.begin(), Ok((2, 0)));
    }

    /// The number's record of these writes, one byte or a deletion each.
    fn record(number: u8, writes: &str) -> Bytes {
        let count = writes.split(',').count() as u8;
        let body = hex(&format!("{number:02x} 00 00 00 00 00 00 00 {count:02x} 00 00 00 {}", writes.replace(',', " ")));
        [&hex("4C 01")[..], &[body.len() as u8, 0, 0, 0], &body].concat()
    }

    const A1_IS_7: &str = "02 00 00 00 41 31 01 01 00 00 00 07";
    const A1_IS_GONE: &str = "02 00 00 00 41 31 00";
    const A2_IS_9: &str = "02 00 00 00 41 32 01 01 00 00 00 09";

    #[test]
    fn a_commit_writes_its_record() {
        let mut s = new_store();
        s.begin().unwrap();
        s.put(1, A1, &[7]).unwrap();
        for room in [0, 29] {
            assert_eq!(s.commit_to(1, room), refuse(12));
            assert_eq!((s.counter, s.counts(), s.read_kind(1, A1)), (1, (0, 0, 1), Ok(Kind::Own)));
        }
        let bytes = hex("4C 01 18 00 00 00 02 00 00 00 00 00 00 00 01 00 00 00 02 00 00 00 41 31 01 01 00 00 00 07");
        assert_eq!((bytes.len(), &bytes), (30, &record(2, A1_IS_7)));
        assert_eq!(s.commit_to(1, 30), Ok((Committed::Number(2), bytes)));
        s.begin().unwrap();
        s.put(3, A2, &[9]).unwrap();
        s.delete(3, A1).unwrap();
        let both = record(4, &[A1_IS_GONE, A2_IS_9].join(","));
        assert_eq!(s.commit_to(3, u64::MAX), Ok((Committed::Number(4), both)));
        s.begin().unwrap();
        assert_eq!(s.commit_to(5, 0), Ok((Committed::Closed, vec![])));
        assert_eq!(s.commit_to(5, 0), refuse(5));
    }

    #[test]
    fn a_short_output_comes_last() {
        let mut s = two_begun_one_saved();
        s.put(2, A1, &[2]).unwrap();
        assert_eq!(s.commit_to(2, 0), Err(No::Conflict(vec![(A1.to_vec(), 3)])));
        assert_eq!(s.counts(), (1, 1, 0));
        for (rooms, number) in [(sized(1, 1), 10), (sized(1, 2), 10), (sized(2, 1), 11), (sized(2, 2), 12)] {
            let mut s = Store::make(rooms).unwrap();
            s.begin().unwrap();
            s.put(1, A1, &[]).unwrap();
            s.delete(1, A2).unwrap();
            assert_eq!(s.commit_to(1, 0), refuse(number));
            assert_eq!(s.counts(), (0, 0, 1));
            s.counter = TOP;
            assert_eq!(s.commit_to(1, 0), refuse(8));
        }
    }

    #[test]
    fn every_cut_of_a_journal() {
        let records = [record(2, A1_IS_7), record(5, &[A1_IS_GONE, A2_IS_9].join(",")), record(6, A1_IS_7)];
        let ends = [0, 30, 67, 97];
        let journal = records.concat();
        assert_eq!(journal.len(), 97);
        for cut in 0..=97 {
            let mut s = new_store();
            let whole = ends.iter().filter(|end| **end <= cut).count() - 1;
            assert_eq!(s.replay(&journal[..cut]), Ok(ends[whole] as u64), "cut after {cut}");
            assert_eq!((s.counter, s.floor), ([0, 2, 5, 6][whole], 0));
            assert_eq!(s.counts(), [(0, 0, 0), (1, 1, 0), (2, 3, 0), (2, 4, 0)][whole]);
            assert_eq!(s.newest_bytes(A1), [&[][..], &[7], &[], &[7]][whole]);
        }
    }

    #[test]
    fn a_journal_played_twice() {
        let mut s = new_store();
        let journal = [record(2, A1_IS_7), record(4, A2_IS_9)].concat();
        assert_eq!(s.replay(&journal), Ok(60));
        let once = s.clone();
        assert_eq!(s.replay(&journal), Err(No::At { no: 14, offset: 0 }));
        assert_eq!(s.replay(&record(4, A1_IS_7)), Err(No::At { no: 14, offset: 0 }));
        assert_eq!(s, once);
        assert_eq!(s.begin(), Ok((5, 0)));
        // Not looked at any more.
        for journal in [&journal[..], b"", b"\x09\x09", &record(9, A1_IS_7)] {
            assert_eq!(s.replay(journal), refuse(17));
        }
    }

    #[test]
    fn records_that_find_no_room() {
        let mut s = Store::make(sized(1, 2)).unwrap();
        let at = |no, offset| Err(No::At { no, offset });
        assert_eq!(s.replay(&[record(2, A1_IS_7), record(3, A2_IS_9)].concat()), at(10, 30));
        assert_eq!((s.counter, s.counts()), (2, (1, 1, 0)));
        assert_eq!(s.replay(&[record(4, A1_IS_GONE), record(5, A1_IS_7)].concat()), at(11, 25));
        assert_eq!(s.replay(&record(5, A2_IS_9)), at(10, 0));
        assert_eq!((s.counter, s.counts()), (4, (1, 2, 0)));
        // The number comes before the rooms.
        assert_eq!(s.replay(&record(4, A2_IS_9)), at(14, 0));
    }

    #[test]
    fn faults_of_a_record() {
        let right = record(3, A1_IS_7);
        let spoils = |at: usize, byte: u8| {
            let mut wrong = right.clone();
            wrong[at] = byte;
            wrong
        };
        let longer = |value: usize| {
            let head = format!("02 00 00 00 41 31 01 {value:02x} 00 00 00");
            record(3, &(head + &" 05".repeat(value)))
        };
        let malformed = [
            spoils(0, 0x4d),
            spoils(1, 2),
            spoils(2, 23),
            [&spoils(2, 25)[..], &[0]].concat(),
            spoils(6, 2),
            spoils(6, 0),
            record(3, "")[..18].to_vec(),
            spoils(14, 0),
            spoils(14, 2),
            spoils(14, 17),
            spoils(18, 0),
            spoils(18, 3),
            spoils(18, 25),
            spoils(21, 1),
            spoils(22, b' '),
            spoils(23, 127),
            spoils(24, 0),
            spoils(24, 2),
            spoils(25, 0),
            spoils(25, 2),
            spoils(25, 97),
            longer(97),
            hex("4C 01 00 00 00 00"),
            hex("4C 01 0B 00 00 00 03 00 00 00 00 00 00 00 01 00 00"),
            hex("4C 01 0C 00 00 00 03 00 00 00 00 00 00 00 00 00 00 00"),
            hex("4C 01 0C 00 00 00 03 00 00 00 00 00 00 00 01 00 00 00"),
            record(3, &[A2_IS_9, A1_IS_7].join(",")),
            record(3, &[A1_IS_GONE, A1_IS_7].join(",")),
            [&right[..6], &[255; 8], &right[14..]].concat(),
        ];
        for wrong in malformed {
            let mut s = new_store();
            let journal = [&record(2, A2_IS_9)[..], &wrong, &record(9, A1_IS_7)].concat();
            assert_eq!(s.replay(&journal), Err(No::At { no: 14, offset: 30 }), "{wrong:02x?}");
            assert_eq!((s.counter, s.counts()), (2, (1, 1, 0)));
            assert_eq!(s.replay(&right), Ok(30));
        }
        assert_eq!(new_store().replay(&longer(96)), Ok(125));
        let last = [&right[..6], &[254], &[255; 7], &right[14..]].concat();
        let mut s = new_store();
        assert_eq!((s.replay(&last), s.begin(), s.counter), (Ok(30), refuse(8), TOP));
        for (count, answer) in [(16, Ok(18 + 16 * 6)), (17, Err(No::At { no: 14, offset: 0 }))] {
            let writes: Vec<String> = (0..count).map(|i| format!("01 00 00 00 {:02x} 00", 0x41 + i)).collect();
            assert_eq!(Store::make(sized(20, 20)).unwrap().replay(&record(1, &writes.join(","))), answer);
        }
    }

    #[test]
    fn the_last_number() {
        let dump = hex("44 53 45 4D 56 43 43 31 FE FF FF FF FF FF FF FF 00 00 00 00");
        let mut s = Store::load(&dump, sized(4, 8)).unwrap();
        assert_eq!(s.begin(), Ok((u64::MAX - 1, 0)));
        assert_eq!(s.put(u64::MAX - 1, A1, &[1]), Ok(()));
        assert_eq!(s.commit(u64::MAX - 1), refuse(8));
        assert_eq!(s.read_kind(u64::MAX - 1, A1), Ok(Kind::Own));
        assert_eq!(s.begin(), refuse(8));
    }

    #[test]
    fn lengths_of_keys_and_values() {
        let mut s = new_store();
        s.begin().unwrap();
        for (length, answer) in [(0, refuse(3)), (1, Ok(())), (24, Ok(())), (25, refuse(3))] {
            let key = vec![b'k'; length];
            assert_eq!(s.put(1, &key, &[]), answer);
            assert_eq!(s.delete(1, &key), answer);
            assert_eq!(s.read_kind(1, &key).map(|_| ()), answer);
            assert_eq!(s.newest_kind(&key).map(|_| ()), answer);
        }
        for (length, answer) in [(0, Ok(())), (32, Ok(())), (33, Ok(())), (95, Ok(())), (96, Ok(())), (97, refuse(4))] {
            assert_eq!(s.put(1, A1, &vec![9; length]), answer);
        }
        assert_eq!(s.read_bytes(1, A1), [9; 96]);
    }

    /// Every byte, first, in the middle and last.
    #[test]
    fn bytes_of_keys() {
        let mut s = new_store();
        s.begin().unwrap();
        for byte in 0..=255 {
            let answer = if (33..=126).contains(&byte) { Ok(()) } else { refuse(3) };
            for key in [&[byte][..], &[byte, b'A'], &[b'A', byte, b'A'], &[b'A', byte]] {
                assert_eq!(s.delete(1, key), answer);
                assert_eq!(s.put(1, key, &[byte]), answer);
                assert_eq!(s.read_kind(1, key).map(|_| ()), answer);
                assert_eq!(s.read_bytes(1, key), if answer.is_ok() { vec![byte] } else { vec![] });
                assert_eq!(s.newest_kind(key).map(|_| ()), answer);
                assert_eq!(s.as_of_kind(1, key).map(|_| ()), answer);
            }
            s = new_store();
            s.begin().unwrap();
        }
        // Before the value, the start and the number are looked at.
        for key in [&b" "[..], b"A\0", &[127]] {
            assert_eq!(s.put(9, key, &[0; VALUE_MAX + 1]), refuse(3));
            assert_eq!(s.read_kind(9, key), refuse(3));
            assert_eq!(s.as_of_kind(9, key), refuse(3));
        }
    }

    #[test]
    fn bytes_of_a_loaded_key() {
        let dump = |key: &[u8]| {
            let mut s = new_store();
            s.keys.insert(key.to_vec(), vec![Version { number: 1, content: None }]);
            s.counter = 1;
            s.dump(u64::MAX).unwrap()
        };
        let load = |dump: &[u8]| Store::load(dump, sized(1, 1)).map(|_| ());
        let malformed = |offset| Err(No::At { no: 14, offset });
        for byte in 0..=255 {
            for key in [&[byte][..], &[byte, b'A'], &[b'A', byte]] {
                let answer = if (33..=126).contains(&byte) { Ok(()) } else { malformed(24) };
                assert_eq!(load(&dump(key)), answer);
            }
        }
        // Its length before them, and none of them where one is missing.
        assert_eq!(load(&dump(&[0; 25])), malformed(20));
        assert_eq!(load(&dump(&[0; 24])[..47]), Err(No::At { no: 13, offset: 24 }));
        assert_eq!(load(&dump(&[0; 24])[..48]), malformed(24));
    }

    #[test]
    fn an_empty_value_is_a_value() {
        let mut s = new_store();
        s.begin().unwrap();
        s.put(1, A1, &[]).unwrap();
        assert_eq!(s.read_kind(1, A1), Ok(Kind::Own));
        s.commit(1).unwrap();
        s.begin().unwrap();
        assert_eq!(s.read_kind(3, A1), Ok(Kind::Hall));
        assert_eq!(s.newest_kind(A1), Ok(Kind::Hall));
        assert_eq!(s.newest_bytes(A1), Vec::<u8>::new());
    }

    #[test]
    fn writes_16_and_17() {
        let mut s = new_store();
        s.begin().unwrap();
        for letter in b'a'..b'a' + 16 {
            assert_eq!(s.put(1, &[letter], &[]), Ok(()));
        }
        assert_eq!(s.put(1, b"q", &[]), refuse(7));
        assert_eq!(s.delete(1, b"q"), refuse(7));
        assert_eq!(s.delete(1, b"p"), Ok(()));
        assert_eq!(s.put(1, b"d", &[1]), Ok(()));
    }

    #[test]
    fn desks() {
        for desks in [1, 2, 5, 63, 64] {
            let mut s = Store::make(Sizes::new(4, 8, desks)).unwrap();
            for i in 0..desks {
                assert_eq!(s.begin(), Ok((i + 1, i as usize)));
            }
            assert_eq!(s.begin(), refuse(6));
            let middle = desks / 2;
            assert_eq!(s.abort(middle + 1), Ok(()));
            assert_eq!(s.begin(), Ok((desks + 1, middle as usize)));
            assert_eq!(s.begin(), refuse(6));
            assert_eq!(s.counts(), (0, 0, desks));
        }
    }

    /// A dump does not say how many desks there are.
    #[test]
    fn desks_of_a_load() {
        let dump = new_store().dump(20).unwrap();
        for desks in [1, 64] {
            let mut s = Store::load(&dump, Sizes::new(4, 8, desks)).unwrap();
            for _ in 0..desks {
                s.begin().unwrap();
            }
            assert_eq!(s.begin(), refuse(6));
            assert_eq!(s.dump(20).unwrap()[8], 1 + desks as u8);
        }
    }

    #[test]
    fn every_clash_is_named_by_ascending_key() {
        let mut s = Store::make(sized(16, 40)).unwrap();
        let letters: Vec<[u8; 1]> = (b'a'..b'a' + 16).map(|letter| [letter]).collect();
        for _ in 0..5 {
            s.begin().unwrap();
        }
        letters.iter().for_each(|key| s.put(1, key, &[]).unwrap());
        assert_eq!(s.commit(1), Ok(Committed::Number(6)));
        // Two, written in the other order, with a third that no one has.
        for key in [&b"q"[..], b"c", b"b"] {
            s.delete(2, key).unwrap();
        }
        assert_eq!(s.commit(2), clash(&[(b"b", 6), (b"c", 6)]));
        assert_eq!(s.commit(2), refuse(5));
        // A deletion is named like a value, and of each key the newest number.
        s.begin().unwrap();
        s.delete(7, b"b").unwrap();
        assert_eq!(s.commit(7), Ok(Committed::Number(8)));
        letters.iter().rev().for_each(|key| s.put(3, key, &[]).unwrap());
        let all: Vec<(&[u8], u64)> = letters.iter().map(|key| (&key[..], if key == b"b" { 8 } else { 6 })).collect();
        assert_eq!(s.commit(3), clash(&all));
        // One of three, then none.
        s.begin().unwrap();
        for (start, key) in [(4, &b"q"[..]), (4, b"p"), (4, b"r"), (5, b"q"), (9, b"p"), (9, b"b")] {
            s.put(start, key, &[]).unwrap();
        }
        assert_eq!(s.commit(4), clash(&[(b"p", 6)]));
        assert_eq!(s.commit(5), refuse(10));
        assert_eq!(s.commit(9), Ok(Committed::Number(10)));
        assert_eq!(s.counts(), (16, 19, 1));
    }

    #[test]
    fn rooms() {
        let mut s = Store::make(sized(1, 2)).unwrap();
        s.begin().unwrap();
        s.put(1, A1, &[]).unwrap();
        s.delete(1, A2).unwrap();
        assert_eq!(s.commit(1), refuse(10));
        assert_eq!(s.abort(1), Ok(()));
        for start in [2, 4] {
            s.begin().unwrap();
            s.delete(start, A1).unwrap();
            assert_eq!(s.commit(start), Ok(Committed::Number(start + 1)));
        }
        assert_eq!(s.begin(), Ok((6, 0)));
        s.put(6, A1, &[]).unwrap();
        assert_eq!(s.commit(6), refuse(11));
        assert_eq!(s.sweep(u64::MAX), (6, 2));
        assert_eq!(s.commit(6), Ok(Committed::Number(7)));
    }

    #[test]
    fn sizes() {
        let wide = (1 << 32) + 1;
        for (k, v, d) in [
            (0, 1, 1),
            (1, 0, 1),
            (1, 1, 0),
            (1_025, 1, 1),
            (1, 65_537, 1),
            (1, 1, 65),
            (wide, 1, 1),
            (1, wide, 1),
            (1, 1, wide),
            (1, 1, 256 + 1),
        ] {
            assert_eq!(Store::make(Sizes::new(k, v, d)), refuse(2));
            assert_eq!(Store::load(&[], Sizes::new(k, v, d)), refuse(2));
        }
        assert!(Store::make(Sizes::new(1_024, 65_536, 64)).is_ok());
        assert!(Store::make(Sizes::new(1, 1, 1)).is_ok());
    }

    #[test]
    fn every_cut_of_a_dump() {
        let mut s = new_store();
        s.begin().unwrap();
        s.put(1, A1, &[7]).unwrap();
        s.commit(1).unwrap();
        let dump = s.dump(44).unwrap();
        let starts = [0, 8, 16, 20, 24, 26, 30, 38, 39, 43];
        for cut in 0..44 {
            let offset = *starts.iter().rev().find(|at| **at <= cut as u64).unwrap();
            assert_eq!(Store::load(&dump[..cut], sized(4, 8)), Err(No::At { no: 13, offset }));
        }
        assert_eq!(Store::load(&dump, sized(4, 8)), Ok(Store { floor: 2, ..s }));
        let mut long = dump;
        long.extend([0, 0]);
        assert_eq!(Store::load(&long, sized(4, 8)), Err(No::At { no: 14, offset: 44 }));
    }

    #[test]
    fn faults_of_a_dump() {
        let text = "44 53 45 4D 56 43 43 31 09 00 00 00 00 00 00 00 02 00 00 00 \
                    01 00 00 00 41 02 00 00 00 02 00 00 00 00 00 00 00 00 05 00 00 00 00 00 00 00 01 00 00 00 00 \
                    02 00 00 00 41 31 01 00 00 00 08 00 00 00 00 00 00 00 00";
        let dump = hex(text);
        assert!(Store::load(&dump, sized(2, 3)).is_ok());
        assert_eq!(Store::load(&dump, sized(1, 3)), Err(No::At { no: 15, offset: 16 }));
        assert_eq!(Store::load(&dump, sized(2, 2)), Err(No::At { no: 15, offset: 57 }));
        assert_eq!(Store::load(&dump, sized(2, 1)), Err(No::At { no: 15, offset: 25 }));
        for (at, byte, offset) in [
            (7, 0x32, 0),
            (8, 0, 8),
            (20, 0, 20),
            (20, 25, 20),
            (25, 0, 25),
            (29, 0, 29),
            (29, 9, 29),
            (37, 2, 37),
            (38, 2, 38),
            (38, 9, 38),
            (47, 97, 47),
            (55, 0x40, 55),
            (61, 9, 61),
            (69, 2, 69),
        ] {
            let mut changed = dump.clone();
            changed[at] = byte;
            assert_eq!(Store::load(&changed, sized(2, 3)), Err(No::At { no: 14, offset }), "byte {at} set to {byte}");
        }
    }

    #[test]
    fn the_highest_next_number() {
        let dump = hex("44 53 45 4D 56 43 43 31 FF FF FF FF FF FF FF FF 00 00 00 00");
        let mut s = Store::load(&dump, sized(1, 1)).unwrap();
        assert_eq!(s.counter, TOP);
        assert_eq!(s.begin(), refuse(8));
        assert_eq!(s.dump(20), Ok(dump));
    }
}
