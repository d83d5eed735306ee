//! Seeded adversarial calls: few keys, wrong starts, edges of every size, damaged dumps. The generator follows
//! the run on the plain store, so that it can aim at open starts, held numbers and exact room.

mod batches;

use crate::call::{call, open, Call, Opening, Reply};
use crate::damage::{damaged, damaged_journal};
use crate::journal::{Commit, RECORD_MOST};
use crate::rebuild::written;
use crate::rng::SplitMix64;
use crate::store::{
    Bytes, Committed, Content, Sizes, Store, Version, Writes, DESKS_MAX, KEY_MAX, KEY_ROOMS_MAX, TOP, VALUE_MAX,
    VERSION_ROOMS_MAX, WRITES_MAX,
};
use std::ops::RangeInclusive;

/// What a run is mainly about.
#[derive(Clone, Copy, PartialEq, Eq, Debug)]
pub enum Theme {
    Mixed,
    Desks,
    Writes,
    LastNumbers,
    Loads,
    TinyRooms,
    /// One desk stays open for most of the run.
    LongOpen,
    /// Many desks write many of a few keys each.
    Clashes,
    /// Nearly every commit has a journal, which is replayed into earlier dumps.
    Journals,
    /// Many calls come in batches, often beside few desks.
    Batches,
    /// Many keys and versions.
    Large,
}

/// What a seed may choose. A large run it can't: it is too long for a proof by computation. Nor can it batches: there
/// are no theorems of them.
const THEMES: [Theme; 14] = [
    Theme::Mixed,
    Theme::Mixed,
    Theme::Desks,
    Theme::Writes,
    Theme::LastNumbers,
    Theme::Loads,
    Theme::TinyRooms,
    Theme::TinyRooms,
    Theme::LongOpen,
    Theme::LongOpen,
    Theme::Clashes,
    Theme::Clashes,
    Theme::Journals,
    Theme::Journals,
];

/// Bytes that no key has; among them the neighbours of those that it may have.
pub const OTHER_BYTES: [u8; 9] = [b' ', b' ', 127, 127, 0, 31, b'\n', 128, 255];

/// Keys of one letter, some more than a desk takes.
const LETTERS: usize = WRITES_MAX + 3;

fn letter(i: usize) -> Bytes {
    vec![b'a' + i as u8]
}

fn start_begun(reply: &Reply) -> Option<u64> {
    match reply {
        Reply::Begun { start, .. } => Some(*start),
        _ => None,
    }
}

/// A dump of an earlier moment, and the commits since whose records were written.
#[derive(Clone)]
struct Kept {
    dump: Bytes,
    counter: u64,
    commits: Vec<Commit>,
}

pub struct Gen {
    pub rng: SplitMix64,
    pub theme: Theme,
    /// Keys that are allowed; few, so that they meet.
    keys: Vec<Bytes>,
    /// Every start, open or not, of the run so far.
    starts: Vec<u64>,
    /// Calls that a burst still has to make.
    queue: Vec<Call>,
    kept: Option<Kept>,
    pub store: Option<Store>,
    /// Desks are seldom all freed by a load, so that the run gets somewhere.
    pub calm: bool,
    /// Whether some calls come in batches.
    pub batches: bool,
}

impl Gen {
    pub fn new(seed: u64) -> Gen {
        let mut rng = SplitMix64::new(seed);
        let theme = rng.pick(&THEMES);
        Gen::about(theme, rng)
    }

    pub fn about(theme: Theme, mut rng: SplitMix64) -> Gen {
        let long = |last: u8| [vec![b'k'; KEY_MAX - 1], vec![last]].concat();
        let all: Vec<Bytes> = vec![
            b"A1".to_vec(),
            b"A2".to_vec(),
            b"A".to_vec(),
            b"A1!".to_vec(),
            b"B".to_vec(),
            b"!".to_vec(),
            b"!!".to_vec(),
            b"~".to_vec(),
            b"'-#".to_vec(),
            b"}~".to_vec(),
            long(b'!'),
            long(b'~'),
        ];
        let mut keys = vec![b"A1".to_vec()];
        for _ in 0..1 + rng.below(4) {
            keys.push(rng.pick(&all));
        }
        if theme == Theme::Clashes {
            let most = rng.pick(&[2, 3, 5, LETTERS, LETTERS, LETTERS]);
            keys = (0..most).map(letter).collect();
        }
        let calm = matches!(theme, Theme::Desks | Theme::LongOpen | Theme::Clashes) || rng.chance(1, 2);
        Gen { rng, theme, keys, starts: Vec::new(), queue: Vec::new(), kept: None, store: None, calm, batches: false }
    }

    /// Nothing is held, or nothing that a transaction can begin or end in.
    pub fn stuck(&self) -> bool {
        self.store.is_none() || (self.counter() == TOP && self.opens().is_empty())
    }

    /// No burst is under way.
    pub fn idle(&self) -> bool {
        self.queue.is_empty()
    }

    fn opens(&self) -> Vec<u64> {
        self.store.iter().flat_map(|s| s.desks.iter().flatten().map(|d| d.start)).collect()
    }

    fn numbers(&self) -> Vec<u64> {
        self.store.iter().flat_map(|s| s.keys.values().flatten().map(|v| v.number)).collect()
    }

    /// How many desks there are.
    fn desks(&self) -> usize {
        self.store.as_ref().map_or(0, |s| s.desks.len())
    }

    fn counter(&self) -> u64 {
        self.store.as_ref().map_or(0, |s| s.counter)
    }

    fn start(&mut self) -> u64 {
        let opens = self.opens();
        // The newest most often: it sees what was committed, and conflicts least.
        match (opens.iter().max(), self.rng.below(16)) {
            (Some(newest), 0..=6) => return *newest,
            (Some(_), 7..=14) => return self.rng.pick(&opens),
            _ => {}
        }
        let counter = self.counter();
        let mut wrong = vec![0, counter, counter.wrapping_add(1), u64::MAX, TOP];
        wrong.extend(&self.starts);
        wrong.extend(self.numbers());
        wrong.extend(opens.iter().flat_map(|s| [s - 1, s + 1, s.wrapping_add(1 << 32)]));
        self.rng.pick(&wrong)
    }

    fn key(&mut self) -> Bytes {
        match self.rng.below(24) {
            0 => Vec::new(),
            1 => {
                // Among them lengths that pass for allowed ones where only a byte is kept.
                let length = self.rng.pick(&[KEY_MAX + 1, KEY_MAX + 1, 32, 255, 256, 257, 256 + KEY_MAX]);
                vec![b'k'; length]
            }
            2 => {
                let mut key = self.rng.pick(&self.keys.clone());
                let at = self.rng.below(key.len());
                key[at] = self.rng.pick(&OTHER_BYTES);
                key
            }
            _ => self.rng.pick(&self.keys.clone()),
        }
    }

    fn value(&mut self) -> Bytes {
        let length = match self.rng.below(24) {
            0..=4 => 0,
            5 => self.rng.pick(&[32, 33, VALUE_MAX - 1, VALUE_MAX, VALUE_MAX]),
            6 => self.rng.pick(&[VALUE_MAX + 1, VALUE_MAX + 1, 128, 255, 256, 257, 256 + VALUE_MAX]),
            _ => 1 + self.rng.below(3),
        };
        let byte = self.rng.draw() as u8;
        (0..length).map(|i| byte.wrapping_add(i as u8)).collect()
    }

    /// At and beside every number that a sweep could turn on.
    fn limit(&mut self) -> u64 {
        let mut near = self.opens();
        near.extend(self.numbers());
        near.push(self.counter());
        let at = self.rng.pick(&near);
        let counter = self.counter();
        self.rng.pick(&[at, at, at.wrapping_sub(1), at.wrapping_add(1), counter, 0, u64::MAX, u64::MAX - 1])
    }

    /// At and beside every number where the answer of the past could change.
    fn stand(&mut self) -> u64 {
        let floor = self.store.as_ref().map_or(0, |s| s.floor);
        let mut near = self.numbers();
        near.extend([floor, floor, self.counter()]);
        let at = self.rng.pick(&near);
        self.rng.pick(&[at, at, at, at.wrapping_sub(1), at.wrapping_add(1), 0, u64::MAX])
    }

    fn room(&mut self) -> u64 {
        let exact = self.store.as_ref().map_or(20, |s| s.dump(u64::MAX).unwrap().len() as u64);
        if self.calm && self.rng.chance(3, 4) {
            return exact - 1;
        }
        self.rng.pick(&[exact, exact - 1, exact - 1, exact + 1, 0, 1 << 20, u64::MAX])
    }

    pub fn next_call(&mut self) -> Call {
        let next = match self.queue.pop() {
            Some(call) => call,
            None => self.any_call(),
        };
        let next = self.kept_open(next);
        let next = self.journaled(next);
        self.follow_call(&next);
        next
    }

    /// Where one desk is to stay open, it reads the hall in place of nearly all else that it is asked.
    fn kept_open(&mut self, next: Call) -> Call {
        let oldest = self.opens().into_iter().min();
        match next {
            Call::Put { start, .. } | Call::Delete { start, .. } | Call::Commit { start } | Call::Abort { start }
                if self.theme == Theme::LongOpen && oldest == Some(start) && self.rng.chance(31, 32) =>
            {
                Call::Read { start, key: self.key() }
            }
            next => next,
        }
    }

    /// Some commits are to write their records.
    fn journaled(&mut self, next: Call) -> Call {
        let often = if self.theme == Theme::Journals { 15 } else { 5 };
        match next {
            Call::Commit { start } if self.rng.chance(often, 16) => {
                Call::CommitTo { start, room: self.record_room(start) }
            }
            next => next,
        }
    }

    /// Mostly enough for the record, and then often no byte more.
    fn record_room(&mut self, start: u64) -> u64 {
        let Some(store) = &self.store else { return 0 };
        let writes = written(store, &Call::Commit { start });
        let exact = match writes.is_empty() {
            true => 0,
            false => Commit { number: store.counter, writes }.record().len() as u64,
        };
        let short = exact.saturating_sub(1);
        if self.theme == Theme::Journals && self.rng.chance(1, 2) {
            return self.rng.pick(&[exact, RECORD_MOST]);
        }
        self.rng.pick(&[exact, exact, exact + 1, RECORD_MOST, 1 << 20, u64::MAX, short, short, 0])
    }

    fn any_call(&mut self) -> Call {
        let in_batches = if self.theme == Theme::Batches { 40 } else { 4 };
        if self.batches && self.rng.chance(in_batches, 100) {
            return self.batch();
        }
        let opens = self.opens();
        self.burst(&opens);
        let spent = self.counter() == TOP;
        let wanted = match self.theme {
            Theme::LastNumbers => 4,
            Theme::LongOpen => 2,
            Theme::Clashes => 6,
            _ => 1,
        };
        if opens.len() < wanted.min(self.desks()) && !spent && self.rng.chance(2, 3) {
            return Call::Begin;
        }
        if opens.len() == self.desks() && self.rng.chance(1, 8) {
            return Call::Begin;
        }
        let crowd = match self.theme {
            Theme::Desks => self.desks(),
            Theme::LongOpen => 2,
            Theme::Clashes => 12,
            _ => 5,
        };
        let crowded = spent || opens.len() > crowd;
        match self.rng.below(100) {
            0..=11 if !crowded => Call::Begin,
            0..=24 => Call::Put { start: self.start(), key: self.key(), value: self.value() },
            25..=34 => Call::Delete { start: self.start(), key: self.key() },
            35..=51 => Call::Read { start: self.start(), key: self.key() },
            52..=54 => Call::Bytes { start: self.start(), key: self.key() },
            55..=70 => Call::Commit { start: self.start() },
            71..=73 => Call::Abort { start: self.start() },
            74..=80 => Call::Sweep { limit: self.limit() },
            81..=87 => Call::Thin { limit: self.limit() },
            88..=89 => Call::Newest { key: self.key() },
            90..=95 => Call::AsOf { number: self.stand(), key: self.key() },
            96 => Call::Counts,
            97..=98 => Call::Dump { room: self.room() },
            // Beside an open desk, most often.
            _ => Call::Replay { journal: self.journal() },
        }
    }

    /// Some records that this store might be given; or what was kept, which it has already done.
    fn journal(&mut self) -> Bytes {
        let kept = self.kept.clone().filter(|kept| !kept.commits.is_empty() && self.rng.chance(1, 6));
        let counter = self.counter();
        let commits = kept.map_or_else(|| self.commits_to_come(), |kept| kept.commits);
        match self.rng.below(3) {
            0 => commits.iter().flat_map(Commit::record).collect(),
            _ => damaged_journal(&mut self.rng, &commits, counter),
        }
    }

    fn commits_to_come(&mut self) -> Vec<Commit> {
        let mut number = self.counter();
        let mut commits = Vec::new();
        for _ in 0..self.rng.pick(&[0, 1, 1, 1, 2, 3, 4]) {
            number = number.saturating_add(1 + self.rng.below(3) as u64);
            let mut writes = Writes::new();
            for _ in 0..self.rng.pick(&[1, 1, 2, 3]) {
                let content = match self.rng.below(3) {
                    0 => None,
                    _ => Some(self.value()),
                };
                let key = match self.rng.below(4) {
                    0 => letter(self.rng.below(LETTERS)),
                    _ => self.rng.pick(&self.keys.clone()),
                };
                writes.insert(key, content);
            }
            commits.push(Commit { number, writes });
        }
        commits
    }

    /// Now and then, calls that come somewhere together only.
    fn burst(&mut self, opens: &[u64]) {
        let often = if self.theme == Theme::Journals { 6 } else { 3 };
        if !self.calm && self.rng.chance(often, 60) {
            return self.close_and_replay(opens);
        }
        match self.theme {
            Theme::Desks if opens.len() < self.desks() && self.rng.chance(1, 4) => {
                self.queue = vec![Call::Begin; self.desks() + self.rng.below(3) - opens.len()];
            }
            _ if opens.is_empty() => {}
            Theme::Writes if self.rng.chance(1, 8) => self.many_writes(),
            Theme::LongOpen if self.rng.chance(1, 6) => self.rewrite(),
            Theme::Clashes if opens.len() > 3 && self.rng.chance(1, 3) => self.contend(opens),
            _ if opens.len() > 1 && self.rng.chance(if self.theme == Theme::LastNumbers { 4 } else { 1 }, 10) => {
                self.clash(opens);
            }
            Theme::TinyRooms | Theme::LongOpen if self.rng.chance(1, 2) => self.publish(),
            _ if self.rng.chance(1, 6) => self.publish(),
            _ => {}
        }
    }

    /// All desks are closed, or all but one; then comes a journal, and now and then again.
    fn close_and_replay(&mut self, opens: &[u64]) {
        let journal = self.journal();
        self.queue = vec![Call::Replay { journal }; self.rng.pick(&[1, 1, 2])];
        let left = usize::from(self.rng.chance(1, 8));
        self.queue.extend(opens.iter().skip(left).map(|start| Call::Abort { start: *start }));
    }

    /// Up to as many keys as a desk takes, or some more.
    fn many_writes(&mut self) {
        let start = self.start();
        if self.rng.chance(1, 2) {
            self.queue.push(Call::Commit { start });
        }
        let count = if self.rng.chance(1, 2) { LETTERS - self.rng.below(4) } else { 1 + self.rng.below(LETTERS) };
        self.write_letters(start, LETTERS, count);
    }

    /// Of so many letters, each time in another order: an odd step is prime to both numbers of letters.
    fn write_letters(&mut self, start: u64, letters: usize, count: usize) {
        let (from, by) = (self.rng.below(letters), 1 + 2 * self.rng.below(8));
        for i in 0..count {
            let write = self.write(start, letter((from + i * by) % letters));
            self.queue.push(write);
        }
    }

    /// Some desks write many keys each, then all of them commit.
    fn contend(&mut self, opens: &[u64]) {
        let starts: Vec<u64> = (0..2 + self.rng.below(2)).map(|_| self.rng.pick(opens)).collect();
        self.queue.extend(starts.iter().map(|start| Call::Commit { start: *start }));
        let letters = self.rng.pick(&[WRITES_MAX, LETTERS]);
        let count = self.rng.pick(&[1, 3, WRITES_MAX, WRITES_MAX]);
        for start in starts {
            if self.keys.len() < LETTERS {
                for key in self.keys.clone() {
                    let write = self.write(start, key);
                    self.queue.push(write);
                }
            } else {
                self.write_letters(start, letters, count);
            }
        }
    }

    fn publish(&mut self) {
        let start = self.start();
        self.queue.push(Call::Commit { start });
        for _ in 0..1 + self.rng.below(3) {
            let key = self.rng.pick(&self.keys.clone());
            let write = self.write(start, key);
            self.queue.push(write);
        }
    }

    /// One key is committed again and again, then comes a sweep.
    fn rewrite(&mut self) {
        let (limit, counter) = (self.limit(), self.counter());
        let sweeps = [Call::Thin { limit }, Call::Thin { limit: u64::MAX }, Call::Sweep { limit }];
        self.queue.push(self.rng.pick(&sweeps));
        let key = self.rng.pick(&self.keys.clone());
        for start in (1..=2 + self.rng.below(3) as u64).rev().map(|i| counter.saturating_add(2 * i - 1)) {
            let write = self.write(start, key.clone());
            self.queue.extend([Call::Commit { start }, write, Call::Begin]);
        }
    }

    fn write(&mut self, start: u64, key: Bytes) -> Call {
        match self.rng.below(3) {
            0 => Call::Delete { start, key },
            _ => Call::Put { start, key, value: self.value() },
        }
    }

    /// Two transactions write the same few keys, in any order, and both commit.
    fn clash(&mut self, opens: &[u64]) {
        let both = [self.rng.pick(opens), self.rng.pick(opens)];
        self.queue.extend(both.map(|start| Call::Commit { start }));
        for _ in 0..2 + self.rng.below(4) {
            let start = self.rng.pick(&both);
            let key = self.rng.pick(&self.keys.clone());
            let write = self.write(start, key);
            self.queue.push(write);
        }
    }

    pub fn next_opening(&mut self) -> Opening {
        if self.rng.chance(1, 3) {
            if let Some(next) = self.next_recovery() {
                return next;
            }
        }
        let load = match self.theme {
            Theme::LastNumbers | Theme::Large => true,
            Theme::Loads => self.rng.chance(9, 10),
            Theme::Desks => self.rng.chance(1, 2),
            _ => self.rng.chance(1, 5),
        };
        if load {
            return self.next_load();
        }
        let next = self.make();
        self.follow_opening(&next);
        next
    }

    /// What was kept is loaded, and its journal comes next; if there is one.
    pub fn next_recovery(&mut self) -> Option<Opening> {
        let kept = self.kept.clone().filter(|kept| !kept.commits.is_empty())?;
        let journal = match self.rng.chance(1, 3) {
            true => kept.commits.iter().flat_map(Commit::record).collect(),
            false => damaged_journal(&mut self.rng, &kept.commits, kept.counter),
        };
        let largest = Sizes::new(KEY_ROOMS_MAX, VERSION_ROOMS_MAX, 1);
        let mut rebuilt = Store::load(&kept.dump, largest).expect("it was dumped");
        let (least_keys, least_versions, _) = rebuilt.counts();
        let _ = rebuilt.replay(&journal);
        let (keys, versions, _) = rebuilt.counts();
        let desks = self.some_desks();
        // As many rooms as it takes, more, or too few for one of the records.
        let (key_rooms, version_rooms) = match self.rng.below(8) {
            0..=2 => (keys + 1 + self.rng.below(4) as u64, versions + 1 + self.rng.below(9) as u64),
            3 | 4 => (keys, versions),
            5 => (least_keys.max(keys.saturating_sub(1)), versions + self.rng.below(2) as u64),
            6 => (keys, least_versions.max(versions.saturating_sub(1))),
            _ => (least_keys, least_versions + self.rng.below(3) as u64),
        };
        let sizes = Sizes::new(key_rooms.max(1), version_rooms.max(1), desks);
        let next = Opening::Load { dump: kept.dump.clone(), sizes };
        self.follow_opening(&next);
        self.queue = vec![Call::Replay { journal }; self.rng.pick(&[1, 1, 1, 1, 2])];
        if self.rng.chance(1, 8) {
            self.queue.push(Call::Begin);
        }
        Some(next)
    }

    pub fn next_load(&mut self) -> Opening {
        let sound = match self.theme {
            Theme::Loads => self.rng.chance(1, 4),
            _ => self.rng.chance(7, 8),
        };
        let next = self.load(sound);
        self.follow_opening(&next);
        next
    }

    fn make(&mut self) -> Opening {
        let (keys, versions) = match self.theme {
            Theme::TinyRooms => (1..=4, 1..=6),
            Theme::Writes => (1..=24, 8..=64),
            Theme::LongOpen => (2..=6, 16..=48),
            Theme::Clashes => (19..=24, 48..=96),
            _ => (2..=8, 4..=32),
        };
        let mut within = |sizes: RangeInclusive<u64>| self.rng.pick(&sizes.collect::<Vec<u64>>());
        let (key_rooms, version_rooms) = (within(keys), within(versions));
        let desks = self.some_desks();
        Opening::Make { sizes: self.edge_of(Sizes { key_rooms, version_rooms, desks }) }
    }

    fn some_desks(&mut self) -> u64 {
        match self.theme {
            Theme::Desks => self.rng.pick(&[1, 2, 3, 63, 64, 64]),
            Theme::Clashes => self.rng.pick(&[8, 63, 64]),
            Theme::Batches => self.rng.pick(&[1, 2, 2, 3, 5, 64]),
            _ => self.rng.pick(&[1, 2, 5, 8, 63, 64, 64]),
        }
    }

    /// Now and then sizes out of range instead, or the largest, or about as large as the console's memory.
    fn edge_of(&mut self, sizes: Sizes) -> Sizes {
        let mut bad = |most: u64| self.rng.pick(&[0, most + 1, (1 << 32) + 1, 1 << 63, u64::MAX]);
        let (bad_keys, bad_versions, bad_desks) = (bad(KEY_ROOMS_MAX), bad(VERSION_ROOMS_MAX), bad(DESKS_MAX));
        match self.rng.below(64) {
            0 | 1 => Sizes { key_rooms: bad_keys, ..sizes },
            2 | 3 => Sizes { version_rooms: bad_versions, ..sizes },
            4 | 5 => Sizes { desks: bad_desks, ..sizes },
            6 => Sizes { key_rooms: KEY_ROOMS_MAX, version_rooms: VERSION_ROOMS_MAX, ..sizes },
            7 => Sizes { key_rooms: 1 + self.rng.below(6) as u64, version_rooms: 9_619, ..sizes },
            _ => sizes,
        }
    }

    /// A load that is most likely refused.
    pub fn next_fault(&mut self) -> Opening {
        let next = self.load(false);
        self.follow_opening(&next);
        next
    }

    fn load(&mut self, sound: bool) -> Opening {
        let real = self.rng.chance(1, 2);
        let desks = self.some_desks();
        let hall = match &self.store {
            Some(store) if real => store.clone(),
            _ => self.craft(desks),
        };
        let dump = if sound { hall.dump(u64::MAX).unwrap() } else { damaged(&mut self.rng, &hall) };
        let (keys, versions, _) = hall.counts();
        let ample = self.rng.chance(1, 2);
        // Larger, exact, or one too small.
        let mut rooms = |held: u64| match self.rng.below(6) {
            _ if ample => held + 3 + self.rng.below(6) as u64,
            0 => held.saturating_sub(1),
            1 | 2 => held + 1,
            _ => held.max(1),
        };
        let (key_rooms, version_rooms) = (rooms(keys), rooms(versions));
        Opening::Load { dump, sizes: self.edge_of(Sizes { key_rooms, version_rooms, desks }) }
    }

    /// A random hall, as no run of one store needs to have made it: any ascending numbers, shared by keys or not.
    fn craft(&mut self, desks: u64) -> Store {
        let mut store = Store::make(Sizes::new(KEY_ROOMS_MAX, VERSION_ROOMS_MAX, desks)).unwrap();
        let late = match self.theme {
            Theme::LastNumbers => true,
            Theme::Desks => self.rng.chance(1, 2),
            _ => self.rng.chance(1, 12),
        };
        store.counter = match late {
            // As many numbers as desks are left: both run out at once.
            true if self.theme == Theme::Desks => TOP - self.rng.pick(&[desks - 1, desks, desks + 1]),
            true => TOP - self.rng.below(6) as u64,
            false if self.rng.chance(1, 8) => 0,
            false => 2 + self.rng.below(9) as u64,
        };
        if self.theme == Theme::Large {
            self.craft_many(&mut store);
        }
        for key in self.keys.clone() {
            // Where the rooms are exact, a key left out here is one that finds none.
            if self.rng.chance(1, 4) {
                continue;
            }
            let mut versions = Vec::new();
            let mut number = if late && self.rng.chance(2, 3) { store.counter - 4 } else { 0 };
            for _ in 0..self.rng.pick(&[1, 1, 2, 2, 3, 4]) {
                number = number.saturating_add(1 + self.rng.below(2) as u64);
                let value = self.value();
                let content: Content = (value.len() <= VALUE_MAX && self.rng.chance(3, 4)).then_some(value);
                if number <= store.counter {
                    versions.push(Version { number, content });
                }
            }
            if !versions.is_empty() {
                store.keys.insert(key, versions);
            }
        }
        store
    }

    /// Some hundred more keys, from each of which the next differs late.
    fn craft_many(&mut self, store: &mut Store) {
        store.counter = 400;
        for i in 0..60 + self.rng.below(400) {
            let key =
                [vec![b'm'; self.rng.below(KEY_MAX - 2)], vec![b'!' + (i % 94) as u8, b'!' + (i / 94) as u8]].concat();
            let mut number = 0;
            let mut versions = Vec::new();
            for _ in 0..1 + self.rng.below(4) {
                number += 1 + self.rng.below(100) as u64;
                let length = self.rng.pick(&[0, 1, 8, 33, VALUE_MAX]);
                let content = self.rng.chance(3, 4).then(|| vec![i as u8; length]);
                versions.push(Version { number, content });
            }
            store.keys.insert(key, versions);
        }
        // Half of the run's keys are among them.
        let held: Vec<Bytes> = store.keys.keys().cloned().collect();
        self.keys.truncate(3);
        for _ in 0..3 {
            let key = self.rng.pick(&held);
            self.keys.push(key);
        }
    }

    fn follow_opening(&mut self, opening: &Opening) {
        if let Ok(store) = open(opening) {
            self.store = Some(store);
            self.starts.clear();
            self.queue.clear();
            self.kept = None;
        }
    }

    fn follow_call(&mut self, next: &Call) {
        let Some(store) = &mut self.store else { return };
        if self.kept.is_none() || self.rng.chance(1, 80) {
            let dump = store.dump(u64::MAX).expect("there is room");
            self.kept = Some(Kept { dump, counter: store.counter, commits: Vec::new() });
        }
        let writes = written(store, next);
        let reply = call(store, next);
        if let (Reply::Recorded { committed: Committed::Number(number), .. }, Some(kept)) = (&reply, &mut self.kept) {
            kept.commits.push(Commit { number: *number, writes });
        }
        match (next, &reply) {
            (Call::Begin, _) => self.starts.push(store.counter),
            (_, Reply::Batched(replies)) => self.starts.extend(replies.iter().filter_map(start_begun)),
            _ => {}
        }
    }
}

#[cfg(test)]
mod tests {
    use super::*;
    use crate::damage::{fields, Part};
    use crate::store::No;
    use std::collections::BTreeMap;

    #[test]
    fn fields_make_the_dump() {
        for seed in 0..50 {
            let hall = Gen::new(seed).craft(DESKS_MAX);
            let dump: Bytes = fields(&hall).into_iter().flat_map(|f| f.bytes).collect();
            assert_eq!(hall.dump(u64::MAX), Ok(dump));
        }
    }

    /// Without the sweeps of a run its transactions are answered the same, up to the first commit that then lacks room.
    #[test]
    fn sweeps_can_be_struck() {
        let (mut compared, mut dropped) = (0, [0, 0]);
        for seed in 0..400 {
            let mut gen = Gen::new(seed);
            let Ok(mut swept) = open(&gen.next_opening()) else { continue };
            let mut unswept = swept.clone();
            for _ in 0..200 {
                let next = gen.next_call();
                let reply = call(&mut swept, &next);
                match (&next, &reply) {
                    (_, Reply::Swept { dropped: more, .. }) => dropped[0] += more,
                    (_, Reply::Thinned { dropped: more }) => dropped[1] += more,
                    (Call::Newest { .. } | Call::AsOf { .. } | Call::Counts | Call::Dump { .. }, _) => {}
                    _ => {
                        let otherwise = call(&mut unswept, &next);
                        if let Reply::No(No::Plain(10 | 11) | No::At { no: 10 | 11, .. }) = otherwise {
                            break;
                        }
                        assert_eq!(reply, otherwise, "seed {seed}: {next:?}");
                        compared += 1;
                    }
                }
            }
        }
        println!("{compared} answers compared, {dropped:?} versions dropped");
        assert!(compared > 10_000 && dropped.iter().all(|dropped| *dropped > 500), "{compared}, {dropped:?}");
    }

    /// The oldest start lasts, and versions above it go.
    #[test]
    fn a_start_is_open_for_long() {
        let (mut longest, mut between) = (0, 0);
        for seed in 0..40 {
            let mut gen = Gen::about(Theme::LongOpen, SplitMix64::new(seed));
            let (mut oldest, mut calls) = (None, 0);
            gen.next_opening();
            for _ in 0..300 {
                let above = |gen: &Gen| gen.numbers().into_iter().filter(|n| Some(*n) > oldest).count();
                let before = above(&gen);
                if let Call::Thin { .. } = gen.next_call() {
                    between += u64::from(oldest.is_some() && above(&gen) < before);
                }
                calls = if gen.opens().into_iter().min() == oldest { calls + 1 } else { 0 };
                oldest = gen.opens().into_iter().min();
                longest = longest.max(calls);
            }
        }
        println!("open for {longest} calls, {between} sweeps drop above it");
        assert!(longest >= 200 && between >= 40, "{longest}, {between}");
    }

    /// Which part of a dump an offset is in, if its fields before are as they were.
    fn part_at(hall: &Store, offset: u64) -> Option<Part> {
        let mut at = 0;
        for field in fields(hall) {
            if at == offset && !field.bytes.is_empty() {
                return Some(field.part);
            }
            at += field.bytes.len() as u64;
        }
        None
    }

    #[test]
    fn every_fault_of_a_dump_is_met() {
        let mut met: BTreeMap<(u8, Option<Part>), u64> = BTreeMap::new();
        for seed in 0..4_000 {
            let mut gen = Gen::about(Theme::Loads, SplitMix64::new(seed));
            let hall = gen.craft(1);
            let (keys, versions, _) = hall.counts();
            let dump = damaged(&mut gen.rng, &hall);
            if let Err(No::At { no, offset }) = Store::load(&dump, Sizes::new(keys.max(1), versions.max(1), 1)) {
                *met.entry((no, part_at(&hall, offset))).or_default() += 1;
            }
        }
        println!("{met:?}");
        use Part::*;
        let cut = [Opening, Next, KeyCount, KeyLength, Key, VersionCount, Number, Tag, ValueLength, Value]
            .map(|part| (13, Some(part)));
        let malformed =
            [Opening, Next, KeyLength, Key, VersionCount, Number, Tag, ValueLength].map(|part| (14, Some(part)));
        let big = [KeyCount, VersionCount].map(|part| (15, Some(part)));
        for fault in [&cut[..], &malformed, &big, &[(14, None)]].concat() {
            assert!(met.get(&fault) >= Some(&5), "{fault:?}: {:?}", met.get(&fault));
        }
    }
}
