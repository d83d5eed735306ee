//! The store as one writes it when nothing is to be proved: it owns its data and tests no memory.

use std::collections::HashMap;
use std::hash::{BuildHasherDefault, Hash, Hasher};

use hourbracken::{Begun, Counted, Found, Sizes, Start, Swept};
use hourbracken::{MAX_DESKS, MAX_KEY_ROOMS, MAX_VALUE, MAX_VERSION_ROOMS, MAX_WRITES};

use crate::calls::{Answer, Calls, Key, Refusal};

const LAST_NUMBER: u64 = u64::MAX - 1;

const BAD_SIZES: Refusal = Refusal::Number(2);
const BAD_KEY: Refusal = Refusal::Number(3);
const LONG_VALUE: Refusal = Refusal::Number(4);
const NOT_OPEN: Refusal = Refusal::Number(5);
const DESKS_TAKEN: Refusal = Refusal::Number(6);
const TOO_MANY_WRITES: Refusal = Refusal::Number(7);
const SPENT: Refusal = Refusal::Number(8);
const NO_KEY_ROOM: Refusal = Refusal::Number(10);
const NO_VERSION_ROOM: Refusal = Refusal::Number(11);
const SHORT_OUTPUT: Refusal = Refusal::Number(12);

/// What was written: a value, or a deletion. Bytes past the length are of no account.
#[derive(Clone, Copy)]
struct Payload {
    deletion: bool,
    len: u8,
    bytes: [u8; MAX_VALUE],
}

impl Default for Payload {
    fn default() -> Payload {
        Payload { deletion: false, len: 0, bytes: [0; MAX_VALUE] }
    }
}

impl Payload {
    /// In place, which spares a copy.
    fn set(&mut self, value: Option<&[u8]>) {
        self.deletion = value.is_none();
        let value = value.unwrap_or_default();
        self.bytes[..value.len()].copy_from_slice(value);
        self.len = value.len() as u8;
    }

    fn value(&self) -> Option<&[u8]> {
        self.bytes.get(..self.len.into()).filter(|_| !self.deletion)
    }
}

#[derive(Clone, Copy, Default)]
struct Write {
    key: Key,
    payload: Payload,
}

/// The writes of an open transaction, in the order in which they came.
#[derive(Clone, Default)]
struct Desk {
    writes: [Write; MAX_WRITES],
    count: usize,
}

impl Desk {
    fn held(&self) -> &[Write] {
        self.writes.get(..self.count).unwrap_or(&[])
    }

    fn own(&self, key: &Key) -> Option<&Write> {
        self.held().iter().find(|write| write.key == *key)
    }

    /// Where a write of the key goes.
    fn room(&mut self, key: Key) -> Answer<&mut Payload> {
        let at = self.held().iter().position(|write| write.key == key).unwrap_or(self.count);
        let write = self.writes.get_mut(at).ok_or(TOO_MANY_WRITES)?;
        write.key = key;
        self.count = self.count.max(at + 1);
        Ok(&mut write.payload)
    }
}

/// Where no version is.
const NONE: u32 = u32::MAX;

#[derive(Clone, Copy)]
struct Version {
    number: u64,
    payload: Payload,
    /// The next older version of the key, or the next free one.
    older: u32,
}

/// The newest version of a key: its number and its place.
#[derive(Clone, Copy)]
struct Chain {
    number: u64,
    newest: u32,
}

/// Keys are short and few: one multiplication a word does.
#[derive(Default)]
struct Mix(u64);

impl Hasher for Mix {
    fn write(&mut self, bytes: &[u8]) {
        bytes.iter().for_each(|byte| self.write_u64(u64::from(*byte)));
    }

    fn write_u64(&mut self, word: u64) {
        self.0 = (self.0 ^ word).wrapping_mul(0x9E37_79B9_7F4A_7C15).rotate_left(26);
    }

    fn finish(&self) -> u64 {
        self.0
    }
}

impl Hash for Key {
    fn hash<H: Hasher>(&self, state: &mut H) {
        self.words.iter().for_each(|word| state.write_u64(*word));
    }
}

pub struct Plain {
    counter: u64,
    key_rooms: usize,
    /// The place of a key's chain.
    keys: HashMap<Key, u32, BuildHasherDefault<Mix>>,
    chains: Vec<Chain>,
    /// Places of chains whose keys are gone.
    spare: Vec<u32>,
    versions: Vec<Version>,
    held: usize,
    free: u32,
    /// Occupied desks, bit by bit, and their starts; 0 for a free one.
    open: u64,
    starts: Vec<u64>,
    /// The desk that the last start with these low eight bits took.
    seated: [u8; 256],
    desks: Vec<Desk>,
}

impl Plain {
    pub fn make(sizes: Sizes) -> Answer<Plain> {
        let Sizes { key_rooms, version_rooms, desks } = sizes;
        let fits = |size: usize, largest: usize| (1..=largest).contains(&size);
        if !(fits(key_rooms, MAX_KEY_ROOMS) && fits(version_rooms, MAX_VERSION_ROOMS) && fits(desks, MAX_DESKS)) {
            return Err(BAD_SIZES);
        }
        let free = |place| Version { number: 0, payload: Payload::default(), older: place as u32 + 1 };
        Ok(Plain {
            counter: 0,
            key_rooms,
            keys: HashMap::with_capacity_and_hasher(key_rooms, Default::default()),
            chains: Vec::with_capacity(key_rooms),
            spare: Vec::new(),
            versions: (0..version_rooms).map(free).collect(),
            held: 0,
            free: 0,
            open: 0,
            starts: vec![0; desks],
            seated: [0; 256],
            desks: vec![Desk::default(); desks],
        })
    }

    fn desk(&self, start: Start) -> Answer<usize> {
        let start = start.number();
        let likely = usize::from(self.seated[start as u8 as usize]);
        if start != 0 && self.starts.get(likely) == Some(&start) {
            return Ok(likely);
        }
        self.starts.iter().position(|taken| start != 0 && *taken == start).ok_or(NOT_OPEN)
    }

    fn close(&mut self, desk: usize) {
        self.open &= !(1 << desk);
        self.starts[desk] = 0;
        self.desks[desk].count = 0;
    }

    /// The key's versions, newest first.
    fn versions(&self, key: &Key) -> impl Iterator<Item = &Version> {
        let mut next = self.keys.get(key).map_or(NONE, |place| self.chains[*place as usize].newest);
        std::iter::from_fn(move || {
            let version = self.versions.get(next as usize)?;
            next = version.older;
            Some(version)
        })
    }

    /// Of each write the place of its key's chain, or none if the key is new, and how many are; or the conflict.
    fn places(&self, desk: usize) -> Answer<([u32; MAX_WRITES], usize)> {
        let (mut places, mut new) = ([NONE; MAX_WRITES], 0);
        let mut clashes = Vec::new();
        for (write, place) in self.desks[desk].held().iter().zip(&mut places) {
            let Some(at) = self.keys.get(&write.key) else {
                new += 1;
                continue;
            };
            *place = *at;
            let newest = self.chains[*at as usize].number;
            if newest > self.starts[desk] {
                clashes.push((write.key, newest));
            }
        }
        if clashes.is_empty() {
            return Ok((places, new));
        }
        clashes.sort();
        Err(Refusal::Conflict(clashes))
    }

    fn publish(&mut self, desk: usize, places: &[u32; MAX_WRITES]) {
        self.counter += 1;
        for (write, place) in self.desks[desk].held().iter().zip(places) {
            let chain = Chain { number: self.counter, newest: self.free };
            let older = match self.chains.get_mut(*place as usize) {
                Some(known) => std::mem::replace(known, chain).newest,
                None => {
                    let place = self.spare.pop().unwrap_or(self.chains.len() as u32);
                    self.keys.insert(write.key, place);
                    match self.chains.get_mut(place as usize) {
                        Some(empty) => *empty = chain,
                        None => self.chains.push(chain),
                    }
                    NONE
                }
            };
            let version = &mut self.versions[self.free as usize];
            self.free = version.older;
            *version = Version { number: self.counter, payload: write.payload, older };
            self.held += 1;
        }
    }

    /// Takes out the keys that have no version any more.
    fn drop_empty(&mut self) {
        let (chains, spare) = (&self.chains, &mut self.spare);
        self.keys.retain(|_, place| {
            let stays = chains[*place as usize].newest != NONE;
            if !stays {
                spare.push(*place);
            }
            stays
        });
    }

    fn write(&mut self, start: Start, key: &[u8], value: Option<&[u8]>) -> Answer<()> {
        let key = Key::new(key).ok_or(BAD_KEY)?;
        if value.map_or(0, <[u8]>::len) > MAX_VALUE {
            return Err(LONG_VALUE);
        }
        let desk = self.desk(start)?;
        self.desks[desk].room(key)?.set(value);
        Ok(())
    }
}

fn hall(version: Option<&Version>) -> Found<'_> {
    version.and_then(|version| version.payload.value()).map_or(Found::Nothing, Found::Hall)
}

impl Calls for Plain {
    fn begin(&mut self) -> Answer<Begun> {
        let desk = self.open.trailing_ones() as usize;
        let start = self.starts.get_mut(desk).ok_or(DESKS_TAKEN)?;
        if self.counter == LAST_NUMBER {
            return Err(SPENT);
        }
        self.counter += 1;
        *start = self.counter;
        self.seated[self.counter as u8 as usize] = desk as u8;
        self.open |= 1 << desk;
        Ok(Begun { start: Start::from_number(self.counter), desk })
    }

    fn read(&self, start: Start, key: &[u8]) -> Answer<Found<'_>> {
        let key = Key::new(key).ok_or(BAD_KEY)?;
        let desk = self.desk(start)?;
        Ok(match self.desks[desk].own(&key) {
            Some(write) => write.payload.value().map_or(Found::Nothing, Found::Own),
            None => hall(self.versions(&key).find(|version| version.number <= start.number())),
        })
    }

    fn newest(&self, key: &[u8]) -> Answer<Found<'_>> {
        let key = Key::new(key).ok_or(BAD_KEY)?;
        Ok(hall(self.versions(&key).next()))
    }

    fn put(&mut self, start: Start, key: &[u8], value: &[u8]) -> Answer<()> {
        self.write(start, key, Some(value))
    }

    fn delete(&mut self, start: Start, key: &[u8]) -> Answer<()> {
        self.write(start, key, None)
    }

    fn commit(&mut self, start: Start) -> Answer<Option<u64>> {
        let desk = self.desk(start)?;
        let count = self.desks[desk].count;
        if count == 0 {
            self.close(desk);
            return Ok(None);
        }
        let (places, new) = self.places(desk).map_err(|conflict| {
            self.close(desk);
            conflict
        })?;
        if self.counter == LAST_NUMBER {
            return Err(SPENT);
        }
        if new > self.key_rooms - self.keys.len() {
            return Err(NO_KEY_ROOM);
        }
        if count > self.versions.len() - self.held {
            return Err(NO_VERSION_ROOM);
        }
        self.publish(desk, &places);
        self.close(desk);
        Ok(Some(self.counter))
    }

    fn abort(&mut self, start: Start) -> Answer<()> {
        let desk = self.desk(start)?;
        self.close(desk);
        Ok(())
    }

    fn sweep(&mut self, limit: u64) -> Answer<Swept> {
        let starts = self.starts.iter().filter(|start| **start != 0);
        let cutoff = starts.fold(limit.min(self.counter), |least, start| least.min(*start));
        let (mut dropped, mut keys_go) = (0, false);
        for chain in &mut self.chains {
            // the newest version at or below the cutoff is the oldest that stays, if it is a value
            let (mut above, mut at) = (NONE, chain.newest);
            while at != NONE && self.versions[at as usize].number > cutoff {
                (above, at) = (at, self.versions[at as usize].older);
            }
            if at == NONE {
                continue;
            }
            let stays = self.versions[at as usize].payload.value().is_some();
            let end = match self.versions.get_mut(if stays { at } else { above } as usize) {
                Some(oldest) => &mut oldest.older,
                None => {
                    keys_go = true;
                    &mut chain.newest
                }
            };
            let mut gone = std::mem::replace(end, NONE);
            while gone != NONE {
                let older = std::mem::replace(&mut self.versions[gone as usize].older, self.free);
                self.free = gone;
                gone = older;
                dropped += 1;
            }
        }
        self.held -= dropped;
        if keys_go {
            self.drop_empty();
        }
        Ok(Swept { cutoff, dropped: dropped as u64 })
    }

    fn counts(&self) -> Answer<Counted> {
        let (keys, versions, desks) = (self.keys.len(), self.held, self.open.count_ones());
        Ok(Counted { keys: keys as u64, versions: versions as u64, desks: desks.into() })
    }

    fn dump(&self, out: &mut [u8]) -> Answer<usize> {
        let mut keys: Vec<&Key> = self.keys.keys().collect();
        keys.sort();
        let mut dump = Vec::new();
        dump.extend(b"DSEMVCC1");
        dump.extend((self.counter + 1).to_le_bytes());
        dump.extend((keys.len() as u32).to_le_bytes());
        for key in keys {
            let bytes = key.words.map(u64::to_be_bytes).concat();
            dump.extend(u32::from(key.len).to_le_bytes());
            dump.extend(bytes.iter().take(key.len.into()));
            let versions: Vec<&Version> = self.versions(key).collect();
            dump.extend((versions.len() as u32).to_le_bytes());
            for version in versions.iter().rev() {
                dump.extend(version.number.to_le_bytes());
                dump.push(version.payload.value().is_some().into());
                if let Some(value) = version.payload.value() {
                    dump.extend((value.len() as u32).to_le_bytes());
                    dump.extend(value);
                }
            }
        }
        out.get_mut(..dump.len()).ok_or(SHORT_OUTPUT)?.copy_from_slice(&dump);
        Ok(dump.len())
    }
}
