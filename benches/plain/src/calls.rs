//! The calls that are measured, as both stores have them.

use hourbracken::{Begun, Clash, Committed, Counted, Found, Sizes, Start, Store, Swept, KEY_BYTES, MAX_KEY};

/// Why a call was not done: the number of its refusal, or the keys of a conflict with their newest numbers.
#[derive(Clone, PartialEq, Eq, Debug)]
pub enum Refusal {
    Number(u64),
    Conflict(Vec<(Key, u64)>),
}

pub type Answer<T> = Result<T, Refusal>;

/// A key in three words, big-endian and padded with zeros, which no key has, so that words are ordered as bytes are.
#[derive(Clone, Copy, PartialEq, Eq, PartialOrd, Ord, Debug, Default)]
pub struct Key {
    pub words: [u64; 3],
    pub len: u8,
}

impl Key {
    /// Nothing if it is no key.
    #[inline]
    pub fn new(key: &[u8]) -> Option<Key> {
        if !(1..=MAX_KEY).contains(&key.len()) || !key.iter().all(|byte| KEY_BYTES.contains(byte)) {
            return None;
        }
        let mut words = [0; 3];
        for (word, bytes) in words.iter_mut().zip(key.chunks(8)) {
            *word = bytes.iter().fold(0, |word, byte| word << 8 | u64::from(*byte)) << (64 - 8 * bytes.len());
        }
        Some(Key { words, len: key.len() as u8 })
    }
}

pub trait Calls {
    fn begin(&mut self) -> Answer<Begun>;
    fn read(&self, start: Start, key: &[u8]) -> Answer<Found<'_>>;
    fn newest(&self, key: &[u8]) -> Answer<Found<'_>>;
    fn put(&mut self, start: Start, key: &[u8], value: &[u8]) -> Answer<()>;
    fn delete(&mut self, start: Start, key: &[u8]) -> Answer<()>;
    /// The number of the new versions, if the transaction had writes.
    fn commit(&mut self, start: Start) -> Answer<Option<u64>>;
    fn abort(&mut self, start: Start) -> Answer<()>;
    fn sweep(&mut self, limit: u64) -> Answer<Swept>;
    fn counts(&self) -> Answer<Counted>;
    fn dump(&self, out: &mut [u8]) -> Answer<usize>;
}

fn refused(refusal: hourbracken::Refusal) -> Refusal {
    match refusal {
        hourbracken::Refusal::Conflict(clashes) => {
            let named = |clash: Clash| (Key::new(&clash.key).unwrap_or_default(), clash.newest.number());
            Refusal::Conflict(clashes.iter().map(named).collect())
        }
        other => Refusal::Number(other.number()),
    }
}

/// The proved store: the calls of `rust/`, which find each memory sound before they do anything.
pub struct Proved<'m>(Store<'m>);

impl<'m> Proved<'m> {
    pub fn make(hall: &'m mut [u8], desk: &'m mut [u8], sizes: Sizes) -> Answer<Proved<'m>> {
        Store::make(hall, desk, sizes).map(Proved).map_err(refused)
    }
}

impl Calls for Proved<'_> {
    fn begin(&mut self) -> Answer<Begun> {
        self.0.begin().map_err(refused)
    }

    fn read(&self, start: Start, key: &[u8]) -> Answer<Found<'_>> {
        self.0.read(start, key).map_err(refused)
    }

    fn newest(&self, key: &[u8]) -> Answer<Found<'_>> {
        self.0.newest(key).map_err(refused)
    }

    fn put(&mut self, start: Start, key: &[u8], value: &[u8]) -> Answer<()> {
        self.0.put(start, key, value).map_err(refused)
    }

    fn delete(&mut self, start: Start, key: &[u8]) -> Answer<()> {
        self.0.delete(start, key).map_err(refused)
    }

    fn commit(&mut self, start: Start) -> Answer<Option<u64>> {
        match self.0.commit(start).map_err(refused)? {
            Committed::As(commit) => Ok(Some(commit.number())),
            Committed::Closed => Ok(None),
        }
    }

    fn abort(&mut self, start: Start) -> Answer<()> {
        self.0.abort(start).map_err(refused)
    }

    fn sweep(&mut self, limit: u64) -> Answer<Swept> {
        self.0.sweep(limit).map_err(refused)
    }

    fn counts(&self) -> Answer<Counted> {
        self.0.counts().map_err(refused)
    }

    fn dump(&self, out: &mut [u8]) -> Answer<usize> {
        self.0.dump(out).map_err(refused)
    }
}
