//! What the calls answer.

use crate::{Refusal, Shown};
use core::borrow::Borrow;
use core::cmp::Ordering;
use core::fmt;
use core::hash::{Hash, Hasher};
use core::ops::Deref;

/// The number of a transaction, which is its handle too.
#[derive(Clone, Copy, PartialEq, Eq, PartialOrd, Ord, Hash, Debug)]
pub struct Start(u64);

/// The number of a version.
#[derive(Clone, Copy, PartialEq, Eq, PartialOrd, Ord, Hash, Debug)]
pub struct Commit(u64);

impl Start {
    /// A start that was written down, as by a console. One that names no open transaction is refused by the call it is
    /// given to.
    #[must_use]
    pub const fn from_number(number: u64) -> Start {
        Start(number)
    }

    /// The number itself.
    ///
    /// ```
    /// assert_eq!(hourbracken::Start::from_number(7).number(), 7);
    /// ```
    #[must_use]
    pub const fn number(self) -> u64 {
        self.0
    }
}

impl Commit {
    pub(crate) const fn new(number: u64) -> Commit {
        Commit(number)
    }

    /// The number itself.
    #[must_use]
    pub const fn number(self) -> u64 {
        self.0
    }
}

impl fmt::Display for Start {
    fn fmt(&self, f: &mut fmt::Formatter<'_>) -> fmt::Result {
        fmt::Display::fmt(&self.0, f)
    }
}

impl fmt::Display for Commit {
    fn fmt(&self, f: &mut fmt::Formatter<'_>) -> fmt::Result {
        fmt::Display::fmt(&self.0, f)
    }
}

/// A key that an answer names, copied out, so that the answer outlives what it speaks of. The store's keys have 1 to 24
/// bytes of [`KEY_BYTES`](crate::KEY_BYTES) and are shown as text; one of a damaged dump may have others. Keys compare
/// by their bytes.
#[derive(Clone, Copy)]
pub struct Key {
    bytes: [u8; crate::MAX_KEY],
    len: u8,
}

impl Key {
    pub(crate) fn copied(from: &[u8]) -> Key {
        let mut key = Key { bytes: [0; crate::MAX_KEY], len: 0 };
        for (to, byte) in key.bytes.iter_mut().zip(from) {
            *to = *byte;
            key.len += 1;
        }
        key
    }
}

impl Deref for Key {
    type Target = [u8];

    fn deref(&self) -> &[u8] {
        self.bytes.get(..usize::from(self.len)).unwrap_or(&[])
    }
}

impl AsRef<[u8]> for Key {
    fn as_ref(&self) -> &[u8] {
        self
    }
}

impl Borrow<[u8]> for Key {
    fn borrow(&self) -> &[u8] {
        self
    }
}

impl PartialEq for Key {
    fn eq(&self, other: &Key) -> bool {
        **self == **other
    }
}

impl Eq for Key {}

impl PartialOrd for Key {
    fn partial_cmp(&self, other: &Key) -> Option<Ordering> {
        Some(self.cmp(other))
    }
}

impl Ord for Key {
    fn cmp(&self, other: &Key) -> Ordering {
        (**self).cmp(&**other)
    }
}

impl Hash for Key {
    fn hash<H: Hasher>(&self, state: &mut H) {
        (**self).hash(state);
    }
}

impl fmt::Display for Key {
    fn fmt(&self, f: &mut fmt::Formatter<'_>) -> fmt::Result {
        fmt::Display::fmt(&Shown(self), f)
    }
}

impl fmt::Debug for Key {
    fn fmt(&self, f: &mut fmt::Formatter<'_>) -> fmt::Result {
        fmt::Debug::fmt(&Shown(self), f)
    }
}

/// An opened transaction.
#[derive(Clone, Copy, PartialEq, Eq, Debug)]
#[must_use = "its start is the only handle to the desk, which stays taken until a commit or an abort"]
pub struct Begun {
    /// Its handle in the other calls.
    pub start: Start,
    /// Where it sits, from 0.
    pub desk: usize,
}

/// What a read found. The bytes are a part of the store's memory.
#[derive(Clone, Copy, PartialEq, Eq)]
pub enum Found<'s> {
    /// The transaction's own write.
    Own(&'s [u8]),
    /// A committed version.
    Hall(&'s [u8]),
    /// Deleted, never written, or not yet at that start or number.
    Nothing,
}

impl<'s> Found<'s> {
    /// The value, whoever wrote it. An empty value is `Some` of no bytes.
    ///
    /// ```
    /// use hourbracken::Found;
    ///
    /// assert_eq!(Found::Hall(b"loop").bytes(), Some(&b"loop"[..]));
    /// assert_eq!(Found::Nothing.bytes(), None);
    /// ```
    #[must_use]
    pub const fn bytes(self) -> Option<&'s [u8]> {
        match self {
            Found::Own(bytes) | Found::Hall(bytes) => Some(bytes),
            Found::Nothing => None,
        }
    }
}

impl fmt::Debug for Found<'_> {
    fn fmt(&self, f: &mut fmt::Formatter<'_>) -> fmt::Result {
        match self {
            Found::Own(bytes) => f.debug_tuple("Own").field(&Shown(bytes)).finish(),
            Found::Hall(bytes) => f.debug_tuple("Hall").field(&Shown(bytes)).finish(),
            Found::Nothing => f.write_str("Nothing"),
        }
    }
}

/// A transaction that is closed by its commit.
#[derive(Clone, Copy, PartialEq, Eq, Debug)]
pub enum Committed {
    /// Its writes are versions under this number.
    As(Commit),
    /// It had no writes, so no number was issued.
    Closed,
}

impl Committed {
    /// The number of its versions, if it had writes.
    #[must_use]
    pub const fn number(self) -> Option<u64> {
        match self {
            Committed::As(commit) => Some(commit.number()),
            Committed::Closed => None,
        }
    }
}

/// A commit and its record.
#[derive(Clone, Copy, PartialEq, Eq)]
#[must_use = "the record goes to stable storage before anybody is told of the commit"]
pub struct Recorded<'j> {
    /// What was committed.
    pub committed: Committed,
    /// The record, at the front of the output; no bytes if there were no writes.
    pub record: &'j [u8],
}

impl fmt::Debug for Recorded<'_> {
    fn fmt(&self, f: &mut fmt::Formatter<'_>) -> fmt::Result {
        f.debug_struct("Recorded").field("committed", &self.committed).field("record", &Shown(self.record)).finish()
    }
}

/// What a sweep did.
#[derive(Clone, Copy, PartialEq, Eq, Debug)]
pub struct Swept {
    /// The smallest of limit, counter and open starts.
    pub cutoff: u64,
    /// How many versions are gone.
    pub dropped: u64,
}

/// How much the store holds, deletions included.
#[derive(Clone, Copy, PartialEq, Eq, Debug)]
pub struct Counted {
    /// Keys with a version.
    pub keys: u64,
    /// Versions of all keys.
    pub versions: u64,
    /// Open transactions.
    pub desks: u64,
}

/// The answer that stands beside a refusal's number, which is 0 where the call was done.
pub(crate) fn accepted<T>(refusal: u64, answer: T) -> Result<T, Refusal> {
    match refusal {
        0 => Ok(answer),
        number => Err(Refusal::plain(number)),
    }
}
