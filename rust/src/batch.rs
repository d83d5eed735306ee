//! A batch: many calls in one, which tests the memories once.
//!
//! [`Batch`] builds one in bytes that you lend; [`Store::batch`](crate::Store::batch) does its calls as if each were
//! made singly; [`Answers`] goes through what they answered. Building and reading take neither store nor archive.
//!
#![cfg_attr(feature = "archive", doc = "```")]
#![cfg_attr(not(feature = "archive"), doc = "```ignore")]
//! use hourbracken::batch::{Answer, Batch};
//! use hourbracken::{Committed, Found, Sizes, Store};
//!
//! # let sizes = Sizes { key_rooms: 4, version_rooms: 8, desks: 2 };
//! # let (mut hall, mut desk) = (vec![0; sizes.hall_len()], vec![0; sizes.desk_len()]);
//! # let mut store = Store::make(&mut hall, &mut desk, sizes)?;
//! let mut room = [0; 256];
//! let mut batch = Batch::new(&mut room);
//! let night = batch.begin()?;
//! batch.put(night, b"A1", b"loop")?;
//! batch.read(night, b"A1")?;
//! batch.commit(night)?;
//!
//! let mut out = vec![0; batch.answers_len()];
//! for answer in store.batch(&batch, &mut out)? {
//!     match answer {
//!         Answer::Begin(begun) => assert_eq!(begun?.start.number(), 1),
//!         Answer::Read(found) => assert_eq!(found?, Found::Own(b"loop")),
//!         Answer::Commit(committed) => assert_eq!(committed?.number(), Some(2)),
//!         other => assert_eq!(other.refusal(), None),
//!     }
//! }
//! # Ok::<(), Box<dyn std::error::Error>>(())
//! ```
//!
//! A call that is refused stops nothing: its refusal is its answer, and the next call is done.

mod answers;
mod records;

use crate::shown::Many;
use crate::{Start, MAX_KEY, MAX_VALUE};
use core::fmt;
use records::Kind;

pub use answers::{Answer, AnswerIter, Answers};
pub use records::answers_len;

/// Records of the longest batch.
pub const MAX_RECORDS: usize = 4_096;
/// Bytes of the longest record, if its key and its value are no longer than the store takes.
pub const RECORD_LEN: usize = records::MARK_LEN + records::START_LEN + 2 * records::LENGTH + MAX_KEY + MAX_VALUE;
/// Bytes of the longest answer to a record, which is a commit's.
pub const ANSWER_LEN: usize = Kind::Commit.answer_len();

/// A transaction that a batch begins, for the records that come after its begin. [`Batch::begin`] answers it. Another
/// batch takes it for its own begin at that place, if it has one there.
#[derive(Clone, Copy, PartialEq, Eq, PartialOrd, Ord, Hash, Debug)]
pub struct Place(u16);

impl Place {
    /// The begin's place among the records, from 0.
    #[must_use]
    pub const fn index(self) -> usize {
        self.0 as usize
    }
}

/// Whose record it is: a transaction that was open before, or one that the batch begins. Where a record takes it,
/// [`Start`] and [`Place`] will do.
#[derive(Clone, Copy, PartialEq, Eq, Hash, Debug)]
pub enum Who {
    /// By its start; one that names no open transaction is refused in its answer.
    Start(Start),
    /// By the place of its begin in the batch.
    Place(Place),
}

impl From<Start> for Who {
    fn from(start: Start) -> Who {
        Who::Start(start)
    }
}

impl From<Place> for Who {
    fn from(place: Place) -> Who {
        Who::Place(place)
    }
}

/// Why a record was not added. The batch is as it was.
#[derive(Clone, Copy, PartialEq, Eq, Hash, Debug)]
pub enum NotAdded {
    /// The bytes that were lent do not have room for it.
    NoRoom,
    /// It would be the 4,097th.
    TooMany,
    /// The place is another batch's, and no begin of this one stands there.
    NoBegin,
}

impl fmt::Display for NotAdded {
    fn fmt(&self, f: &mut fmt::Formatter<'_>) -> fmt::Result {
        f.write_str(match self {
            NotAdded::NoRoom => "the batch has no room for the record",
            NotAdded::TooMany => "a batch has at most 4096 records",
            NotAdded::NoBegin => "no begin of this batch stands at that place",
        })
    }
}

#[cfg(feature = "std")]
impl std::error::Error for NotAdded {}

/// A batch that is built in lent bytes, record by record. Whatever is added, it is not malformed.
///
/// ```
/// use hourbracken::batch::{Batch, NotAdded};
/// use hourbracken::Start;
///
/// let mut room = [0; 32];
/// let mut batch = Batch::new(&mut room);
/// let night = batch.begin()?;
/// batch.delete(night, b"A1")?;
/// batch.abort(Start::from_number(7))?; // one that was open before
/// assert_eq!(batch.put(night, b"A2", b"loop"), Err(NotAdded::NoRoom)); // do these, and go on in another batch
/// assert_eq!(batch.as_bytes(), b"\x4c\x10\x4c\x13\x01\0\0\x02\0\0\0A1\x4c\x15\0\x07\0\0\0\0\0\0\0");
/// assert_eq!((batch.len(), batch.answers_len()), (3, 3 * 18));
/// # Ok::<(), NotAdded>(())
/// ```
pub struct Batch<'b> {
    room: &'b mut [u8],
    end: usize,
    records: usize,
    answers_len: usize,
    /// Of each place a bit: whether it is a begin's.
    begins: [u64; MAX_RECORDS / 64],
}

impl<'b> Batch<'b> {
    /// An empty one. [`RECORD_LEN`] bytes for each record have room for every key and value that the store takes.
    #[must_use]
    pub fn new(room: &'b mut [u8]) -> Batch<'b> {
        Batch { room, end: 0, records: 0, answers_len: 0, begins: [0; MAX_RECORDS / 64] }
    }

    /// As [`Store::begin`](crate::Store::begin): opens a transaction, for the records after it. If that is refused, each
    /// of them is answered as by no open transaction.
    ///
    /// # Errors
    ///
    /// [`NotAdded::NoRoom`], [`NotAdded::TooMany`].
    pub fn begin(&mut self) -> Result<Place, NotAdded> {
        let place = self.records;
        let end = self.write(self.end, &[&Kind::Begin.mark()])?;
        self.add(Kind::Begin, end)?;
        self.begins[place / 64] |= 1 << (place % 64);
        Ok(Place(place as u16))
    }

    /// As [`Store::read`](crate::Store::read), with the value copied into the answers.
    ///
    /// # Errors
    ///
    /// [`NotAdded`].
    pub fn read(&mut self, who: impl Into<Who>, key: &[u8]) -> Result<(), NotAdded> {
        self.act(Kind::Read, who.into(), &[key])
    }

    /// As [`Store::put`](crate::Store::put).
    ///
    /// # Errors
    ///
    /// [`NotAdded`].
    pub fn put(&mut self, who: impl Into<Who>, key: &[u8], value: &[u8]) -> Result<(), NotAdded> {
        self.act(Kind::Put, who.into(), &[key, value])
    }

    /// As [`Store::delete`](crate::Store::delete).
    ///
    /// # Errors
    ///
    /// [`NotAdded`].
    pub fn delete(&mut self, who: impl Into<Who>, key: &[u8]) -> Result<(), NotAdded> {
        self.act(Kind::Delete, who.into(), &[key])
    }

    /// As [`Store::commit`](crate::Store::commit).
    ///
    /// # Errors
    ///
    /// [`NotAdded`].
    pub fn commit(&mut self, who: impl Into<Who>) -> Result<(), NotAdded> {
        self.act(Kind::Commit, who.into(), &[])
    }

    /// As [`Store::abort`](crate::Store::abort).
    ///
    /// # Errors
    ///
    /// [`NotAdded`].
    pub fn abort(&mut self, who: impl Into<Who>) -> Result<(), NotAdded> {
        self.act(Kind::Abort, who.into(), &[])
    }

    /// As [`Store::sweep`](crate::Store::sweep).
    ///
    /// # Errors
    ///
    /// [`NotAdded::NoRoom`], [`NotAdded::TooMany`].
    pub fn sweep(&mut self, limit: u64) -> Result<(), NotAdded> {
        let end = self.write(self.end, &[&Kind::Sweep.mark(), &limit.to_le_bytes()])?;
        self.add(Kind::Sweep, end)
    }

    /// How many records it has.
    #[must_use]
    pub const fn len(&self) -> usize {
        self.records
    }

    /// Whether it has none. It can be done all the same, and answers nothing.
    #[must_use]
    pub const fn is_empty(&self) -> bool {
        self.records == 0
    }

    /// How many bytes its answers take, whatever they say.
    #[must_use]
    pub const fn answers_len(&self) -> usize {
        self.answers_len
    }

    /// The batch itself, as to write it down or to send it.
    #[must_use]
    pub fn as_bytes(&self) -> &[u8] {
        self.room.get(..self.end).unwrap_or_default()
    }

    /// Drops all records, so that another is built in the same bytes.
    pub fn clear(&mut self) {
        (self.end, self.records, self.answers_len) = (0, 0, 0);
        self.begins = [0; MAX_RECORDS / 64];
    }

    fn is_begin(&self, place: Place) -> bool {
        let Place(place) = place;
        self.begins.get(usize::from(place) / 64).is_some_and(|bits| bits >> (place % 64) & 1 == 1)
    }

    /// Writes parts one after the other, and answers where they end. It is a record once it is added.
    fn write(&mut self, mut at: usize, parts: &[&[u8]]) -> Result<usize, NotAdded> {
        for part in parts {
            let to = self.room.get_mut(at..).and_then(|rest| rest.get_mut(..part.len()));
            to.ok_or(NotAdded::NoRoom)?.copy_from_slice(part);
            at += part.len();
        }
        Ok(at)
    }

    /// A record of a transaction, with its key and its value.
    fn act(&mut self, kind: Kind, who: Who, texts: &[&[u8]]) -> Result<(), NotAdded> {
        let mut end = match who {
            Who::Start(start) => {
                self.write(self.end, &[&kind.mark(), &[records::BY_START], &start.number().to_le_bytes()])?
            }
            Who::Place(place) if self.is_begin(place) => {
                self.write(self.end, &[&kind.mark(), &[records::BY_PLACE], &place.0.to_le_bytes()])?
            }
            Who::Place(_) => return Err(NotAdded::NoBegin),
        };
        for text in texts {
            let length = u32::try_from(text.len()).map_err(|_| NotAdded::NoRoom)?;
            end = self.write(end, &[&length.to_le_bytes(), text])?;
        }
        self.add(kind, end)
    }

    fn add(&mut self, kind: Kind, end: usize) -> Result<(), NotAdded> {
        if self.records == MAX_RECORDS {
            return Err(NotAdded::TooMany);
        }
        (self.end, self.records) = (end, self.records + 1);
        self.answers_len += kind.answer_len();
        Ok(())
    }
}

impl AsRef<[u8]> for Batch<'_> {
    fn as_ref(&self) -> &[u8] {
        self.as_bytes()
    }
}

impl fmt::Debug for Batch<'_> {
    fn fmt(&self, f: &mut fmt::Formatter<'_>) -> fmt::Result {
        write!(f, "Batch({}, {})", Many(self.records as u64, "record"), Many(self.end as u64, "byte"))
    }
}
