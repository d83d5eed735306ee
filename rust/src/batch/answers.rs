//! What the calls of a batch answered.

use super::records::{answers_len, Kind, Kinds, LENGTH};
use super::Place;
use crate::answers::accepted;
use crate::clashes::LIST_LEN;
use crate::numbers::number;
use crate::{Begun, Clashes, Commit, Committed, Found, Refusal, Start, Swept, MAX_VALUE};
use core::fmt;
use core::iter::FusedIterator;
use core::slice::ChunksExact;

const NUMBER: usize = 8;
/// Bytes of a head: two numbers, a refusal and a flag.
pub(super) const HEAD: usize = 2 * NUMBER + 1 + 1;
/// Bytes of a read's value behind the heads.
pub(super) const VALUE: usize = LENGTH + MAX_VALUE;

/// What a call of a batch answered, as the same call of a [`Store`](crate::Store) does.
#[derive(Clone, Copy, PartialEq, Eq, Debug)]
pub enum Answer<'a> {
    /// A begin.
    Begin(Result<Begun, Refusal>),
    /// A read; the bytes are a part of the answers, copied when it was done.
    Read(Result<Found<'a>, Refusal>),
    /// A put.
    Put(Result<(), Refusal>),
    /// A delete.
    Delete(Result<(), Refusal>),
    /// A commit; after a conflict the transaction is closed.
    Commit(Result<Committed, Refusal>),
    /// An abort.
    Abort(Result<(), Refusal>),
    /// A sweep.
    Sweep(Result<Swept, Refusal>),
}

impl Answer<'_> {
    /// Why the call was not done, if it was not.
    #[must_use]
    pub const fn refusal(&self) -> Option<Refusal> {
        match self {
            Answer::Begin(Err(refusal))
            | Answer::Read(Err(refusal))
            | Answer::Put(Err(refusal))
            | Answer::Delete(Err(refusal))
            | Answer::Commit(Err(refusal))
            | Answer::Abort(Err(refusal))
            | Answer::Sweep(Err(refusal)) => Some(*refusal),
            _ => None,
        }
    }
}

struct Head {
    first: u64,
    second: u64,
    refusal: u64,
    flag: u8,
}

impl Head {
    fn of(bytes: &[u8]) -> Head {
        let (first, rest) = bytes.split_at(NUMBER);
        let (second, codes) = rest.split_at(NUMBER);
        Head { first: number(first), second: number(second), refusal: codes[0].into(), flag: codes[1] }
    }

    fn done(&self) -> Result<(), Refusal> {
        accepted(self.refusal, ())
    }

    fn begun(&self) -> Result<Begun, Refusal> {
        accepted(self.refusal, Begun { start: Start::from_number(self.first), desk: self.second as usize })
    }

    fn found<'a>(&self, detail: &'a [u8]) -> Result<Found<'a>, Refusal> {
        let (length, value) = detail.split_at(LENGTH);
        let value = value.get(..number(length) as usize).unwrap_or(value);
        let found = match self.flag {
            1 => Found::Own(value),
            2 => Found::Hall(value),
            _ => Found::Nothing,
        };
        accepted(self.refusal, found)
    }

    fn committed(&self, detail: &[u8]) -> Result<Committed, Refusal> {
        let mut list = [0; LIST_LEN];
        list.copy_from_slice(detail);
        match (self.refusal, self.flag) {
            (9, _) => Err(Refusal::Conflict(Clashes::new(self.first as usize, list))),
            (refusal, 1) => accepted(refusal, Committed::Closed),
            (refusal, _) => accepted(refusal, Committed::As(Commit::new(self.first))),
        }
    }

    fn swept(&self) -> Result<Swept, Refusal> {
        accepted(self.refusal, Swept { cutoff: self.first, dropped: self.second })
    }

    fn answer<'a>(&self, kind: Kind, detail: &'a [u8]) -> Answer<'a> {
        match kind {
            Kind::Begin => Answer::Begin(self.begun()),
            Kind::Read => Answer::Read(self.found(detail)),
            Kind::Put => Answer::Put(self.done()),
            Kind::Delete => Answer::Delete(self.done()),
            Kind::Commit => Answer::Commit(self.committed(detail)),
            Kind::Abort => Answer::Abort(self.done()),
            Kind::Sweep => Answer::Sweep(self.swept()),
        }
    }
}

/// The answers of a batch that was done, to each of its records one.
///
#[cfg_attr(feature = "archive", doc = "```")]
#[cfg_attr(not(feature = "archive"), doc = "```ignore")]
/// use hourbracken::batch::{Answer, Batch};
/// # use hourbracken::{Refusal, Sizes, Store};
///
/// # let sizes = Sizes { key_rooms: 4, version_rooms: 8, desks: 2 };
/// # let (mut hall, mut desk) = (vec![0; sizes.hall_len()], vec![0; sizes.desk_len()]);
/// # let mut store = Store::make(&mut hall, &mut desk, sizes)?;
/// let (mut room, mut out) = ([0; 256], [0; 256]);
/// let mut batch = Batch::new(&mut room);
/// let night = batch.begin()?;
/// batch.put(night, b"row A", b"loop")?; // no key has a space
/// let answers = store.batch(&batch, &mut out)?;
/// assert!(answers.iter().any(|answer| answer == Answer::Put(Err(Refusal::BadKey))));
///
/// let start = answers.begun(night)?.start; // it is open still, for other calls and other batches
/// batch.clear();
/// batch.put(start, b"A1", b"loop")?;
/// assert_eq!(store.batch(&batch, &mut out)?.iter().find_map(|answer| answer.refusal()), None);
/// # Ok::<(), Box<dyn std::error::Error>>(())
/// ```
#[derive(Clone, Copy, PartialEq, Eq)]
#[must_use = "each call of the batch may be refused in its answer"]
pub struct Answers<'a> {
    batch: &'a [u8],
    heads: &'a [u8],
    details: &'a [u8],
}

impl<'a> Answers<'a> {
    /// Those that a batch was given, wherever it was done; none if they are shorter than its answers.
    ///
    /// ```
    /// use hourbracken::batch::{Answer, Answers};
    ///
    /// let (batch, mut bytes) = (b"\x4c\x16\x09\0\0\0\0\0\0\0", [0; 18]); // a sweep with the limit 9
    /// (bytes[0], bytes[8]) = (7, 2);
    /// let answers = Answers::read(batch, &bytes).expect("a head");
    /// for answer in &answers {
    ///     assert!(matches!(answer, Answer::Sweep(Ok(swept)) if swept.cutoff == 7 && swept.dropped == 2));
    /// }
    /// assert_eq!(Answers::read(batch, &bytes[1..]), None);
    /// ```
    #[must_use]
    pub fn read(batch: &'a [u8], answers: &'a [u8]) -> Option<Answers<'a>> {
        let answers = answers.get(..answers_len(batch))?;
        let (heads, details) = answers.split_at(HEAD * Kinds::new(batch).count());
        Some(Answers { batch, heads, details })
    }

    /// How many there are.
    #[must_use]
    pub const fn len(&self) -> usize {
        self.heads.len() / HEAD
    }

    /// Whether the batch had no records.
    #[must_use]
    pub const fn is_empty(&self) -> bool {
        self.heads.is_empty()
    }

    /// Each answer, in the order of the records.
    #[must_use]
    pub fn iter(&self) -> AnswerIter<'a> {
        AnswerIter { kinds: Kinds::new(self.batch), heads: self.heads.chunks_exact(HEAD), details: self.details }
    }

    /// The transaction that the batch began at a place, if it was not refused.
    ///
    /// # Errors
    ///
    /// [`Refusal::DesksTaken`], [`Refusal::Spent`]; [`Refusal::NotOpen`] if the place is another batch's.
    pub fn begun(&self, place: Place) -> Result<Begun, Refusal> {
        match self.iter().nth(place.index()) {
            Some(Answer::Begin(begun)) => begun,
            _ => Err(Refusal::NotOpen),
        }
    }
}

impl<'a> IntoIterator for Answers<'a> {
    type Item = Answer<'a>;
    type IntoIter = AnswerIter<'a>;

    fn into_iter(self) -> AnswerIter<'a> {
        self.iter()
    }
}

impl<'a> IntoIterator for &Answers<'a> {
    type Item = Answer<'a>;
    type IntoIter = AnswerIter<'a>;

    fn into_iter(self) -> AnswerIter<'a> {
        self.iter()
    }
}

impl fmt::Debug for Answers<'_> {
    fn fmt(&self, f: &mut fmt::Formatter<'_>) -> fmt::Result {
        f.debug_list().entries(self).finish()
    }
}

/// The answers of a batch, in the order of its records.
#[derive(Clone, Debug)]
pub struct AnswerIter<'a> {
    kinds: Kinds<'a>,
    heads: ChunksExact<'a, u8>,
    details: &'a [u8],
}

impl<'a> Iterator for AnswerIter<'a> {
    type Item = Answer<'a>;

    fn next(&mut self) -> Option<Answer<'a>> {
        let (kind, head) = (self.kinds.next()?, self.heads.next()?);
        let (detail, rest) = self.details.split_at(kind.detail_len());
        self.details = rest;
        Some(Head::of(head).answer(kind, detail))
    }

    fn size_hint(&self) -> (usize, Option<usize>) {
        self.heads.size_hint()
    }
}

impl ExactSizeIterator for AnswerIter<'_> {}

impl FusedIterator for AnswerIter<'_> {}
