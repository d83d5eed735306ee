//! A look into a journal, on any machine and without allocation.
//!
//! A journal is records of commits, one after the other. [`Records`] goes through them as a replay does, up to the
//! first that is cut off or that stops a replay. Neither store nor archive is needed; whether a commit has room is the
//! store's to say.
//!
//! ```
//! use hourbracken::journal::Records;
//!
//! let journal = b"\x4c\x01\x18\0\0\0\x02\0\0\0\0\0\0\0\x01\0\0\0\x02\0\0\0A1\x01\x01\0\0\0\x07\x4c\x01\x13\0";
//! let mut records = Records::new(journal);
//! let record = records.next().expect("a record")?;
//! assert_eq!((record.offset, record.number, record.bytes.len()), (0, 2, 30));
//! for write in record.writes() {
//!     assert_eq!((write.key, write.value), (&b"A1"[..], Some(&[7][..])));
//! }
//!
//! let fault = records.next().expect("a rest").unwrap_err();
//! assert_eq!((fault.offset, fault.refusal()), (30, None)); // a cut is no refusal
//! assert_eq!(fault.to_string(), "the journal ends within the length: 4 bytes, of which 2 are there");
//! assert_eq!(records.offset(), 30); // what a replay answers
//! # Ok::<(), hourbracken::journal::Fault>(())
//! ```

use crate::numbers::number;
use crate::shown::Many;
use crate::{dump, Refusal, MAX_WRITES};
use core::fmt;
use core::iter::FusedIterator;

/// What every record begins with.
pub const MARK: [u8; 2] = [0x4c, 0x01];

const LENGTH: usize = 4;
const NUMBER: usize = 8;
const COUNT: usize = 4;
/// Of a body, before its writes.
const HEAD: usize = NUMBER + COUNT;
/// The last number that a store issues.
const LAST_NUMBER: u64 = u64::MAX - 1;

/// The parts of a record, by name.
#[derive(Clone, Copy, PartialEq, Eq, Hash, Debug)]
#[non_exhaustive]
pub enum Part {
    /// Two bytes, [`MARK`].
    Mark,
    /// How many bytes the body has.
    Length,
    /// The commit's number, how many writes it has, and the writes.
    Body,
}

impl fmt::Display for Part {
    fn fmt(&self, f: &mut fmt::Formatter<'_>) -> fmt::Result {
        f.write_str(match self {
            Part::Mark => "mark",
            Part::Length => "length",
            Part::Body => "body",
        })
    }
}

/// What is wrong with a record.
#[derive(Clone, Copy, PartialEq, Eq, Debug)]
#[non_exhaustive]
pub enum Wrong {
    /// The journal ends within the record: the commit's record was not all written. That is no refusal.
    Cut {
        /// In which part of it.
        part: Part,
        /// How many bytes that takes.
        needed: usize,
        /// How many of them are there.
        there: usize,
    },
    /// Two bytes that are not [`MARK`].
    Mark([u8; 2]),
    /// A body of so many bytes, too few for a number and a count.
    Short(usize),
    /// A number that is not above the counter.
    NumberOrder {
        /// The number.
        number: u64,
        /// The number of the record before, or the counter that the journal goes on from.
        counter: u64,
    },
    /// The number 2^64 - 1, which no store issues.
    LastNumber,
    /// A count of writes that is 0 or above [`MAX_WRITES`].
    WriteCount(u64),
    /// A write that is wrong by the rules of a dump, or bytes after the last; offsets are those of the journal.
    Write(dump::Fault),
}

/// The record that a journal's whole and lawful records end at.
#[derive(Clone, Copy, PartialEq, Eq, Debug)]
pub struct Fault {
    /// Where the record starts; a replay answers it.
    pub offset: usize,
    /// Where in the record the fault is: a place in the journal.
    pub at: usize,
    /// What it is.
    pub wrong: Wrong,
}

impl Fault {
    /// The refusal that stops a replay here; none if the record is cut off, which a replay leaves out.
    #[must_use]
    pub const fn refusal(&self) -> Option<Refusal> {
        match self.wrong {
            Wrong::Cut { .. } => None,
            _ => Some(Refusal::Malformed { offset: self.offset }),
        }
    }
}

impl fmt::Display for Fault {
    fn fmt(&self, f: &mut fmt::Formatter<'_>) -> fmt::Result {
        match self.wrong {
            Wrong::Cut { part, needed, there } => {
                let (needed, verb) = (Many(needed as u64, "byte"), if there == 1 { "is" } else { "are" });
                write!(f, "the journal ends within the {part}: {needed}, of which {there} {verb} there")
            }
            Wrong::Mark([one, other]) => write!(f, "{one:02x} {other:02x}, and a record begins with 4c 01"),
            Wrong::Short(length) => {
                write!(f, "a body of {}, and its number and count take {HEAD}", Many(length as u64, "byte"))
            }
            Wrong::NumberOrder { number, counter } => {
                write!(f, "the number {number} is not above the counter, which is {counter} by then")
            }
            Wrong::LastNumber => write!(f, "the number is 2^64 - 1, and the last is 2^64 - 2"),
            Wrong::WriteCount(count) => write!(f, "{}, and a commit has 1 to {MAX_WRITES}", Many(count, "write")),
            Wrong::Write(fault) => fault.tell("body", f),
        }
    }
}

#[cfg(feature = "std")]
impl std::error::Error for Fault {}

/// A write of a commit.
#[derive(Clone, Copy, PartialEq, Eq, Debug)]
pub struct Write<'j> {
    /// The key.
    pub key: &'j [u8],
    /// Its value; none if it is a deletion.
    pub value: Option<&'j [u8]>,
}

/// A record that is whole and lawful.
#[derive(Clone, Debug)]
pub struct Record<'j> {
    /// Where in the journal it starts.
    pub offset: usize,
    /// All its bytes.
    pub bytes: &'j [u8],
    /// The commit's number.
    pub number: u64,
    writes: Writes<'j>,
}

impl<'j> Record<'j> {
    /// Its writes, ascending by key; there is at least one.
    #[must_use]
    pub fn writes(&self) -> Writes<'j> {
        self.writes.clone()
    }
}

/// The writes of a record, ascending by key.
#[derive(Clone, Debug)]
pub struct Writes<'j> {
    fields: dump::Reader<'j>,
    left: usize,
}

impl<'j> Iterator for Writes<'j> {
    type Item = Write<'j>;

    fn next(&mut self) -> Option<Write<'j>> {
        self.left = self.left.checked_sub(1)?;
        let (key, value) = self.fields.write().ok()?;
        Some(Write { key, value })
    }

    fn size_hint(&self) -> (usize, Option<usize>) {
        (self.left, Some(self.left))
    }
}

impl ExactSizeIterator for Writes<'_> {}

impl FusedIterator for Writes<'_> {}

/// The records of a journal in their order, up to its first fault.
#[derive(Clone, Debug)]
pub struct Records<'j> {
    bytes: &'j [u8],
    offset: usize,
    counter: u64,
    ended: bool,
}

impl<'j> Records<'j> {
    /// A journal whose store is not known: its first number is any.
    #[must_use]
    pub const fn new(bytes: &'j [u8]) -> Records<'j> {
        Records::after(bytes, 0)
    }

    /// A journal that goes on from a store with this counter, such as a dump's.
    #[must_use]
    pub const fn after(bytes: &'j [u8], counter: u64) -> Records<'j> {
        Records { bytes, offset: 0, counter, ended: false }
    }

    /// Where the records end that were answered so far. At the end of them all it is what a replay with room answers.
    #[must_use]
    pub const fn offset(&self) -> usize {
        self.offset
    }

    /// The number of the last record that was answered, or the counter that the journal goes on from.
    #[must_use]
    pub const fn counter(&self) -> u64 {
        self.counter
    }

    fn fault<T>(&self, at: usize, wrong: Wrong) -> Result<T, Fault> {
        Err(Fault { offset: self.offset, at, wrong })
    }

    /// So many bytes from a place on, unless the journal ends within them.
    fn part(&self, part: Part, at: usize, needed: usize) -> Result<&'j [u8], Fault> {
        let rest = self.bytes.get(at..).unwrap_or_default();
        match rest.get(..needed) {
            Some(bytes) => Ok(bytes),
            None => self.fault(at, Wrong::Cut { part, needed, there: rest.len() }),
        }
    }

    fn record(&self) -> Result<Record<'j>, Fault> {
        let mark = self.part(Part::Mark, self.offset, MARK.len())?;
        if mark != MARK {
            return self.fault(self.offset, Wrong::Mark([mark[0], mark[1]]));
        }
        let length_at = self.offset + MARK.len();
        let length = number(self.part(Part::Length, length_at, LENGTH)?) as usize;
        let body = self.part(Part::Body, length_at + LENGTH, length)?;
        let (number, writes) = self.body(length_at + LENGTH, body)?;
        let bytes = &self.bytes[self.offset..][..MARK.len() + LENGTH + length];
        Ok(Record { offset: self.offset, bytes, number, writes })
    }

    fn body(&self, at: usize, body: &'j [u8]) -> Result<(u64, Writes<'j>), Fault> {
        if body.len() < HEAD {
            return self.fault(at, Wrong::Short(body.len()));
        }
        let (head, fields) = body.split_at(HEAD);
        let (commit, count) = (number(&head[..NUMBER]), number(&head[NUMBER..]));
        if commit <= self.counter {
            return self.fault(at, Wrong::NumberOrder { number: commit, counter: self.counter });
        }
        if commit > LAST_NUMBER {
            return self.fault(at, Wrong::LastNumber);
        }
        if !(1..=MAX_WRITES as u64).contains(&count) {
            return self.fault(at + NUMBER, Wrong::WriteCount(count));
        }
        let writes = Writes { fields: dump::Reader::new(fields), left: count as usize };
        match wrong_write(writes.clone()) {
            None => Ok((commit, writes)),
            Some(fault) => {
                let at = at + HEAD + fault.offset;
                self.fault(at, Wrong::Write(dump::Fault { offset: at, ..fault }))
            }
        }
    }
}

/// The first fault among the writes of a body, or what comes after them.
fn wrong_write(mut writes: Writes) -> Option<dump::Fault> {
    for _ in 0..writes.left {
        if let Err(fault) = writes.fields.write() {
            return Some(fault);
        }
    }
    writes.fields.end()?.err()
}

impl<'j> Iterator for Records<'j> {
    type Item = Result<Record<'j>, Fault>;

    fn next(&mut self) -> Option<Self::Item> {
        if self.ended || self.offset == self.bytes.len() {
            return None;
        }
        let record = self.record();
        match &record {
            Ok(record) => (self.offset, self.counter) = (self.offset + record.bytes.len(), record.number),
            Err(_) => self.ended = true,
        }
        Some(record)
    }
}

impl FusedIterator for Records<'_> {}
