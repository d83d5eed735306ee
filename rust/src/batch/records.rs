//! The records of a batch, as bytes.

use super::answers::{HEAD, VALUE};
use crate::clashes::LIST_LEN;
use crate::numbers::number;

/// The first byte of a record; the second is its kind.
const MARK: u8 = 0x4c;
pub(super) const MARK_LEN: usize = 2;
/// What a transaction is named by: this byte and its start, or the other and the place of its begin.
pub(super) const BY_START: u8 = 0;
pub(super) const BY_PLACE: u8 = 1;
pub(super) const START_LEN: usize = 1 + 8;
const PLACE_LEN: usize = 1 + 2;
const LIMIT: usize = 8;
/// Before a key or a value.
pub(super) const LENGTH: usize = 4;

#[derive(Clone, Copy, PartialEq, Eq, Debug)]
pub(super) enum Kind {
    Begin = 16,
    Read = 17,
    Put = 18,
    Delete = 19,
    Commit = 20,
    Abort = 21,
    Sweep = 22,
}

impl Kind {
    const ALL: [Kind; 7] = [Kind::Begin, Kind::Read, Kind::Put, Kind::Delete, Kind::Commit, Kind::Abort, Kind::Sweep];

    fn of(byte: u8) -> Option<Kind> {
        Kind::ALL.into_iter().find(|kind| *kind as u8 == byte)
    }

    pub(super) const fn mark(self) -> [u8; MARK_LEN] {
        [MARK, self as u8]
    }

    /// How many keys and values it has.
    const fn texts(self) -> usize {
        match self {
            Kind::Put => 2,
            Kind::Read | Kind::Delete => 1,
            _ => 0,
        }
    }

    /// Bytes of its answer behind the heads.
    pub(super) const fn detail_len(self) -> usize {
        match self {
            Kind::Read => VALUE,
            Kind::Commit => LIST_LEN,
            _ => 0,
        }
    }

    pub(super) const fn answer_len(self) -> usize {
        HEAD + self.detail_len()
    }
}

/// The kinds of the records, up to the first that is none.
#[derive(Clone, Debug)]
pub(super) struct Kinds<'b> {
    rest: &'b [u8],
}

impl<'b> Kinds<'b> {
    pub(super) const fn new(batch: &'b [u8]) -> Kinds<'b> {
        Kinds { rest: batch }
    }

    /// The kind of the record in front, and what comes behind it.
    fn front(&self) -> Option<(Kind, &'b [u8])> {
        let (mark, rest) = split(self.rest, MARK_LEN)?;
        let kind = Kind::of(mark[1]).filter(|_| mark[0] == MARK)?;
        let operand = match kind {
            Kind::Begin => 0,
            Kind::Sweep => LIMIT,
            _ => match *rest.first()? {
                BY_START => START_LEN,
                BY_PLACE => PLACE_LEN,
                _ => return None,
            },
        };
        let (_, mut rest) = split(rest, operand)?;
        for _ in 0..kind.texts() {
            let (length, behind) = split(rest, LENGTH)?;
            (_, rest) = split(behind, usize::try_from(number(length)).ok()?)?;
        }
        Some((kind, rest))
    }
}

impl Iterator for Kinds<'_> {
    type Item = Kind;

    fn next(&mut self) -> Option<Kind> {
        let (kind, rest) = self.front()?;
        self.rest = rest;
        Some(kind)
    }
}

fn split(bytes: &[u8], at: usize) -> Option<(&[u8], &[u8])> {
    Some((bytes.get(..at)?, bytes.get(at..)?))
}

/// How many bytes the answers of a batch take that somebody else has built. Of bytes that are no batch only those before
/// the first fault count; they are refused whatever the output.
///
/// ```
/// use hourbracken::batch::answers_len;
///
/// let batch = b"\x4c\x10\x4c\x11\x01\0\0\x02\0\0\0A1"; // a begin, and its read of A1
/// assert_eq!(answers_len(batch), 18 + 18 + 100);
/// ```
#[must_use]
pub fn answers_len(batch: &[u8]) -> usize {
    Kinds::new(batch).map(Kind::answer_len).sum()
}
