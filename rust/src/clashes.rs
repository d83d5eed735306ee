//! What a conflict tells.

use crate::numbers::number;
use crate::{Commit, Key, MAX_KEY, MAX_WRITES};
use core::fmt;
use core::iter::FusedIterator;
use core::slice::ChunksExact;

/// Bytes of a record in a commit's list, as the header has it: the newest number, then the key in its cell.
const RECORD: usize = NUMBER + 1 + MAX_KEY;
const NUMBER: usize = 8;

/// Room for every key that one commit can clash in.
pub(crate) const LIST_LEN: usize = MAX_WRITES * RECORD;

/// A key that stands in the way of a commit.
#[derive(Clone, Copy, PartialEq, Eq, Hash, Debug)]
pub struct Clash {
    /// The key, which the transaction writes and another has changed since it began.
    pub key: Key,
    /// The number of its newest version.
    pub newest: Commit,
}

impl Clash {
    fn of(record: &[u8]) -> Clash {
        let (newest, cell) = record.split_at(NUMBER);
        let (length, key) = cell.split_at(1);
        Clash { key: Key::copied(&key[..key.len().min(length[0].into())]), newest: Commit::new(number(newest)) }
    }
}

/// All keys that stand in the way of a commit, ascending. There is at least one.
///
#[cfg_attr(feature = "archive", doc = "```")]
#[cfg_attr(not(feature = "archive"), doc = "```ignore")]
/// # use hourbracken::{Refusal, Sizes, Store};
/// # let sizes = Sizes { key_rooms: 4, version_rooms: 8, desks: 2 };
/// # let (mut hall, mut desk) = (vec![0; sizes.hall_len()], vec![0; sizes.desk_len()]);
/// # let mut store = Store::make(&mut hall, &mut desk, sizes)?;
/// let (anna, bram) = (store.begin()?.start, store.begin()?.start);
/// for start in [anna, bram] {
///     store.put(start, b"A1", b"loop")?;
///     store.put(start, b"A2", b"loop")?;
/// }
/// store.commit(anna)?;
/// let Err(Refusal::Conflict(clashes)) = store.commit(bram) else { panic!("in conflict") };
/// assert_eq!((clashes.len(), clashes.to_string().as_str()), (2, "A1 was changed by 3, A2 by 3"));
/// for clash in &clashes {
///     assert!(clash.newest.number() == 3 && clash.key.starts_with(b"A"));
/// }
/// # Ok::<(), Refusal>(())
/// ```
#[derive(Clone, Copy, PartialEq, Eq)]
pub struct Clashes {
    count: usize,
    list: [u8; LIST_LEN],
}

impl Clashes {
    pub(crate) const fn new(count: usize, list: [u8; LIST_LEN]) -> Clashes {
        Clashes { count, list }
    }

    /// How many keys clash.
    #[must_use]
    pub const fn len(&self) -> usize {
        self.count
    }

    /// Never: a commit that clashes in no key is no conflict.
    #[must_use]
    pub const fn is_empty(&self) -> bool {
        self.count == 0
    }

    /// The lowest key.
    #[must_use]
    pub fn first(&self) -> Option<Clash> {
        self.iter().next()
    }

    /// Each key with its newest number, ascending.
    #[must_use]
    pub fn iter(&self) -> ClashIter<'_> {
        let listed = self.list.len().min(self.count.saturating_mul(RECORD));
        ClashIter { records: self.list[..listed].chunks_exact(RECORD) }
    }
}

impl<'c> IntoIterator for &'c Clashes {
    type Item = Clash;
    type IntoIter = ClashIter<'c>;

    fn into_iter(self) -> ClashIter<'c> {
        self.iter()
    }
}

/// Names the seats: `A1 was changed by 3, A2 by 5`.
impl fmt::Display for Clashes {
    fn fmt(&self, f: &mut fmt::Formatter<'_>) -> fmt::Result {
        self.iter().enumerate().try_for_each(|(i, Clash { key, newest })| match i {
            0 => write!(f, "{key} was changed by {newest}"),
            _ => write!(f, ", {key} by {newest}"),
        })
    }
}

impl fmt::Debug for Clashes {
    fn fmt(&self, f: &mut fmt::Formatter<'_>) -> fmt::Result {
        write!(f, "Clashes({self})")
    }
}

/// The keys of a conflict, ascending.
#[derive(Clone, Debug)]
pub struct ClashIter<'c> {
    records: ChunksExact<'c, u8>,
}

impl Iterator for ClashIter<'_> {
    type Item = Clash;

    fn next(&mut self) -> Option<Clash> {
        self.records.next().map(Clash::of)
    }

    fn size_hint(&self) -> (usize, Option<usize>) {
        self.records.size_hint()
    }
}

impl ExactSizeIterator for ClashIter<'_> {}

impl FusedIterator for ClashIter<'_> {}
