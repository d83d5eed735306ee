//! A transaction that closes itself.

use crate::{Committed, Found, Recorded, Refusal, Start, Store};
use core::fmt;

/// An open transaction that is aborted when it is dropped. It has the store to itself; where several are open at once,
/// take [`Store::begin`] and the calls that are given a start.
///
/// ```
/// use hourbracken::{Refusal, Sizes, Store};
///
/// fn feed(store: &mut Store, seats: &[&[u8]]) -> Result<Option<u64>, Refusal> {
///     let mut transaction = store.transaction()?;
///     for seat in seats {
///         transaction.put(seat, b"loop")?; // if this is refused, the desk is free again
///     }
///     Ok(transaction.commit()?.number())
/// }
///
/// let sizes = Sizes { key_rooms: 4, version_rooms: 8, desks: 2 };
/// let (mut hall, mut desk) = (vec![0; sizes.hall_len()], vec![0; sizes.desk_len()]);
/// let mut store = Store::make(&mut hall, &mut desk, sizes)?;
/// assert_eq!(feed(&mut store, &[b"A1", b""]), Err(Refusal::BadKey));
/// assert_eq!(store.counts()?.desks, 0);
/// assert_eq!(feed(&mut store, &[b"A1", b"A2"]), Ok(Some(3)));
/// # Ok::<(), Refusal>(())
/// ```
#[must_use = "it is aborted when it is dropped"]
pub struct Transaction<'s, 'm> {
    store: &'s mut Store<'m>,
    start: Start,
    closes: bool,
}

impl<'s, 'm> Transaction<'s, 'm> {
    pub(crate) fn new(store: &'s mut Store<'m>, start: Start) -> Transaction<'s, 'm> {
        Transaction { store, start, closes: true }
    }

    /// Its start.
    #[must_use]
    pub const fn start(&self) -> Start {
        self.start
    }

    /// The store, to ask it what is not asked of a transaction.
    #[must_use]
    pub const fn store(&self) -> &Store<'m> {
        self.store
    }

    /// As [`Store::read`].
    ///
    /// # Errors
    ///
    /// [`Refusal::Unsound`], [`Refusal::BadKey`].
    pub fn read(&self, key: &[u8]) -> Result<Found<'_>, Refusal> {
        self.store.read(self.start, key)
    }

    /// As [`Store::put`].
    ///
    /// # Errors
    ///
    /// [`Refusal::Unsound`], [`Refusal::BadKey`], [`Refusal::LongValue`], [`Refusal::TooManyWrites`].
    pub fn put(&mut self, key: &[u8], value: &[u8]) -> Result<(), Refusal> {
        self.store.put(self.start, key, value)
    }

    /// As [`Store::delete`].
    ///
    /// # Errors
    ///
    /// [`Refusal::Unsound`], [`Refusal::BadKey`], [`Refusal::TooManyWrites`].
    pub fn delete(&mut self, key: &[u8]) -> Result<(), Refusal> {
        self.store.delete(self.start, key)
    }

    /// As [`Store::commit`], but for a refusal, which closes the transaction whatever it is. To try once more after a
    /// sweep, [`keep`](Transaction::keep) it and commit by its start.
    ///
    /// # Errors
    ///
    /// [`Refusal::Unsound`], [`Refusal::Conflict`], [`Refusal::Spent`], [`Refusal::NoKeyRoom`],
    /// [`Refusal::NoVersionRoom`].
    pub fn commit(mut self) -> Result<Committed, Refusal> {
        let answer = self.store.commit(self.start);
        self.closes = stays_open(&answer);
        answer
    }

    /// As [`Store::commit_to`], but for a refusal, which closes the transaction whatever it is.
    ///
    /// # Errors
    ///
    /// Those of [`Transaction::commit`], then [`Refusal::ShortOutput`], which an output of
    /// [`RECORD_LEN`](crate::RECORD_LEN) bytes never meets.
    pub fn commit_to(mut self, out: &mut [u8]) -> Result<Recorded<'_>, Refusal> {
        let answer = self.store.commit_to(self.start, out);
        self.closes = stays_open(&answer);
        answer
    }

    /// As [`Store::abort`].
    ///
    /// # Errors
    ///
    /// [`Refusal::Unsound`].
    pub fn abort(mut self) -> Result<(), Refusal> {
        self.closes = false;
        self.store.abort(self.start)
    }

    /// Leaves it open, under the start that is answered.
    #[must_use = "the start is the only handle to the desk"]
    pub fn keep(mut self) -> Start {
        self.closes = false;
        self.start
    }
}

/// Whether a commit with this answer leaves its desk taken.
fn stays_open<T>(answer: &Result<T, Refusal>) -> bool {
    !matches!(answer, Ok(_) | Err(Refusal::Conflict(_)))
}

impl Drop for Transaction<'_, '_> {
    fn drop(&mut self) {
        if self.closes {
            // refused only where memory is no longer sound, and then there is no desk to free
            let _ = self.store.abort(self.start);
        }
    }
}

impl fmt::Debug for Transaction<'_, '_> {
    fn fmt(&self, f: &mut fmt::Formatter<'_>) -> fmt::Result {
        f.debug_tuple("Transaction").field(&self.start.number()).finish()
    }
}
