//! Memories that are only looked at.

use crate::answers::accepted;
use crate::{raw, Counted, Found, Refusal};
use core::fmt;

/// Hall memory, only looked at: what asks no desk is asked here, as beside a store that another process changes between
/// the calls.
///
/// ```
/// use hourbracken::{HallView, Refusal, Sizes, Store};
///
/// let sizes = Sizes { key_rooms: 4, version_rooms: 8, desks: 2 };
/// let (mut hall, mut desk) = (vec![0; sizes.hall_len()], vec![0; sizes.desk_len()]);
/// assert_eq!(HallView::open(&hall).unwrap_err(), Refusal::Unsound);
/// let mut store = Store::make(&mut hall, &mut desk, sizes)?;
/// let start = store.begin()?.start;
/// store.put(start, b"A1", b"loop")?;
/// store.commit(start)?;
/// let view = HallView::open(&hall)?;
/// assert_eq!(view.newest(b"A1")?.bytes(), Some(&b"loop"[..]));
/// # Ok::<(), Refusal>(())
/// ```
#[derive(Clone, Copy)]
pub struct HallView<'m> {
    hall: &'m [u8],
}

/// The bytes at a place that a call answered, which is proved to be in the memory.
fn part(memory: &[u8], at: usize, len: usize) -> &[u8] {
    memory.get(at..).and_then(|rest| rest.get(..len)).unwrap_or(&[])
}

/// A read's answer, in bytes of the memory that its kind names.
pub(crate) fn told<'m>(found: &raw::HbFound, hall: &'m [u8], desk: &'m [u8]) -> Result<Found<'m>, Refusal> {
    let answer = match found.kind {
        raw::OWN_VALUE => Found::Own(part(desk, found.at, found.len)),
        raw::HALL_VALUE => Found::Hall(part(hall, found.at, found.len)),
        _ => Found::Nothing,
    };
    accepted(found.refusal, answer)
}

impl<'m> HallView<'m> {
    /// The store's part that this memory holds.
    ///
    /// # Errors
    ///
    /// [`Refusal::Unsound`].
    pub fn open(hall: &'m [u8]) -> Result<HallView<'m>, Refusal> {
        let view = HallView::new(hall);
        match view.newest(&[]) {
            Err(Refusal::Unsound) => Err(Refusal::Unsound),
            _ => Ok(view), // no key has no bytes, and that is tested after the memory
        }
    }

    pub(crate) const fn new(hall: &'m [u8]) -> HallView<'m> {
        HallView { hall }
    }

    /// The key's newest version.
    ///
    /// # Errors
    ///
    /// [`Refusal::Unsound`], [`Refusal::BadKey`].
    pub fn newest(&self, key: &[u8]) -> Result<Found<'m>, Refusal> {
        told(&raw::newest(self.hall, key), self.hall, &[])
    }

    /// The version that the key had at a number, as [`Store::as_of`](crate::Store::as_of).
    ///
    /// # Errors
    ///
    /// [`Refusal::Unsound`], [`Refusal::BadKey`], [`Refusal::OutOfReach`].
    pub fn as_of(&self, number: u64, key: &[u8]) -> Result<Found<'m>, Refusal> {
        told(&raw::as_of(self.hall, number, key), self.hall, &[])
    }

    /// Writes the dump over the front of the output, and answers how many bytes it has.
    ///
    /// # Errors
    ///
    /// [`Refusal::Unsound`], [`Refusal::ShortOutput`].
    pub fn dump(&self, out: &mut [u8]) -> Result<usize, Refusal> {
        let dumped = raw::dump(self.hall, out);
        accepted(dumped.refusal, dumped.len)
    }
}

impl fmt::Debug for HallView<'_> {
    fn fmt(&self, f: &mut fmt::Formatter<'_>) -> fmt::Result {
        write!(f, "HallView({} bytes)", self.hall.len())
    }
}

/// How much the store in two memories holds, which are only looked at.
///
/// ```
/// use hourbracken::{counts_in, Refusal, Sizes, Store};
///
/// let sizes = Sizes { key_rooms: 4, version_rooms: 8, desks: 2 };
/// let (mut hall, mut desk) = (vec![0; sizes.hall_len()], vec![0; sizes.desk_len()]);
/// assert_eq!(counts_in(&hall, &desk), Err(Refusal::Unsound));
/// Store::make(&mut hall, &mut desk, sizes)?;
/// assert_eq!(counts_in(&hall, &desk)?.keys, 0);
/// # Ok::<(), Refusal>(())
/// ```
///
/// # Errors
///
/// [`Refusal::Unsound`].
pub fn counts_in(hall: &[u8], desk: &[u8]) -> Result<Counted, Refusal> {
    let held = raw::counts(hall, desk);
    accepted(held.refusal, Counted { keys: held.keys, versions: held.versions, desks: held.desks })
}
