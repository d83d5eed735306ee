//! The open transactions, as desk memory tells them.

use crate::{desk_len, Start, MAX_DESKS};

/// The number of eight bytes at a place, if the memory has them.
fn number(memory: &[u8], at: usize) -> Option<u64> {
    memory.get(at..)?.get(..8)?.try_into().ok().map(u64::from_le_bytes)
}

/// The starts of the transactions that are open in this desk memory, in the order of their desks.
///
/// No call is made: of memory that is not sound it is what its bytes say. [`Store::desks`](crate::Store::desks) tests
/// it first.
///
/// ```
/// use hourbracken::{desk_len, starts_in, Start};
///
/// let mut desk = vec![0; desk_len(2)];
/// (desk[0], desk[8], desk[desk_len(1)]) = (0b10, 2, 7); // the second desk is taken, by the start 7
/// assert!(starts_in(&desk).eq([Start::from_number(7)]));
/// ```
pub fn starts_in(desk: &[u8]) -> impl Iterator<Item = Start> + Clone + '_ {
    let taken = number(desk, 0).unwrap_or(0);
    // a desk stands where those before it end
    let places = (0..MAX_DESKS).filter(move |place| taken >> place & 1 == 1).map(desk_len);
    places.filter_map(move |at| number(desk, at)).map(Start::from_number)
}
