//! Hourbracken, the seat store: versions with snapshot-isolated transactions, in two memories that you lend.
//!
//! The calls are written and proved in Rattle and linked from `libhourbracken.a`; this crate gives them types. A
//! transaction sees what was committed when it began, whatever others do later. Two that write the same key cannot both
//! commit: the second is refused, and told every key in which they clash.
//!
#![cfg_attr(feature = "archive", doc = "```")]
#![cfg_attr(not(feature = "archive"), doc = "```ignore")]
//! use hourbracken::{Committed, Found, Refusal, Sizes, Store};
//!
//! const SIZES: Sizes = Sizes { key_rooms: 8, version_rooms: 64, desks: 2 };
//! let (mut hall, mut desk) = ([0; SIZES.hall_len()], [0; SIZES.desk_len()]);
//! let mut store = Store::open_or_make(&mut hall, &mut desk, SIZES)?;
//!
//! let anna = store.begin()?.start;
//! let bram = store.begin()?.start;
//! store.put(anna, b"A1", b"loop")?;
//! assert_eq!(store.commit(anna)?.number(), Some(3));
//!
//! assert_eq!(store.read(bram, b"A1")?, Found::Nothing);
//! store.put(bram, b"A1", b"direct")?;
//! match store.commit(bram) {
//!     Err(Refusal::Conflict(clashes)) => assert_eq!(clashes.to_string(), "A1 was changed by 3"),
//!     other => panic!("{other:?}"),
//! }
//! # Ok::<(), Refusal>(())
//! ```
//!
//! No call panics. A refused call changes no byte of either memory, but for a conflict, which closes its transaction,
//! and a replay that stops at a record.
//!
//! # Features
//!
//! - `archive` (on): the store. What is left without it runs on any machine: [`dump`] looks into a dump, [`picture`]
//!   draws it, [`journal`] goes through a journal, and [`batch`] builds batches and reads their answers. Documentation
//!   and `cargo check` want no archive either.
//! - `std` (on): the errors are `std::error::Error`. Without it the crate takes `core` alone. Nothing allocates.

#![no_std]
#![warn(missing_docs)]
#![deny(unsafe_code)]

#[cfg(feature = "std")]
extern crate std;

mod answers;
pub mod batch;
mod clashes;
mod desks;
pub mod dump;
pub mod journal;
mod numbers;
pub mod picture;
#[cfg(feature = "archive")]
#[allow(unsafe_code)]
mod raw;
mod refusal;
mod shown;
mod sizes;
#[cfg(feature = "archive")]
mod store;
#[cfg(feature = "archive")]
mod transaction;
#[cfg(feature = "archive")]
mod view;

use core::ops::RangeInclusive;

pub use answers::{Begun, Commit, Committed, Counted, Found, Key, Recorded, Start, Swept};
pub use clashes::{Clash, ClashIter, Clashes};
pub use desks::starts_in;
pub use refusal::{Refusal, Stopped};
pub use shown::Shown;
pub use sizes::Sizes;
#[cfg(feature = "archive")]
pub use store::Store;
#[cfg(feature = "archive")]
pub use transaction::Transaction;
#[cfg(feature = "archive")]
pub use view::{counts_in, HallView};

/// Bytes of the longest key; the shortest has 1.
pub const MAX_KEY: usize = 24;
/// What a key's bytes are: letters, digits and signs of ASCII, and neither a space nor what does not print.
pub const KEY_BYTES: RangeInclusive<u8> = b'!'..=b'~';
/// Bytes of the longest value; the shortest has none.
pub const MAX_VALUE: usize = 96;
/// Key rooms of the largest store; the smallest has 1.
pub const MAX_KEY_ROOMS: usize = 1_024;
/// Version rooms of the largest store; the smallest has 1.
pub const MAX_VERSION_ROOMS: usize = 65_536;
/// Desks of the largest store, for transactions open at once; the smallest has 1.
pub const MAX_DESKS: usize = 64;
/// Different keys that one transaction may write.
pub const MAX_WRITES: usize = 16;
/// Bytes of the longest record that a commit writes for a journal.
pub const RECORD_LEN: usize = 2 + 4 + 8 + 4 + MAX_WRITES * (4 + MAX_KEY + 1 + 4 + MAX_VALUE);

/// The length that hall memory of these rooms needs.
///
/// ```
/// assert_eq!(hourbracken::hall_len(8, 64), 7_272);
/// ```
#[must_use]
pub const fn hall_len(key_rooms: usize, version_rooms: usize) -> usize {
    64usize.saturating_add(key_rooms.saturating_mul(29)).saturating_add(version_rooms.saturating_mul(109))
}

/// The length that desk memory of so many desks needs.
///
/// ```
/// assert_eq!(hourbracken::desk_len(2), 4_059);
/// ```
#[must_use]
pub const fn desk_len(desks: usize) -> usize {
    9usize.saturating_add(desks.saturating_mul(2_025))
}

/// A length that no dump of a store with these rooms exceeds.
///
/// ```
/// assert_eq!(hourbracken::dump_len(8, 64), 7_252);
/// ```
#[must_use]
pub const fn dump_len(key_rooms: usize, version_rooms: usize) -> usize {
    20usize.saturating_add(key_rooms.saturating_mul(32)).saturating_add(version_rooms.saturating_mul(109))
}
