//! What a store has room for.

use crate::{desk_len, dump_len, hall_len, MAX_DESKS, MAX_KEY_ROOMS, MAX_VERSION_ROOMS};

/// What a store has room for, chosen when it is made or loaded.
///
/// ```
/// use hourbracken::Sizes;
///
/// const SIZES: Sizes = Sizes { key_rooms: 8, version_rooms: 64, desks: 4 };
/// static HALL: [u8; SIZES.hall_len()] = [0; SIZES.hall_len()];
/// assert_eq!((HALL.len(), SIZES.desk_len()), (7_272, 8_109));
/// ```
#[derive(Clone, Copy, PartialEq, Eq, Hash, Debug)]
pub struct Sizes {
    /// Keys that can be held: 1 to 1,024.
    pub key_rooms: usize,
    /// Versions that can be held, deletions among them: 1 to 65,536.
    pub version_rooms: usize,
    /// Transactions that can be open at once: 1 to 64.
    pub desks: usize,
}

impl Sizes {
    /// The largest store.
    pub const MAX: Sizes = Sizes { key_rooms: MAX_KEY_ROOMS, version_rooms: MAX_VERSION_ROOMS, desks: MAX_DESKS };

    /// The length that hall memory needs.
    #[must_use]
    pub const fn hall_len(self) -> usize {
        hall_len(self.key_rooms, self.version_rooms)
    }

    /// The length that desk memory needs.
    #[must_use]
    pub const fn desk_len(self) -> usize {
        desk_len(self.desks)
    }

    /// A length that no dump exceeds.
    #[must_use]
    pub const fn dump_len(self) -> usize {
        dump_len(self.key_rooms, self.version_rooms)
    }
}
