//! Why a call is not done.

use crate::Clashes;
use core::fmt;

/// Why a call was not done. It changed no byte, but for a conflict, which closes its transaction, and a replay that is
/// [`Stopped`] at a record.
///
/// A conflict carries its list inline, since nothing allocates: where clippy calls the error large,
/// `large-error-threshold = 640` in `clippy.toml` allows it.
#[derive(Clone, Copy, PartialEq, Eq, Debug)]
#[non_exhaustive]
pub enum Refusal {
    /// A memory of the store is not sound: something else wrote into it, or it never held a store.
    Unsound,
    /// Rooms or desks out of range, or a memory shorter than they need.
    BadSizes,
    /// A key of 0 bytes or of more than 24, or one with a byte outside 33 to 126, [`KEY_BYTES`](crate::KEY_BYTES).
    BadKey,
    /// A value of more than 96 bytes.
    LongValue,
    /// No open transaction has that start.
    NotOpen,
    /// All desks are taken, as many as were chosen.
    DesksTaken,
    /// A seventeenth key.
    TooManyWrites,
    /// The last number is issued.
    Spent,
    /// Other commits came between: these keys, which the transaction writes, have versions above its start. The
    /// transaction is closed.
    Conflict(Clashes),
    /// More new keys than free key rooms. The transaction stays open, where there is one.
    NoKeyRoom,
    /// More writes than free version rooms. The transaction stays open, where there is one.
    NoVersionRoom,
    /// An output shorter than the dump, or than the answers of a batch; or than a commit's record, and then the
    /// transaction stays open.
    ShortOutput,
    /// A dump that ends within the field that starts here.
    CutShort {
        /// Of its first byte.
        offset: usize,
    },
    /// A dump whose field that starts here is wrong, or a journal whose record that starts here is.
    Malformed {
        /// Of its first byte.
        offset: usize,
    },
    /// A dump whose count that starts here is more than the rooms hold.
    TooBig {
        /// Of its first byte.
        offset: usize,
    },
    /// A number below the floor, where versions may be gone, or above the counter.
    OutOfReach,
    /// A transaction is open, and a replay takes a store with all desks free.
    DesksOpen,
    /// A batch whose record that starts here is malformed, or one too many.
    MalformedBatch {
        /// Of its first byte.
        offset: usize,
    },
    /// A batch whose record that starts here has a reserved kind.
    ReservedKind {
        /// Of its first byte.
        offset: usize,
    },
}

impl Refusal {
    /// The refusal's number, 1 to 19, as the header has them.
    ///
    /// ```
    /// assert_eq!(hourbracken::Refusal::NotOpen.number(), 5);
    /// ```
    #[must_use]
    pub const fn number(self) -> u64 {
        match self {
            Refusal::Unsound => 1,
            Refusal::BadSizes => 2,
            Refusal::BadKey => 3,
            Refusal::LongValue => 4,
            Refusal::NotOpen => 5,
            Refusal::DesksTaken => 6,
            Refusal::TooManyWrites => 7,
            Refusal::Spent => 8,
            Refusal::Conflict(_) => 9,
            Refusal::NoKeyRoom => 10,
            Refusal::NoVersionRoom => 11,
            Refusal::ShortOutput => 12,
            Refusal::CutShort { .. } => 13,
            Refusal::Malformed { .. } => 14,
            Refusal::TooBig { .. } => 15,
            Refusal::OutOfReach => 16,
            Refusal::DesksOpen => 17,
            Refusal::MalformedBatch { .. } => 18,
            Refusal::ReservedKind { .. } => 19,
        }
    }

    /// A number that the calls answer alone; they are proved to answer no other.
    pub(crate) const fn plain(number: u64) -> Refusal {
        match number {
            2 => Refusal::BadSizes,
            3 => Refusal::BadKey,
            4 => Refusal::LongValue,
            5 => Refusal::NotOpen,
            6 => Refusal::DesksTaken,
            7 => Refusal::TooManyWrites,
            8 => Refusal::Spent,
            10 => Refusal::NoKeyRoom,
            11 => Refusal::NoVersionRoom,
            12 => Refusal::ShortOutput,
            16 => Refusal::OutOfReach,
            17 => Refusal::DesksOpen,
            _ => Refusal::Unsound,
        }
    }

    /// One that says where in the bytes it was given.
    #[cfg(feature = "archive")]
    pub(crate) const fn at(number: u64, offset: usize) -> Refusal {
        match number {
            13 => Refusal::CutShort { offset },
            14 => Refusal::Malformed { offset },
            15 => Refusal::TooBig { offset },
            18 => Refusal::MalformedBatch { offset },
            19 => Refusal::ReservedKind { offset },
            _ => Refusal::plain(number),
        }
    }
}

impl fmt::Display for Refusal {
    fn fmt(&self, f: &mut fmt::Formatter<'_>) -> fmt::Result {
        match self {
            Refusal::Unsound => f.write_str("a memory of the store is not sound"),
            Refusal::BadSizes => f.write_str("rooms or desks out of range, or a memory shorter than they need"),
            Refusal::BadKey => f.write_str("a key has 1 to 24 bytes, each of 33 to 126"),
            Refusal::LongValue => f.write_str("a value has at most 96 bytes"),
            Refusal::NotOpen => f.write_str("no open transaction has that start"),
            Refusal::DesksTaken => f.write_str("all desks are taken"),
            Refusal::TooManyWrites => f.write_str("a transaction writes at most 16 keys"),
            Refusal::Spent => f.write_str("the last number is issued"),
            Refusal::Conflict(clashes) => fmt::Display::fmt(clashes, f),
            Refusal::NoKeyRoom => f.write_str("more new keys than free key rooms"),
            Refusal::NoVersionRoom => f.write_str("more writes than free version rooms"),
            Refusal::ShortOutput => f.write_str("the output is shorter than the dump, the record or the answers"),
            Refusal::CutShort { offset } => write!(f, "the dump ends within the field at {offset}"),
            Refusal::Malformed { offset } => write!(f, "the dump's field or the journal's record at {offset} is wrong"),
            Refusal::TooBig { offset } => write!(f, "the dump's count at {offset} is more than the rooms hold"),
            Refusal::OutOfReach => f.write_str("the number is below the floor or above the counter"),
            Refusal::DesksOpen => f.write_str("a transaction is open, and a replay takes none"),
            Refusal::MalformedBatch { offset } => write!(f, "the batch's record at {offset} is wrong, or one too many"),
            Refusal::ReservedKind { offset } => write!(f, "the batch's record at {offset} has a reserved kind"),
        }
    }
}

#[cfg(feature = "std")]
impl std::error::Error for Refusal {}

/// A replay that came to no end. The commits of the journal's first `offset` bytes are done and stand, and no other.
///
/// Where the refusal alone matters, `?` makes it one.
#[derive(Clone, Copy, PartialEq, Eq, Debug)]
pub struct Stopped {
    /// Why: [`Refusal::Malformed`], [`Refusal::NoKeyRoom`] or [`Refusal::NoVersionRoom`] of the record at the offset;
    /// or [`Refusal::Unsound`] or [`Refusal::DesksOpen`], and then the journal was not looked at.
    pub refusal: Refusal,
    /// Where in the journal the record starts that is refused; 0 if none was looked at.
    pub offset: usize,
}

impl fmt::Display for Stopped {
    fn fmt(&self, f: &mut fmt::Formatter<'_>) -> fmt::Result {
        let Stopped { refusal, offset } = self;
        match refusal {
            Refusal::Malformed { .. } => write!(f, "the record at {offset} is malformed"),
            Refusal::NoKeyRoom | Refusal::NoVersionRoom => write!(f, "the record at {offset}: {refusal}"),
            _ => fmt::Display::fmt(refusal, f),
        }
    }
}

impl From<Stopped> for Refusal {
    fn from(stopped: Stopped) -> Refusal {
        stopped.refusal
    }
}

#[cfg(feature = "std")]
impl std::error::Error for Stopped {}
