//! A look into a dump, on any machine and without allocation.
//!
//! [`Reader`] takes a dump's fields in their order and answers its records, or the fault that a load of it is refused
//! for; [`Dump`] is one that was read to its end. No store is needed for either, and no archive.
//!
//! ```
//! use hourbracken::dump::Dump;
//!
//! let bytes = b"DSEMVCC1\x03\0\0\0\0\0\0\0\x01\0\0\0\x02\0\0\0A1\x01\0\0\0\x02\0\0\0\0\0\0\0\x01\x01\0\0\0\x07";
//! let dump = Dump::read(bytes)?;
//! assert_eq!((dump.counter(), dump.keys(), dump.versions()), (2, 1, 1));
//! for entry in dump.entries() {
//!     assert_eq!(entry.key, b"A1");
//!     assert!(entry.versions().all(|version| version.number == 2 && version.value == Some(&[7])));
//! }
//!
//! let fault = Dump::read(&bytes[..43]).unwrap_err();
//! assert_eq!((fault.refusal().number(), fault.offset), (13, 43));
//! assert_eq!(fault.to_string(), "in key A1: the dump ends within the value: 1 byte, of which 0 are there");
//! # Ok::<(), hourbracken::dump::Fault>(())
//! ```

use crate::numbers::number;
use crate::shown::Many;
use crate::{Key, Refusal, Shown, KEY_BYTES, MAX_KEY, MAX_KEY_ROOMS, MAX_VALUE, MAX_VERSION_ROOMS};
use core::fmt;

const OPENING: &[u8] = b"DSEMVCC1";
const NUMBER: usize = 8;
const COUNT: usize = 4;
const TAG: usize = 1;

/// The fields of a dump, by name.
#[derive(Clone, Copy, PartialEq, Eq, Hash, Debug)]
#[non_exhaustive]
pub enum Field {
    /// Eight letters that say the edition.
    Opening,
    /// The counter and one more.
    NextNumber,
    /// How many keys follow.
    KeyCount,
    /// How many bytes the key has.
    KeyLength,
    /// The key.
    Key,
    /// How many versions of the key follow.
    VersionCount,
    /// The version's number.
    VersionNumber,
    /// 0 for a deletion, 1 for a value.
    Tag,
    /// How many bytes the value has.
    ValueLength,
    /// The value.
    Value,
}

impl fmt::Display for Field {
    fn fmt(&self, f: &mut fmt::Formatter<'_>) -> fmt::Result {
        f.write_str(match self {
            Field::Opening => "opening",
            Field::NextNumber => "next number",
            Field::KeyCount => "key count",
            Field::KeyLength => "key length",
            Field::Key => "key",
            Field::VersionCount => "version count",
            Field::VersionNumber => "version number",
            Field::Tag => "tag",
            Field::ValueLength => "value length",
            Field::Value => "value",
        })
    }
}

/// What is wrong with a field of a dump, or of a record's body in a journal.
#[derive(Clone, Copy, PartialEq, Eq, Debug)]
#[non_exhaustive]
pub enum Wrong {
    /// The rooms to load into are out of range; the dump was not looked at.
    Sizes,
    /// The bytes end within the field.
    Cut {
        /// Which it is.
        field: Field,
        /// How many bytes it takes.
        needed: usize,
        /// How many of them are there.
        there: usize,
    },
    /// Not the letters that a dump opens with.
    Opening,
    /// A next number of 0.
    NextNumber,
    /// More keys than key rooms.
    KeyRooms {
        /// Keys of the dump.
        count: u64,
        /// Rooms of the store.
        rooms: usize,
    },
    /// A key of no bytes or of too many.
    KeyLength(u64),
    /// A key with a byte that is none of [`KEY_BYTES`].
    KeyByte {
        /// The key.
        key: Key,
        /// Where in it the first such byte stands, from 0.
        at: usize,
    },
    /// A key that is not above the one before.
    KeyOrder {
        /// The key.
        key: Key,
        /// The one before.
        last: Key,
    },
    /// A key without versions.
    NoVersions,
    /// More versions than version rooms.
    VersionRooms {
        /// Versions of this key.
        count: u64,
        /// Rooms that the keys before leave.
        left: usize,
    },
    /// A version number that is 0 or not above the one before.
    NumberOrder {
        /// The number.
        number: u64,
        /// The one before, 0 for the key's first.
        last: u64,
    },
    /// A version number that is not below the next number.
    NumberAhead {
        /// The number.
        number: u64,
        /// The next number.
        next: u64,
    },
    /// A tag that is neither 0 nor 1.
    Tag(u8),
    /// A value of too many bytes.
    ValueLength(u64),
    /// So many bytes after the end.
    After(usize),
}

/// Why a load of the dump is refused.
#[derive(Clone, Copy, PartialEq, Eq, Debug)]
pub struct Fault {
    /// Where the field starts that is wrong.
    pub offset: usize,
    /// The key that it belongs to, where the dump has told which.
    pub key: Option<Key>,
    /// What is wrong there.
    pub wrong: Wrong,
}

impl Fault {
    /// The refusal that a load of the dump answers: one of 13, 14 and 15 with the offset, or 2.
    #[must_use]
    pub const fn refusal(&self) -> Refusal {
        let offset = self.offset;
        match self.wrong {
            Wrong::Sizes => Refusal::BadSizes,
            Wrong::Cut { .. } => Refusal::CutShort { offset },
            Wrong::KeyRooms { .. } | Wrong::VersionRooms { .. } => Refusal::TooBig { offset },
            _ => Refusal::Malformed { offset },
        }
    }
}

impl Fault {
    /// In words, where the bytes are called so.
    pub(crate) fn tell(&self, whole: &str, f: &mut fmt::Formatter<'_>) -> fmt::Result {
        if let Some(key) = self.key {
            write!(f, "in key {key}: ")?;
        }
        match self.wrong {
            Wrong::Sizes => write!(
                f,
                "the rooms are out of range: 1 to {MAX_KEY_ROOMS} for keys and 1 to {MAX_VERSION_ROOMS} for versions"
            ),
            Wrong::Cut { field, needed, there } => {
                let (needed, verb) = (Many(needed as u64, "byte"), if there == 1 { "is" } else { "are" });
                write!(f, "the {whole} ends within the {field}: {needed}, of which {there} {verb} there")
            }
            Wrong::Opening => write!(f, "it does not open with {}: it is no dump of this edition", Shown(OPENING)),
            Wrong::NextNumber => f.write_str("the next number is 0, and it is at least 1"),
            Wrong::KeyRooms { count, rooms } => {
                write!(f, "{}, with {}", Many(count, "key"), Many(rooms as u64, "key room"))
            }
            Wrong::KeyLength(length) => write!(f, "a key length of {length}, and a key has 1 to {MAX_KEY} bytes"),
            Wrong::KeyByte { key, at } => {
                let (byte, first, last) = (key.get(at).unwrap_or(&0), KEY_BYTES.start(), KEY_BYTES.end());
                write!(f, "the key {key} has the byte {byte} at its place {at}, and its bytes are {first} to {last}")
            }
            Wrong::KeyOrder { key, last } if key == last => write!(f, "the key {key} is there twice"),
            Wrong::KeyOrder { key, last } => {
                write!(f, "the key {key} stands after {last}, and keys ascend")
            }
            Wrong::NoVersions => f.write_str("a version count of 0, and a key has at least one"),
            Wrong::VersionRooms { count, left } => {
                write!(f, "{}, with {} left", Many(count, "version"), Many(left as u64, "version room"))
            }
            Wrong::NumberOrder { number: 0, .. } => f.write_str("a version number of 0, and it is at least 1"),
            Wrong::NumberOrder { number, last } => {
                write!(f, "the version number {number} stands after {last}, and numbers ascend")
            }
            Wrong::NumberAhead { number, next } => {
                write!(f, "the version number {number} is not below the next number, {next}")
            }
            Wrong::Tag(tag) => write!(f, "a tag of {tag}, and it is 0 for a deletion or 1 for a value"),
            Wrong::ValueLength(length) => {
                write!(f, "a value length of {length}, and a value has at most {MAX_VALUE} bytes")
            }
            Wrong::After(length) => write!(f, "{} after the end", Many(length as u64, "byte")),
        }
    }
}

impl fmt::Display for Fault {
    fn fmt(&self, f: &mut fmt::Formatter<'_>) -> fmt::Result {
        self.tell("dump", f)
    }
}

impl From<Fault> for Refusal {
    fn from(fault: Fault) -> Refusal {
        fault.refusal()
    }
}

#[cfg(feature = "std")]
impl std::error::Error for Fault {}

/// A version of a key.
#[derive(Clone, Copy, PartialEq, Eq, Debug)]
pub struct Version<'d> {
    /// The number of its commit.
    pub number: u64,
    /// Its bytes; none if it is a deletion.
    pub value: Option<&'d [u8]>,
}

/// A part of a dump that is whole.
#[derive(Clone, Copy, PartialEq, Eq, Debug)]
pub enum Record<'d> {
    /// What comes first.
    Head {
        /// The last number issued.
        counter: u64,
        /// How many keys follow.
        keys: usize,
    },
    /// A key.
    Key {
        /// Its bytes.
        key: &'d [u8],
        /// How many versions of it follow.
        versions: usize,
    },
    /// A version of the key before.
    Version(Version<'d>),
}

#[derive(Clone, Copy, PartialEq, Eq, Debug)]
enum Due {
    Head,
    Records,
    Nothing,
}

/// The records of a dump in their order, up to its first fault.
///
/// ```
/// use hourbracken::dump::{Reader, Record};
///
/// let mut reader = Reader::new(b"DSEMVCC1\x0a\0\0\0\0\0\0\0\0\0\0\0!");
/// assert_eq!(reader.next(), Some(Ok(Record::Head { counter: 9, keys: 0 })));
/// assert!(matches!(reader.next(), Some(Err(fault)) if fault.offset == 20 && fault.refusal().number() == 14));
/// assert_eq!(reader.next(), None);
/// ```
#[derive(Clone, Debug)]
pub struct Reader<'d> {
    bytes: &'d [u8],
    at: usize,
    due: Due,
    keys_due: u64,
    versions_due: u64,
    key_rooms: usize,
    version_rooms: usize,
    next_number: u64,
    key: Option<&'d [u8]>,
    number: u64,
}

impl<'d> Reader<'d> {
    /// Reads for the largest store.
    #[must_use]
    pub const fn new(bytes: &'d [u8]) -> Reader<'d> {
        Reader::with_rooms(bytes, MAX_KEY_ROOMS, MAX_VERSION_ROOMS)
    }

    /// Reads for a store of these rooms.
    #[must_use]
    pub const fn with_rooms(bytes: &'d [u8], key_rooms: usize, version_rooms: usize) -> Reader<'d> {
        Reader {
            bytes,
            at: 0,
            due: Due::Head,
            keys_due: 0,
            versions_due: 0,
            key_rooms,
            version_rooms,
            next_number: 0,
            key: None,
            number: 0,
        }
    }

    fn fault<T>(&self, offset: usize, wrong: Wrong) -> Result<T, Fault> {
        Err(Fault { offset, key: self.key.map(Key::copied), wrong })
    }

    /// A field of so many bytes, unless the dump ends within it or `wrong` finds a fault in it.
    fn field(
        &mut self,
        field: Field,
        length: usize,
        wrong: impl FnOnce(&'d [u8]) -> Option<Wrong>,
    ) -> Result<&'d [u8], Fault> {
        let rest = self.bytes.get(self.at..).unwrap_or_default();
        let Some(bytes) = rest.get(..length) else {
            return self.fault(self.at, Wrong::Cut { field, needed: length, there: rest.len() });
        };
        if let Some(wrong) = wrong(bytes) {
            return self.fault(self.at, wrong);
        }
        self.at += length;
        Ok(bytes)
    }

    /// Such a field that is a number, the low byte first.
    fn number(&mut self, field: Field, width: usize, wrong: impl FnOnce(u64) -> Option<Wrong>) -> Result<u64, Fault> {
        self.field(field, width, |bytes| wrong(number(bytes))).map(number)
    }

    fn head(&mut self) -> Result<Record<'d>, Fault> {
        let (key_rooms, version_rooms) = (self.key_rooms, self.version_rooms);
        if !((1..=MAX_KEY_ROOMS).contains(&key_rooms) && (1..=MAX_VERSION_ROOMS).contains(&version_rooms)) {
            return self.fault(0, Wrong::Sizes);
        }
        self.field(Field::Opening, OPENING.len(), |bytes| (bytes != OPENING).then_some(Wrong::Opening))?;
        self.next_number = self.number(Field::NextNumber, NUMBER, |n| (n == 0).then_some(Wrong::NextNumber))?;
        self.keys_due = self.number(Field::KeyCount, COUNT, |count| {
            (count > key_rooms as u64).then_some(Wrong::KeyRooms { count, rooms: key_rooms })
        })?;
        self.due = Due::Records;
        Ok(Record::Head { counter: self.next_number - 1, keys: self.keys_due as usize })
    }

    /// A key above the last one, by its length and its bytes.
    fn key_bytes(&mut self) -> Result<&'d [u8], Fault> {
        let last = self.key.take();
        let length = self.number(Field::KeyLength, COUNT, |length| {
            (!(1..=MAX_KEY as u64).contains(&length)).then_some(Wrong::KeyLength(length))
        })?;
        let key = self.field(Field::Key, length as usize, |bytes| {
            let key = Key::copied(bytes);
            match bytes.iter().position(|byte| !KEY_BYTES.contains(byte)) {
                Some(at) => Some(Wrong::KeyByte { key, at }),
                None => last.filter(|last| bytes <= *last).map(|last| Wrong::KeyOrder { key, last: Key::copied(last) }),
            }
        })?;
        self.key = Some(key);
        Ok(key)
    }

    fn key(&mut self) -> Result<Record<'d>, Fault> {
        let (key, left) = (self.key_bytes()?, self.version_rooms);
        let count = self.number(Field::VersionCount, COUNT, |count| match count {
            0 => Some(Wrong::NoVersions),
            _ => (count > left as u64).then_some(Wrong::VersionRooms { count, left }),
        })?;
        self.keys_due -= 1;
        self.versions_due = count;
        self.version_rooms -= count as usize;
        self.number = 0;
        Ok(Record::Key { key, versions: count as usize })
    }

    fn version(&mut self) -> Result<Record<'d>, Fault> {
        let (last, next) = (self.number, self.next_number);
        let number = self.number(Field::VersionNumber, NUMBER, |number| match number {
            _ if number <= last => Some(Wrong::NumberOrder { number, last }),
            _ => (number >= next).then_some(Wrong::NumberAhead { number, next }),
        })?;
        let value = self.payload()?;
        self.versions_due -= 1;
        self.number = number;
        Ok(Record::Version(Version { number, value }))
    }

    /// A value, or none if it is a deletion.
    fn payload(&mut self) -> Result<Option<&'d [u8]>, Fault> {
        match self.number(Field::Tag, TAG, |tag| (tag > 1).then_some(Wrong::Tag(tag as u8)))? {
            0 => Ok(None),
            _ => self.value().map(Some),
        }
    }

    fn value(&mut self) -> Result<&'d [u8], Fault> {
        let length = self.number(Field::ValueLength, COUNT, |length| {
            (length > MAX_VALUE as u64).then_some(Wrong::ValueLength(length))
        })?;
        self.field(Field::Value, length as usize, |_| None)
    }

    /// A key and its payload with no number between, as a journal has them.
    pub(crate) fn write(&mut self) -> Result<(&'d [u8], Option<&'d [u8]>), Fault> {
        let key = self.key_bytes()?;
        Ok((key, self.payload()?))
    }

    /// What is there after the last record.
    pub(crate) fn end(&mut self) -> Option<Result<Record<'d>, Fault>> {
        self.due = Due::Nothing;
        self.key = None;
        let after = self.bytes.len() - self.at;
        (after > 0).then(|| self.fault(self.at, Wrong::After(after)))
    }
}

impl<'d> Iterator for Reader<'d> {
    type Item = Result<Record<'d>, Fault>;

    fn next(&mut self) -> Option<Self::Item> {
        let record = match self.due {
            Due::Head => self.head(),
            Due::Records if self.versions_due > 0 => self.version(),
            Due::Records if self.keys_due > 0 => self.key(),
            Due::Records => return self.end(),
            Due::Nothing => return None,
        };
        if record.is_err() {
            self.due = Due::Nothing;
        }
        Some(record)
    }
}

impl core::iter::FusedIterator for Reader<'_> {}

/// A dump that a load accepts.
#[derive(Clone, Copy)]
pub struct Dump<'d> {
    bytes: &'d [u8],
    counter: u64,
    keys: usize,
    versions: usize,
}

impl<'d> Dump<'d> {
    /// A dump that the largest store takes.
    ///
    /// # Errors
    ///
    /// The first fault, as a load finds it.
    pub fn read(bytes: &'d [u8]) -> Result<Dump<'d>, Fault> {
        Dump::read_for(bytes, MAX_KEY_ROOMS, MAX_VERSION_ROOMS)
    }

    /// A dump that a store of these rooms takes.
    ///
    /// # Errors
    ///
    /// The first fault, as a load into these rooms finds it.
    pub fn read_for(bytes: &'d [u8], key_rooms: usize, version_rooms: usize) -> Result<Dump<'d>, Fault> {
        let mut dump = Dump { bytes, counter: 0, keys: 0, versions: 0 };
        for record in Reader::with_rooms(bytes, key_rooms, version_rooms) {
            match record? {
                Record::Head { counter, keys } => (dump.counter, dump.keys) = (counter, keys),
                Record::Key { versions, .. } => dump.versions += versions,
                Record::Version(_) => {}
            }
        }
        Ok(dump)
    }

    /// Its bytes.
    #[must_use]
    pub const fn bytes(&self) -> &'d [u8] {
        self.bytes
    }

    /// The last number issued, to a start or to a commit.
    #[must_use]
    pub const fn counter(&self) -> u64 {
        self.counter
    }

    /// How many keys it has.
    #[must_use]
    pub const fn keys(&self) -> usize {
        self.keys
    }

    /// How many versions, deletions among them, all keys have together.
    #[must_use]
    pub const fn versions(&self) -> usize {
        self.versions
    }

    /// Its keys, ascending.
    #[must_use]
    pub fn entries(&self) -> Entries<'d> {
        Entries { reader: Reader::new(self.bytes) }
    }
}

/// Its counter and its counts.
impl fmt::Display for Dump<'_> {
    fn fmt(&self, f: &mut fmt::Formatter<'_>) -> fmt::Result {
        let (keys, versions) = (Many(self.keys as u64, "key"), Many(self.versions as u64, "version"));
        write!(f, "counter {}, {keys}, {versions}", self.counter)
    }
}

impl fmt::Debug for Dump<'_> {
    fn fmt(&self, f: &mut fmt::Formatter<'_>) -> fmt::Result {
        write!(f, "Dump({self})")
    }
}

/// A key and its versions.
#[derive(Clone)]
pub struct Entry<'d> {
    /// The key.
    pub key: &'d [u8],
    versions: Versions<'d>,
}

impl<'d> Entry<'d> {
    /// Its versions, the oldest first; there is at least one.
    #[must_use]
    pub fn versions(&self) -> Versions<'d> {
        self.versions.clone()
    }
}

impl fmt::Debug for Entry<'_> {
    fn fmt(&self, f: &mut fmt::Formatter<'_>) -> fmt::Result {
        f.debug_struct("Entry").field("key", &Shown(self.key)).field("versions", &self.versions.left).finish()
    }
}

/// The keys of a dump, ascending.
#[derive(Clone, Debug)]
pub struct Entries<'d> {
    reader: Reader<'d>,
}

impl<'d> Iterator for Entries<'d> {
    type Item = Entry<'d>;

    fn next(&mut self) -> Option<Entry<'d>> {
        loop {
            if let Record::Key { key, versions } = self.reader.next()?.ok()? {
                let reader = self.reader.clone();
                return Some(Entry { key, versions: Versions { reader, left: versions } });
            }
        }
    }
}

/// The versions of a key, the oldest first.
#[derive(Clone, Debug)]
pub struct Versions<'d> {
    reader: Reader<'d>,
    left: usize,
}

impl<'d> Iterator for Versions<'d> {
    type Item = Version<'d>;

    fn next(&mut self) -> Option<Version<'d>> {
        self.left = self.left.checked_sub(1)?;
        match self.reader.next() {
            Some(Ok(Record::Version(version))) => Some(version),
            _ => None,
        }
    }

    fn size_hint(&self) -> (usize, Option<usize>) {
        (self.left, Some(self.left))
    }
}

impl ExactSizeIterator for Versions<'_> {}
