//! The bytes of hall and desk memory, from docs/LAYOUT.md and docs/RULES.md, 3: which bytes a state has, and which
//! state bytes have, if they are sound.

use crate::store::{Bytes, Content, Desk, Sizes, Store, Version, KEY_MAX, VALUE_MAX, WRITES_MAX};
use std::collections::BTreeMap;

pub const KEY_CELL: usize = 1 + KEY_MAX;
pub const PAYLOAD_CELL: usize = 1 + 4 + VALUE_MAX;

pub const HALL_HEADER: usize = 64;
/// In hall memory's header: how many desks there are.
pub const HALL_DESKS: usize = 32;
/// Where the header's bytes that are always zero begin.
pub const HALL_SPARE: usize = HALL_DESKS + 4;
pub const KEY_ROW: usize = KEY_CELL + 4;
pub const VERSION_ROW: usize = 8 + PAYLOAD_CELL;

/// In desk memory: how many desks there are.
pub const DESK_COUNT: usize = 8;
pub const DESK_HEADER: usize = DESK_COUNT + 1;
pub const WRITE_ROW: usize = KEY_CELL + PAYLOAD_CELL;
pub const WRITES: usize = 8 + 1;
pub const DESK_ROW: usize = WRITES + WRITES_MAX * WRITE_ROW;

/// What desk memory needs, for a number of desks in range.
pub const fn desk_length(desks: u64) -> usize {
    DESK_HEADER + DESK_ROW * desks as usize
}

/// Where the version rows begin.
pub const fn versions_at(key_rooms: u64) -> usize {
    HALL_HEADER + KEY_ROW * key_rooms as usize
}

const fn version_at(key_rooms: u64, row: usize) -> usize {
    versions_at(key_rooms) + VERSION_ROW * row
}

/// What hall memory needs, for sizes in range.
pub const fn hall_length(sizes: Sizes) -> usize {
    version_at(sizes.key_rooms, sizes.version_rooms as usize)
}

fn set(memory: &mut [u8], at: usize, bytes: &[u8]) {
    memory[at..at + bytes.len()].copy_from_slice(bytes);
}

fn set_key(memory: &mut [u8], at: usize, key: &[u8]) {
    memory[at] = key.len() as u8;
    set(memory, at + 1, key);
}

fn set_payload(memory: &mut [u8], at: usize, content: &Content) {
    if let Some(value) = content {
        memory[at] = 1;
        set(memory, at + 1, &(value.len() as u32).to_le_bytes());
        set(memory, at + 5, value);
    }
}

fn set_version(memory: &mut [u8], at: usize, version: &Version) {
    set(memory, at, &version.number.to_le_bytes());
    set_payload(memory, at + 8, &version.content);
}

/// The bytes of a sound hall: the newest version of each key stands in its key's row, the older ones behind all those.
pub fn hall_bytes(store: &Store) -> Bytes {
    let Sizes { key_rooms, version_rooms, desks } = store.sizes;
    let mut memory = vec![0; hall_length(store.sizes)];
    set(&mut memory, 0, &(key_rooms as u32).to_le_bytes());
    set(&mut memory, 4, &(version_rooms as u32).to_le_bytes());
    set(&mut memory, 8, &store.counter.to_le_bytes());
    set(&mut memory, 16, &(store.keys.len() as u32).to_le_bytes());
    set(&mut memory, 20, &(store.versions_held() as u32).to_le_bytes());
    set(&mut memory, 24, &store.floor.to_le_bytes());
    set(&mut memory, HALL_DESKS, &(desks as u32).to_le_bytes());
    let mut end = 0;
    for (row, (key, versions)) in store.keys.iter().enumerate() {
        let mut older = versions.iter();
        if let Some(newest) = older.next_back() {
            set_version(&mut memory, version_at(key_rooms, row), newest);
        }
        for version in older {
            set_version(&mut memory, version_at(key_rooms, store.keys.len() + end), version);
            end += 1;
        }
        let key_at = HALL_HEADER + KEY_ROW * row;
        set_key(&mut memory, key_at, key);
        set(&mut memory, key_at + KEY_CELL, &(end as u32).to_le_bytes());
    }
    memory
}

/// The bytes of sound desks.
pub fn desk_bytes(desks: &[Option<Desk>]) -> Bytes {
    let mut memory = vec![0; desk_length(desks.len() as u64)];
    memory[DESK_COUNT] = desks.len() as u8;
    for (number, desk) in desks.iter().enumerate() {
        let Some(desk) = desk else { continue };
        memory[number / 8] |= 1 << (number % 8);
        let at = desk_length(number as u64);
        set(&mut memory, at, &desk.start.to_le_bytes());
        memory[at + 8] = desk.writes.len() as u8;
        let mut row_at = at + WRITES;
        for (key, content) in &desk.writes {
            set_key(&mut memory, row_at, key);
            set_payload(&mut memory, row_at + KEY_CELL, content);
            row_at += WRITE_ROW;
        }
    }
    memory
}

fn number(memory: &[u8], at: usize, width: usize) -> u64 {
    memory[at..at + width].iter().rev().fold(0, |high, byte| high << 8 | *byte as u64)
}

/// Nothing if the cell says a length that a key cannot have.
fn key_in(memory: &[u8], at: usize) -> Option<Bytes> {
    let length = memory[at] as usize;
    (length <= KEY_MAX).then(|| memory[at + 1..at + 1 + length].to_vec())
}

fn payload_in(memory: &[u8], at: usize) -> Option<Content> {
    let length = number(memory, at + 1, 4) as usize;
    match memory[at] {
        0 => Some(None),
        1 if length <= VALUE_MAX => Some(Some(memory[at + 5..at + 5 + length].to_vec())),
        _ => None,
    }
}

fn version_in(versions: &[u8], row: u64) -> Option<Version> {
    let at = VERSION_ROW * row as usize;
    if at >= versions.len() {
        return None;
    }
    Some(Version { number: number(versions, at, 8), content: payload_in(versions, at + 8)? })
}

/// The store in a sound hall memory, its desks free; nothing if the memory is not sound.
pub fn hall_in(memory: &[u8]) -> Option<Store> {
    if memory.len() < HALL_HEADER {
        return None;
    }
    let sizes = Sizes::new(number(memory, 0, 4), number(memory, 4, 4), number(memory, HALL_DESKS, 4));
    let mut store = Store::make(sizes).ok()?;
    let length = hall_length(sizes);
    let keys = number(memory, 16, 4);
    if memory.len() < length || keys > sizes.key_rooms {
        return None;
    }
    store.counter = number(memory, 8, 8);
    store.floor = number(memory, 24, 8);
    let versions = &memory[versions_at(sizes.key_rooms)..length];
    let mut first = 0;
    for row in 0..keys {
        let key_at = HALL_HEADER + KEY_ROW * row as usize;
        let end = number(memory, key_at + KEY_CELL, 4);
        let rows = (first..end).map(|older| keys + older).chain([row]);
        let chain = rows.map(|row| version_in(versions, row)).collect::<Option<Vec<Version>>>()?;
        store.keys.insert(key_in(memory, key_at)?, chain);
        first = end;
    }
    // Keys out of order or twice, ends that don't ascend, a wrong version count, a byte in unused room: such bytes
    // are not those of the state that was read.
    (store.hall_is_sound() && memory[..length] == hall_bytes(&store)).then_some(store)
}

fn desk_in(memory: &[u8], at: usize) -> Option<Desk> {
    let count = memory[at + 8] as usize;
    if count > WRITES_MAX {
        return None;
    }
    let mut writes = BTreeMap::new();
    for row in 0..count {
        let row_at = at + WRITES + WRITE_ROW * row;
        writes.insert(key_in(memory, row_at)?, payload_in(memory, row_at + KEY_CELL)?);
    }
    Some(Desk { start: number(memory, at, 8), writes })
}

/// The desks in a desk memory that is sound beside the hall of `store`; nothing if it is not.
pub fn desks_in(memory: &[u8], store: &Store) -> Option<Vec<Option<Desk>>> {
    let length = desk_length(store.sizes.desks);
    if memory.len() < length {
        return None;
    }
    let occupied = number(memory, 0, 8);
    let mut desks = Vec::new();
    for desk in 0..store.sizes.desks {
        let taken = occupied >> desk & 1 == 1;
        desks.push(if taken { Some(desk_in(memory, desk_length(desk))?) } else { None });
    }
    // Another number of desks, a mark beyond it, a byte in unused room: not the bytes of these desks.
    (store.desks_are_sound(&desks) && memory[..length] == desk_bytes(&desks)).then_some(desks)
}

/// What two lent memories hold.
#[derive(Clone, PartialEq, Eq, Debug)]
pub enum Held {
    /// The hall is not sound, so neither are the desks.
    Nothing,
    /// The hall is sound, the desks beside it are not. The store's desks are free.
    Hall(Store),
    Both(Store),
}

pub fn held(hall: &[u8], desk: &[u8]) -> Held {
    let Some(mut store) = hall_in(hall) else { return Held::Nothing };
    match desks_in(desk, &store) {
        None => Held::Hall(store),
        Some(desks) => {
            store.desks = desks;
            Held::Both(store)
        }
    }
}

#[cfg(test)]
mod tests {
    use super::*;
    use crate::store::TOP;

    const SIZES: Sizes = Sizes::new(3, 5, 4);

    /// Two keys, three versions, of four desks 0 and 2 open.
    fn some_store() -> Store {
        let mut s = Store::make(SIZES).unwrap();
        for start in [1, 3] {
            s.begin().unwrap();
            s.put(start, b"A1", &[start as u8; VALUE_MAX]).unwrap();
            if start == 3 {
                s.delete(start, b"A").unwrap();
            }
            s.commit(start).unwrap();
        }
        for start in 5..=7 {
            assert_eq!(s.begin().unwrap().0, start);
        }
        s.put(7, b"B", &[]).unwrap();
        s.delete(7, b"A1").unwrap();
        s.abort(6).unwrap();
        s
    }

    /// Memories that are longer than needed.
    fn memories(store: &Store) -> (Bytes, Bytes) {
        let (mut hall, mut desk) = (hall_bytes(store), desk_bytes(&store.desks));
        hall.extend([0xa5; 7]);
        desk.extend([0xa5; 7]);
        (hall, desk)
    }

    #[test]
    fn lengths() {
        assert_eq!((KEY_ROW, VERSION_ROW, WRITE_ROW, DESK_ROW), (29, 109, 126, 2_025));
        assert_eq!((desk_length(1), desk_length(64)), (2_034, 129_609));
        assert_eq!(hall_length(Sizes::new(1_024, 65_536, 1)), 64 + 29 * 1_024 + 109 * 65_536);
        // What the rules allow.
        assert!((1..=64).all(|desks| desk_length(desks) <= 2_560 * desks as usize));
        for (key_rooms, version_rooms) in [(1, 1), (1_024, 1), (1, 65_536), (1_024, 65_536)] {
            let most = 256 + 64 * key_rooms + 128 * version_rooms;
            assert!(hall_length(Sizes::new(key_rooms, version_rooms, 64)) as u64 <= most);
        }
    }

    #[test]
    fn the_bytes_of_a_small_hall() {
        let mut s = Store::make(Sizes::new(1, 2, 3)).unwrap();
        for (start, value) in [(1, 7), (3, 8)] {
            s.begin().unwrap();
            s.put(start, b"A1", &[value]).unwrap();
            s.commit(start).unwrap();
        }
        let mut expected = vec![0; 64 + 29 + 2 * 109];
        let header = [(0, 1), (4, 2), (8, 4), (16, 1), (20, 2), (32, 3)];
        let key = [(64, 2), (65, b'A'), (66, b'1'), (64 + 25, 1)];
        let newest = [(93, 4), (101, 1), (102, 1), (106, 8)];
        let older = [(202, 2), (210, 1), (211, 1), (215, 7)];
        for (at, byte) in header.into_iter().chain(key).chain(newest).chain(older) {
            expected[at] = byte;
        }
        assert_eq!(hall_bytes(&s), expected);
        s.begin().unwrap();
        s.begin().unwrap();
        s.delete(6, b"B").unwrap();
        let mut expected = vec![0; 9 + 3 * 2_025];
        for (at, byte) in [(0, 3), (8, 3), (9, 5), (2_034, 6), (2_042, 1), (2_043, 1), (2_044, b'B')] {
            expected[at] = byte;
        }
        assert_eq!(desk_bytes(&s.desks), expected);
    }

    #[test]
    fn what_is_written_is_read() {
        let s = some_store();
        let (mut hall, mut desk) = memories(&s);
        assert_eq!(held(&hall, &desk), Held::Both(s.clone()));
        hall.truncate(hall.len() - 7);
        desk.truncate(desk.len() - 7);
        assert_eq!(held(&hall, &desk), Held::Both(s.clone()));
        desk.pop();
        assert!(matches!(held(&hall, &desk), Held::Hall(_)));
        hall.pop();
        assert_eq!(held(&hall, &desk), Held::Nothing);
        assert_eq!(held(&[], &[]), Held::Nothing);
        assert_eq!(held(&vec![0; 1 << 20], &vec![0; 1 << 20]), Held::Nothing);
    }

    /// Whatever byte is changed, the memory is not sound, or it is the bytes of another state.
    #[test]
    fn every_byte_counts() {
        let s = some_store();
        let (mut hall, mut desk) = memories(&s);
        let mut sound = 0;
        for at in 0..hall_length(SIZES) {
            for change in [1, 2, 4, 0x10, 0x80, 0xff] {
                hall[at] ^= change;
                if let Some(other) = hall_in(&hall) {
                    assert!(other != Store { desks: vec![None; 4], ..s.clone() }, "hall byte {at}");
                    sound += 1;
                }
                hall[at] ^= change;
            }
        }
        // The counter's eight bytes, values, keys and numbers that stay in order.
        assert!(sound > 200, "{sound}");
        for at in 0..desk_length(4) {
            for change in [1, 2, 0x80, 0xff] {
                desk[at] ^= change;
                if let Some(other) = desks_in(&desk, &s) {
                    assert!(other != s.desks, "desk byte {at}");
                }
                desk[at] ^= change;
            }
        }
    }

    /// The key of a cell, if the cell is sound and the key below the next one.
    fn key_of(cell: &[u8], below: &[u8]) -> Option<Bytes> {
        let length = cell[0] as usize;
        let key = cell.get(1..1 + length).filter(|key| !key.is_empty())?;
        let shows = key.iter().all(|byte| (33..127).contains(byte));
        let rest_is_zero = cell[1 + length..].iter().all(|byte| *byte == 0);
        (shows && rest_is_zero && key < below).then(|| key.to_vec())
    }

    /// Every value of every byte of a key cell, in both memories.
    #[test]
    fn every_key_cell() {
        let mut s = Store::make(Sizes::new(2, 2, 1)).unwrap();
        s.begin().unwrap();
        s.put(1, b"A1", &[7]).unwrap();
        s.put(1, b"B2", &[8]).unwrap();
        s.commit(1).unwrap();
        s.begin().unwrap();
        s.put(3, b"A1", &[9]).unwrap();
        s.put(3, b"B2", &[]).unwrap();
        let (hall, desk) = memories(&s);
        let (hall_at, desk_at) = (HALL_HEADER, DESK_HEADER + WRITES);
        let mut sound = 0;
        for at in 0..KEY_CELL {
            for byte in 0..=255 {
                let (mut hall, mut desk) = (hall.clone(), desk.clone());
                hall[hall_at + at] = byte;
                desk[desk_at + at] = byte;
                let key = key_of(&hall[hall_at..hall_at + KEY_CELL], b"B2");
                assert_eq!(key, key_of(&desk[desk_at..desk_at + KEY_CELL], b"B2"));
                let expected = key.map(|key| {
                    let mut other = s.clone();
                    let versions = other.keys.remove(&b"A1"[..]).unwrap();
                    other.keys.insert(key.clone(), versions);
                    let writes = &mut other.desks[0].as_mut().unwrap().writes;
                    let content = writes.remove(&b"A1"[..]).unwrap();
                    writes.insert(key, content);
                    other
                });
                sound += u32::from(expected.is_some());
                let found = hall_in(&hall).map(|found| found.keys);
                assert_eq!(found, expected.as_ref().map(|other| other.keys.clone()), "hall byte {at}: {byte}");
                assert_eq!(desks_in(&desk, &s), expected.map(|other| other.desks), "desk byte {at}: {byte}");
            }
        }
        // "A1" as it is by its length and the 22 zeros behind it, "!1" to "A1" and on to "B1", "A!" to "A~".
        assert_eq!(sound, 1 + 22 + (66 - 33 + 1) + 94);
    }

    /// Marks of the last desk that there is and of the next; a number of desks that the hall does not say.
    #[test]
    fn as_many_desks_as_the_hall_says() {
        for desks in [1, 2, 7, 8, 63, 64] {
            let mut s = Store::make(Sizes::new(1, 1, desks)).unwrap();
            for _ in 0..desks {
                s.begin().unwrap();
            }
            let (hall, mut desk) = memories(&s);
            // As if there were room and marks for all.
            desk.resize(desk_length(64), 0);
            assert_eq!(held(&hall, &desk), Held::Both(s.clone()));
            assert!(matches!(held(&hall, &desk[..desk_length(desks) - 1]), Held::Hall(_)));
            for other in (0..=255).filter(|other| *other as u64 != desks) {
                desk[DESK_COUNT] = other;
                assert_eq!(desks_in(&desk, &s), None, "{desks} desks, {other} said");
            }
            desk[DESK_COUNT] = desks as u8;
            for beyond in desks..64 {
                desk[beyond as usize / 8] |= 1 << (beyond % 8);
                assert_eq!(desks_in(&desk, &s), None, "{desks} desks, {beyond} marked");
                desk[beyond as usize / 8] &= !(1 << (beyond % 8));
            }
            assert_eq!(held(&hall, &desk), Held::Both(s));
        }
    }

    #[test]
    fn unsound_states() {
        let s = some_store();
        let unsound = |change: &dyn Fn(&mut Store)| {
            let mut other = s.clone();
            change(&mut other);
            assert!(!other.hall_is_sound());
            assert_eq!(hall_in(&hall_bytes(&other)), None);
        };
        unsound(&|s| s.sizes.desks = 0);
        unsound(&|s| s.sizes.desks = 65);
        unsound(&|s| s.counter = u64::MAX);
        unsound(&|s| s.counter = 3);
        unsound(&|s| s.keys.values_mut().for_each(|chain| chain[0].number = 0));
        unsound(&|s| s.keys.get_mut(&b"A1"[..]).unwrap().reverse());
        unsound(&|s| s.keys.get_mut(&b"A1"[..]).unwrap()[1].number = 2);
        unsound(&|s| s.keys.get_mut(&b"A1"[..]).unwrap().clear());
        unsound(&|s| drop(s.keys.insert(Vec::new(), vec![Version { number: 1, content: None }])));

        let beside = |change: &dyn Fn(&mut Store)| {
            let mut other = s.clone();
            change(&mut other);
            desks_in(&desk_bytes(&other.desks), &other).is_some()
        };
        assert!(beside(&|_| {}));
        assert!(beside(&|s| s.counter = TOP));
        assert!(!beside(&|s| s.sizes.desks = 3));
        assert!(!beside(&|s| s.sizes.desks = 5));
        assert!(!beside(&|s| s.counter = 6));
        assert!(!beside(&|s| s.desks[0].as_mut().unwrap().start = 0));
        assert!(!beside(&|s| s.desks[0].as_mut().unwrap().start = 7));
        assert!(!beside(&|s| s.desks[0].as_mut().unwrap().start = 2));
        assert!(!beside(&|s| drop(s.desks[2].as_mut().unwrap().writes.insert(Vec::new(), None))));
    }
}
