//! What only memories show: their lengths, damage, and the bytes that a call must leave alone.

use hourbracken::{desk_len, hall_len, Refusal, Sizes, Start, Store, MAX_DESKS};

const SMALL: Sizes = Sizes { key_rooms: 4, version_rooms: 8, desks: 2 };

#[test]
fn memories_exactly_long_enough() {
    for (key_rooms, version_rooms, desks) in [(1, 1, 1), (7, 31, 2), (7, 31, 63), (1_024, 65_536, MAX_DESKS)] {
        let sizes = Sizes { key_rooms, version_rooms, desks };
        let (mut hall, mut desk) = (vec![0; sizes.hall_len()], vec![0; sizes.desk_len()]);
        assert!(Store::make(&mut hall, &mut desk, sizes).is_ok());
        let ends = (hall.len() - 1, desk.len() - 1);
        assert_eq!(Store::make(&mut hall[..ends.0], &mut desk, sizes).err(), Some(Refusal::BadSizes));
        assert_eq!(Store::make(&mut hall, &mut desk[..ends.1], sizes).err(), Some(Refusal::BadSizes));
        assert_eq!(Store::open(&mut hall, &mut desk[..ends.1]).err(), Some(Refusal::Unsound));
    }
}

#[test]
fn sizes_out_of_range() {
    let (mut hall, mut desk) = (vec![0; hall_len(1_025, 65_537)], vec![0; desk_len(MAX_DESKS + 1)]);
    for (key_rooms, version_rooms, desks) in [
        (0, 1, 1),
        (1, 0, 1),
        (1, 1, 0),
        (1_025, 1, 1),
        (1, 65_537, 1),
        (1, 1, MAX_DESKS + 1),
        ((1 << 32) + 1, 1, 1),
        (1, usize::MAX, 1),
        (1, 1, (1 << 32) + 1),
        (1, 1, (1 << 8) + 1),
    ] {
        let sizes = Sizes { key_rooms, version_rooms, desks };
        assert_eq!(Store::make(&mut hall, &mut desk, sizes).err(), Some(Refusal::BadSizes));
        assert_eq!(Store::load(b"", &mut hall, &mut desk, sizes).err(), Some(Refusal::BadSizes));
    }
    assert!(hall.iter().chain(&desk).all(|byte| *byte == 0));
}

#[test]
fn empty_memories() {
    let sizes = Sizes { key_rooms: 1, version_rooms: 1, desks: 1 };
    assert_eq!(Store::open(&mut [], &mut []).err(), Some(Refusal::Unsound));
    assert_eq!(Store::make(&mut [], &mut [], sizes).err(), Some(Refusal::BadSizes));
    assert_eq!(Store::load(&[], &mut [], &mut [], sizes).err(), Some(Refusal::BadSizes));
}

/// A small store in use: one key saved, one transaction open with a write.
fn in_use(hall: &mut [u8], desk: &mut [u8]) -> Result<Start, Refusal> {
    let mut store = Store::make(hall, desk, SMALL)?;
    let saved = store.begin()?.start;
    store.put(saved, b"A1", b"loop")?;
    store.commit(saved)?;
    let open = store.begin()?.start;
    store.put(open, b"A2", b"direct")?;
    Ok(open)
}

/// With one byte changed the memories hold no store: they are refused, and stay as they are.
fn refused_with(hall: &mut [u8], desk: &mut [u8], in_hall: bool, at: usize) {
    let flip = |hall: &mut [u8], desk: &mut [u8]| if in_hall { hall[at] ^= 0x80 } else { desk[at] ^= 0x80 };
    flip(hall, desk);
    let before = (hall.to_vec(), desk.to_vec());
    assert_eq!(
        Store::open(hall, desk).err(),
        Some(Refusal::Unsound),
        "byte {} of {}",
        at,
        if in_hall { "hall" } else { "desk" }
    );
    assert_eq!((&*hall, &*desk), (&before.0[..], &before.1[..]));
    flip(hall, desk);
}

#[test]
fn damage_is_refused() {
    let (mut hall, mut desk) = (vec![0; SMALL.hall_len()], vec![0; SMALL.desk_len()]);
    in_use(&mut hall, &mut desk).expect("in use");
    let versions = hall_len(4, 0);
    // the header but for the counter; the length, the bytes and the padding of a key; free rooms; a tag
    let places = (0..8).chain(16..64).chain([
        64,
        64 + 1,
        64 + 2,
        64 + 3,
        64 + 29,
        versions - 1,
        versions + 8,
        versions + 109,
        SMALL.hall_len() - 1,
    ]);
    for at in places {
        refused_with(&mut hall, &mut desk, true, at);
    }
    // the occupied desks; how many there are; a count of writes; a byte and the padding of a key; a free desk
    for at in [0, 7, 8, 17, 18 + 2, 18 + 3, desk_len(1), SMALL.desk_len() - 1] {
        refused_with(&mut hall, &mut desk, false, at);
    }
    assert!(Store::open(&mut hall, &mut desk).is_ok());
}

#[test]
fn the_memories_agree_on_their_desks() {
    for (in_hall, in_desk) in [(1, 2), (2, 1), (63, 64), (64, 63)] {
        let [of_hall, of_desk] = [in_hall, in_desk].map(|desks| Sizes { desks, ..SMALL });
        let (mut hall, mut desk) = (vec![0; SMALL.hall_len()], vec![0; desk_len(MAX_DESKS)]);
        assert!(Store::make(&mut hall, &mut desk, of_hall).is_ok());
        assert!(Store::make(&mut hall.clone(), &mut desk, of_desk).is_ok());
        assert_eq!(Store::open(&mut hall, &mut desk).err(), Some(Refusal::Unsound));
    }
}

#[test]
fn bytes_past_the_needed_length_stay() {
    let (mut hall, mut desk) = (vec![0xa5; SMALL.hall_len() + 100], vec![0xa5; SMALL.desk_len() + 100]);
    let open = in_use(&mut hall, &mut desk).expect("in use");
    let mut store = Store::open(&mut hall, &mut desk).expect("attached");
    assert!(store.commit(open).is_ok());
    assert!(store.sweep(u64::MAX).is_ok());
    assert!(store.thin(u64::MAX).is_ok());
    let rest = [0xa5; 100];
    assert_eq!((&store.hall()[SMALL.hall_len()..], &store.desk()[SMALL.desk_len()..]), (&rest[..], &rest[..]));
}

#[test]
fn a_refused_load_leaves_both_memories() {
    let (mut hall, mut desk) = (vec![0; SMALL.hall_len()], vec![0; SMALL.desk_len()]);
    in_use(&mut hall, &mut desk).expect("in use");
    let before = (hall.clone(), desk.clone());
    let dump = b"DSEMVCC1\x02\0\0\0\0\0\0\0\x05\0\0\0";
    assert_eq!(Store::load(dump, &mut hall, &mut desk, SMALL).err(), Some(Refusal::TooBig { offset: 16 }));
    assert_eq!(Store::load(&dump[1..], &mut hall, &mut desk, SMALL).err(), Some(Refusal::Malformed { offset: 0 }));
    assert_eq!((hall, desk), before);
}
