//! Ten thousand damaged dumps, each read here and loaded into the independent store of `trials/`: the same are
//! accepted, and with the same state; the others are refused with the same number and offset, and the words say what
//! stands at that offset.

use hb::check::verdict;
use hb::show::{json, table};
use hb::Exit;
use hourbracken::dump::{Dump, Fault, Wrong};
use std::collections::BTreeMap;
use trials::call::Opening;
use trials::random::{Gen, Theme};
use trials::rng::SplitMix64;
use trials::store::{Content, No, Sizes, Store, Version};

const DUMPS: u64 = 10_000;

/// One byte changed, left out or put in at random.
fn scratched(rng: &mut SplitMix64, mut dump: Vec<u8>) -> Vec<u8> {
    let at = rng.below(dump.len().max(1));
    match rng.below(3) {
        0 => dump.insert(at, rng.draw() as u8),
        _ if dump.is_empty() => {}
        1 => drop(dump.remove(at)),
        _ => dump[at] ^= 1 << rng.below(8),
    }
    dump
}

/// A dump that is most likely damaged, and the sizes to load it into; it says nothing about desks.
fn case(seed: u64) -> (Vec<u8>, Sizes) {
    let theme = match seed % 50 {
        0 => Theme::Large,
        1..=9 => Theme::LastNumbers,
        _ => Theme::Loads,
    };
    let mut gen = Gen::about(theme, SplitMix64::new(seed));
    let Opening::Load { dump, sizes } = gen.next_fault() else { panic!("a load") };
    let dump = if seed % 3 == 0 { scratched(&mut gen.rng, dump) } else { dump };
    (dump, Sizes { desks: 1, ..sizes })
}

/// The state that a dump says, as the store has it.
fn state(dump: &Dump) -> BTreeMap<Vec<u8>, Vec<Version>> {
    let version =
        |v: hourbracken::dump::Version| Version { number: v.number, content: v.value.map(<[u8]>::to_vec) as Content };
    dump.entries().map(|entry| (entry.key.to_vec(), entry.versions().map(version).collect())).collect()
}

fn hex(bytes: &[u8]) -> String {
    bytes.iter().map(|byte| format!("{byte:02x}")).collect()
}

/// The page for programs has every key, number and value, in their order and no other.
fn shown(store: &Store, dump: &[u8]) {
    let mut page = Vec::new();
    assert_eq!(json(dump, &mut page).expect("written"), None);
    let page = String::from_utf8(page).expect("text");
    let told: Vec<&str> = page.split(['{', ',', '}']).filter(|word| !word.starts_with("\"text\"")).collect();
    let told = told.into_iter().filter(|word| ["\"hex", "\"num", "\"del"].iter().any(|field| word.starts_with(field)));
    let mut expected = Vec::new();
    for (key, versions) in &store.keys {
        expected.push(format!("\"hex\":\"{}\"", hex(key)));
        for version in versions {
            expected.push(format!("\"number\":{}", version.number));
            expected.push(match &version.content {
                Some(value) => format!("\"hex\":\"{}\"", hex(value)),
                None => "\"deleted\":true".to_owned(),
            });
        }
    }
    assert!(told.eq(expected.iter().map(String::as_str)), "{page}");

    let mut rows = Vec::new();
    assert_eq!(table(dump, "it", &mut rows).expect("written"), None);
    let rows = String::from_utf8(rows).expect("text");
    assert_eq!(rows.lines().count() as u64, 2 + store.versions_held());
}

fn number(bytes: &[u8]) -> u64 {
    bytes.iter().rev().fold(0, |high, byte| high << 8 | u64::from(*byte))
}

/// Whether the bytes at the fault's place are the ones that its words speak of.
fn is_there(fault: &Fault, dump: &[u8]) -> bool {
    let rest = &dump[fault.offset..];
    let says = |width: usize, told: u64| rest.len() >= width && number(&rest[..width]) == told;
    match fault.wrong {
        Wrong::Sizes => fault.offset == 0,
        Wrong::Cut { needed, there, .. } => there < needed && there == rest.len(),
        Wrong::Opening => fault.offset == 0 && rest.len() >= 8 && !rest.starts_with(b"DSEMVCC1"),
        Wrong::NextNumber => fault.offset == 8 && says(8, 0),
        Wrong::KeyRooms { count, rooms } => fault.offset == 16 && says(4, count) && count > rooms as u64,
        Wrong::KeyLength(length) => says(4, length) && !(1..=24).contains(&length),
        Wrong::KeyByte { key, at } => rest.starts_with(&key) && !(33..=126).contains(&key[at]),
        Wrong::KeyOrder { key, last } => rest.starts_with(&key) && *key <= *last,
        Wrong::NoVersions => says(4, 0),
        Wrong::VersionRooms { count, left } => says(4, count) && count > left as u64,
        Wrong::NumberOrder { number, last } => says(8, number) && number <= last,
        Wrong::NumberAhead { number, next } => says(8, number) && number >= next && self::number(&dump[8..16]) == next,
        Wrong::Tag(tag) => rest[0] == tag && tag > 1,
        Wrong::ValueLength(length) => says(4, length) && length > 96,
        Wrong::After(length) => length == rest.len() && length > 0,
        _ => false,
    }
}

/// A name for what is wrong, without its figures.
fn kind(fault: &Fault) -> String {
    match fault.wrong {
        Wrong::Cut { field, .. } => format!("cut within the {field}"),
        Wrong::NumberOrder { number: 0, .. } => "number 0".to_owned(),
        wrong => format!("{wrong:?}").split([' ', '(']).next().unwrap_or_default().to_owned(),
    }
}

#[test]
fn damaged_dumps_are_told_as_a_load_tells_them() {
    let (mut met, mut accepted) = (BTreeMap::<String, u64>::new(), 0);
    for seed in 0..DUMPS {
        let (dump, sizes) = case(seed);
        let (key_rooms, version_rooms) = (sizes.key_rooms as usize, sizes.version_rooms as usize);
        let read = Dump::read_for(&dump, key_rooms, version_rooms);
        let mut page = Vec::new();
        let exit = verdict(&dump, key_rooms, version_rooms, "it", &mut page).expect("written");
        let page = String::from_utf8(page).expect("text");
        let loaded = Store::load(&dump, sizes);
        match (read, loaded) {
            (Ok(read), Ok(store)) => {
                assert_eq!((read.counter(), state(&read)), (store.counter, store.keys.clone()), "seed {seed}");
                assert_eq!((read.keys() as u64, read.versions() as u64), (store.counts().0, store.counts().1));
                assert!(page.starts_with("it: accepted: ") && exit == Exit::Done, "{page}");
                shown(&store, &dump);
                accepted += 1;
            }
            (Err(fault), Err(no)) => {
                let (start, expected) = match no {
                    No::At { no, offset } => (format!("it: refused {no} at {offset}: "), (no, offset)),
                    No::Plain(no) => (format!("it: refused {no}: "), (no, 0)),
                    No::Conflict(_) => panic!("no commit was asked"),
                };
                assert_eq!((fault.refusal().number() as u8, fault.offset as u64), expected, "seed {seed}");
                assert!(is_there(&fault, &dump), "seed {seed}: {fault:?}");
                assert!(page.starts_with(&format!("{start}{fault}\n")) && exit == Exit::No, "{page}");
                *met.entry(kind(&fault)).or_default() += 1;
            }
            (read, loaded) => panic!("seed {seed}: {read:?}, {loaded:?}"),
        }
    }
    println!("{accepted} accepted; {met:?}");
    assert!(accepted > DUMPS / 10);
    // ten fields to be cut in, and fifteen other faults, those of the rooms among them
    assert_eq!(met.len(), 10 + 15, "{met:?}");
    assert!(met.values().all(|times| *times >= 5), "{met:?}");
}

#[test]
fn every_cut_of_a_dump_is_told() {
    let hall = Gen::about(Theme::LastNumbers, SplitMix64::new(3)).next_load();
    let Opening::Load { dump, sizes } = hall else { panic!("a load") };
    let read = |end: usize| Dump::read_for(&dump[..end], sizes.key_rooms as usize, sizes.version_rooms as usize);
    assert!(read(dump.len()).is_ok_and(|dump| dump.versions() > 2));
    for end in 0..dump.len() {
        let Err(No::At { no, offset }) = Store::load(&dump[..end], sizes) else { panic!("cut") };
        let fault = read(end).expect_err("cut");
        assert_eq!((fault.refusal().number() as u8, fault.offset as u64), (no, offset));
    }
}
