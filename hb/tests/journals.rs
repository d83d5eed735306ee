//! `hb journal` beside the replay of the independent store of `trials/`, on twenty thousand damaged journals: the same
//! are whole, cut and refused, at the same offset and with the same records.

use hb::journal::page;
use hb::Exit;
use std::fs;
use std::path::PathBuf;
use std::process::Command;
use trials::rng::SplitMix64;
use trials::store::{No, Sizes, Store};

const JOURNALS: u64 = 20_000;

type Write = (Vec<u8>, Option<Vec<u8>>);

fn of_bytes(bytes: &[u8]) -> Vec<u8> {
    [&(bytes.len() as u32).to_le_bytes(), bytes].concat()
}

fn record(number: u64, writes: &[Write]) -> Vec<u8> {
    let mut body = [&number.to_le_bytes()[..], &(writes.len() as u32).to_le_bytes()].concat();
    for (key, value) in writes {
        body.extend(of_bytes(key));
        body.push(value.is_some().into());
        body.extend(value.iter().flat_map(|value| of_bytes(value)));
    }
    [&b"\x4c\x01"[..], &of_bytes(&body)].concat()
}

/// A commit of up to 17 writes, which is one too many.
fn commit(rng: &mut SplitMix64, number: u64) -> Vec<u8> {
    let mut keys: Vec<Vec<u8>> = (0..1 + rng.below(17)).map(|i| format!("S{i:02}").into_bytes()).collect();
    if rng.chance(1, 10) {
        let (one, other) = (rng.below(keys.len()), rng.below(keys.len()));
        keys.swap(one, other);
    }
    if rng.chance(1, 10) {
        let at = rng.below(keys.len());
        keys[at] = vec![rng.pick(b" !~\x7fS"); rng.pick(&[0, 1, 24, 25])];
    }
    let value = |rng: &mut SplitMix64| rng.chance(3, 4).then(|| vec![7; rng.pick(&[0, 1, 5, 96, 97])]);
    let writes: Vec<Write> = keys.into_iter().map(|key| (key, value(rng))).collect();
    record(number, &writes)
}

fn journal(rng: &mut SplitMix64) -> Vec<u8> {
    let mut number = 4;
    let mut journal = Vec::new();
    for _ in 0..rng.below(4) {
        number = match rng.below(12) {
            0 => number,
            1 => u64::MAX - rng.below(3) as u64,
            _ => number.wrapping_add(1 + rng.below(3) as u64),
        };
        journal.extend(commit(rng, number));
    }
    let at = rng.below(journal.len().max(1));
    match rng.below(6) {
        0 => journal.insert(at, rng.draw() as u8),
        1 => journal.push(rng.draw() as u8),
        2 => journal.truncate(at),
        3 if !journal.is_empty() => journal[at] ^= 1 << rng.below(8),
        _ => {}
    }
    journal
}

#[derive(Clone, Copy, PartialEq, Eq, Debug)]
enum Ends {
    Whole,
    Cut(u64),
    Refused(u64),
}

/// Where the independent store's replay ends, and how many writes it has then.
fn ends(journal: &[u8]) -> (Ends, usize) {
    let mut store = Store::make(Sizes::new(1_024, 65_536, 1)).expect("made");
    let ends = match store.replay(journal) {
        Ok(end) if end == journal.len() as u64 => Ends::Whole,
        Ok(end) => Ends::Cut(end),
        Err(No::At { no: 14, offset }) => Ends::Refused(offset),
        Err(no) => panic!("{no:?}"),
    };
    (ends, store.versions_held() as usize)
}

#[test]
fn told_as_replayed() {
    let mut met = [0; 3];
    for seed in 0..JOURNALS {
        let journal = journal(&mut SplitMix64::new(seed));
        let mut out = Vec::new();
        let exit = page(&journal, 0, "it", &mut out).expect("written");
        let out = String::from_utf8(out).expect("text");
        let (expected, writes) = ends(&journal);
        let (verdict, met) = match expected {
            Ends::Whole => ("it: whole: ".to_owned(), &mut met[0]),
            Ends::Cut(at) => (format!("it: cut at {at}: the journal ends within the "), &mut met[1]),
            Ends::Refused(at) => (format!("it: refused 14 at {at}: "), &mut met[2]),
        };
        *met += 1;
        assert_eq!(exit, if expected == Ends::Whole { Exit::Done } else { Exit::No }, "seed {seed}: {out}");
        let at = out.lines().position(|line| line.starts_with(&verdict));
        assert_eq!(at, Some(1 + writes), "seed {seed}: {expected:?}: {out}");
    }
    assert!(met.iter().all(|met| *met > 2_000), "{met:?}");
}

fn file(name: &str, bytes: &[u8]) -> String {
    let path = PathBuf::from(env!("CARGO_TARGET_TMPDIR")).join(name);
    fs::write(&path, bytes).expect("written");
    path.to_str().expect("text").to_owned()
}

/// What it wrote, and its exit status.
fn hb(arguments: &[&str]) -> (String, i32) {
    let output = Command::new(env!("CARGO_BIN_EXE_hb")).args(arguments).output().expect("ended");
    let text = [output.stdout, output.stderr].concat();
    (String::from_utf8(text).expect("text"), output.status.code().expect("a status"))
}

#[test]
fn listed() {
    let (write, deletion) = (|key: &[u8], value: &[u8]| (key.to_vec(), Some(value.to_vec())), (b"A2".to_vec(), None));
    let second = record(9, &[write(b"0x1", &[7])]);
    let journal = [record(4, &[write(b"A1", b"loop"), deletion]), second].concat();
    let rows = "offset  number  key       value\n\
                \x20    0       4  A1        \"loop\"\n\
                \x20               A2        deleted\n";
    let last = "    40       9  0x307831  0x07\n";
    let path = file("whole.journal", &journal);
    let page = format!("{rows}{last}{path}: whole: 2 records, numbers 4 to 9, 71 bytes\n");
    assert_eq!(hb(&["journal", &path]), (page, 0));
    let path = file("cut.journal", &journal[..69]);
    let narrow = rows.replace("      value", " value").replace("        \"", "   \"").replace("        d", "   d");
    let page = format!(
        "{narrow}{path}: cut at 40: the journal ends within the body: 25 bytes, of which 23 are there\n  \
         bytes from 46: 09 00 00 00 00 00 00 00 01 00 00 00 03 00 00 00 ..\n  \
         before it: 1 record, number 4, 40 bytes\n"
    );
    assert_eq!(hb(&["journal", &path]), (page, 1));
}

#[test]
fn after_a_dump() {
    let journal = file("after.journal", &record(4, &[(b"A1".to_vec(), None)]));
    let mut store = Store::make(Sizes::new(4, 8, 1)).expect("made");
    for (counter, verdict, status) in
        [(3, "whole: 1 record", 0), (4, "refused 14 at 0: the number 4 is not above the counter, which is 4", 1)]
    {
        store.counter = counter;
        let dump = file("after.dump", &store.dump(u64::MAX).expect("dumped"));
        let (page, code) = hb(&["journal", &journal, "--dump", &dump]);
        assert!(code == status && page.contains(verdict), "{page}");
    }
    let (page, code) = hb(&["journal", &journal, "--dump", &journal]);
    assert!(code == 1 && page.contains(": refused 14 at 0: it does not open with DSEMVCC1"), "{page}");
    for wrong in [&["journal"][..], &["journal", "-", "--dump"], &["journal", "-", "--dump", "-"]] {
        assert_eq!(hb(wrong).1, 2, "{wrong:?}");
    }
}
