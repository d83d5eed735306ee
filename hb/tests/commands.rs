//! The program itself: its pages, its exit statuses, its input and output.

use std::fs;
use std::io::Write;
use std::path::PathBuf;
use std::process::{Command, Output, Stdio};
use trials::store::{Sizes, Store, Version};

/// A1 committed at 2 and 4 and deleted at 7; a key that would pass for hexadecimal, empty at 4.
fn store() -> Store {
    let mut store = Store::make(Sizes::new(4, 8, 1)).expect("made");
    store.counter = 8;
    let version = |number: u64, content: Option<&[u8]>| Version { number, content: content.map(<[u8]>::to_vec) };
    let versions = vec![version(2, Some(b"loop")), version(4, Some(b"li\"ne")), version(7, None)];
    store.keys.insert(b"A1".to_vec(), versions);
    store.keys.insert(b"0xA1".to_vec(), vec![version(4, Some(b""))]);
    store
}

fn dump() -> Vec<u8> {
    store().dump(u64::MAX).expect("dumped")
}

/// A file of this test, by its name.
fn file(name: &str, bytes: &[u8]) -> PathBuf {
    let path = PathBuf::from(env!("CARGO_TARGET_TMPDIR")).join(name);
    fs::write(&path, bytes).expect("written");
    path
}

fn hb(arguments: &[&str], input: &[u8]) -> Output {
    let mut command = Command::new(env!("CARGO_BIN_EXE_hb"));
    command.args(arguments).stdin(Stdio::piped()).stdout(Stdio::piped()).stderr(Stdio::piped());
    let mut child = command.spawn().expect("started");
    // one that refuses its arguments does not read
    let _ = child.stdin.take().expect("its input").write_all(input);
    child.wait_with_output().expect("ended")
}

/// What it wrote and its exit status.
fn said(arguments: &[&str], input: &[u8]) -> (String, String, i32) {
    let output = hb(arguments, input);
    let text = |bytes: Vec<u8>| String::from_utf8(bytes).expect("text");
    (text(output.stdout), text(output.stderr), output.status.code().expect("a status"))
}

fn page(arguments: &[&str], input: &[u8], status: i32) -> String {
    let (page, err, code) = said(arguments, input);
    assert_eq!((code, err.as_str()), (status, ""), "{arguments:?}");
    page
}

#[test]
fn shown() {
    let table = "standard input: counter 8, 2 keys, 4 versions\n\
                 key         number  value\n\
                 0x30784131       4  \"\"\n\
                 A1               2  \"loop\"\n\
                 \x20                4  \"li\\\"ne\"\n\
                 \x20                7  deleted\n";
    assert_eq!(page(&["show", "-"], &dump(), 0), table);
    let json = "{\"counter\":8,\"keys\":[\n\
        {\"hex\":\"30784131\",\"text\":\"0xA1\",\"versions\":[{\"number\":4,\"hex\":\"\",\"text\":\"\"}]},\n\
        {\"hex\":\"4131\",\"text\":\"A1\",\"versions\":[{\"number\":2,\"hex\":\"6c6f6f70\",\"text\":\"loop\"},\
        {\"number\":4,\"hex\":\"6c69226e65\",\"text\":\"li\\\"ne\"},{\"number\":7,\"deleted\":true}]}\n]}\n";
    assert_eq!(page(&["show", "-", "--json"], &dump(), 0), json);
    assert_eq!(page(&["show", "--json", "-"], &dump(), 0), json);
}

#[test]
fn a_damaged_dump_is_shown_up_to_its_fault() {
    let dump = dump();
    let (page, err, status) = said(&["show", "-"], &dump[..84]);
    assert_eq!(status, 1);
    assert!(
        page.starts_with("standard input: damaged; ") && page.ends_with("A1               2  \"loop\"\n"),
        "{page}"
    );
    assert_eq!(
        err,
        "standard input: refused 13 at 81: in key A1: \
         the dump ends within the value length: 4 bytes, of which 3 are there\n"
    );
    let (page, _, status) = said(&["show", "-", "--json"], &dump[..84]);
    assert_eq!((page.as_str(), status), ("", 1));
}

#[test]
fn checked() {
    let path = file("checked.dump", &dump());
    let path = path.to_str().expect("text");
    assert_eq!(page(&["check", path], &[], 0), format!("{path}: accepted: counter 8, 2 keys, 4 versions\n"));
    assert_eq!(page(&["check", "-", "--rooms", "2", "4"], &dump(), 0).lines().count(), 1);
    for (rooms, verdict) in [
        (["1", "4"], "refused 15 at 16: 2 keys, with 1 key room"),
        (["2", "3"], "refused 15 at 51: in key A1: 3 versions, with 2 version rooms left"),
        (["0", "3"], "refused 2: the rooms are out of range: 1 to 1024 for keys and 1 to 65536 for versions"),
    ] {
        let page = page(&["check", path, "--rooms", rooms[0], rooms[1]], &[], 1);
        assert_eq!(page.lines().next(), Some(format!("{path}: {verdict}").as_str()));
    }
    let mut wrong = dump();
    wrong[63] = 9;
    let verdict =
        "standard input: refused 14 at 63: in key A1: a tag of 9, and it is 0 for a deletion or 1 for a value\n  \
                   bytes from 63: 09 04 00 00 00 6c 6f 6f 70 04 00 00 00 00 00 00 ..\n";
    assert_eq!(page(&["check", "-"], &wrong, 1), verdict);
}

/// The dump with another second key, of two bytes.
fn with_key(key: [u8; 2]) -> Vec<u8> {
    let mut dump = dump();
    dump[49..51].copy_from_slice(&key);
    dump
}

#[test]
fn keys_that_do_not_print() {
    for (key, told) in [
        (*b"A\0", "the key 0x4100 has the byte 0 at its place 1, and its bytes are 33 to 126"),
        (*b" A", "the key 0x2041 has the byte 32 at its place 0, and its bytes are 33 to 126"),
        (*b"\x7f\xff", "the key 0x7fff has the byte 127 at its place 0, and its bytes are 33 to 126"),
        // its bytes come before its order
        (*b"!\x80", "the key 0x2180 has the byte 128 at its place 1, and its bytes are 33 to 126"),
        (*b"!!", "the key !! stands after 0x30784131, and keys ascend"),
    ] {
        let page = page(&["check", "-"], &with_key(key), 1);
        assert_eq!(page.lines().next(), Some(format!("standard input: refused 14 at 49: {told}").as_str()));
    }
    let (_, err, status) = said(&["show", "-"], &with_key(*b"A\0")[..50]);
    assert!(status == 1 && err.starts_with("standard input: refused 13 at 49: the dump ends within the key"), "{err}");
    assert_eq!(page(&["check", "-"], &with_key(*b"~!"), 0).lines().count(), 1);
}

#[test]
fn a_value_that_does_not_print() {
    let mut store = store();
    store.keys.clear();
    store.keys.insert(b"A1".to_vec(), vec![Version { number: 2, content: Some(vec![7, 255]) }]);
    let dump = store.dump(u64::MAX).expect("dumped");
    assert!(page(&["show", "-"], &dump, 0).ends_with("A1        2  0x07ff\n"));
    assert!(page(&["show", "-", "--json"], &dump, 0).ends_with("[{\"number\":2,\"hex\":\"07ff\"}]}\n]}\n"));
}

#[test]
fn compared() {
    let mut later = store();
    later.counter = 10;
    later.keys.entry(b"A1".to_vec()).or_default().remove(0);
    later.keys.insert(b"B7".to_vec(), vec![Version { number: 10, content: Some(b"line".to_vec()) }]);
    let (before, after) = (file("before.dump", &dump()), file("after.dump", &later.dump(u64::MAX).expect("dumped")));
    let (before, after) = (before.to_str().expect("text"), after.to_str().expect("text"));
    let changes = "counter 8 -> 10\nA1  swept       2\nB7  committed  10  \"line\"\n1 committed, 0 deleted, 1 swept\n";
    assert_eq!(page(&["diff", before, after], &[], 1), changes);
    assert_eq!(page(&["diff", "-", after], &dump(), 1), changes);
    assert_eq!(page(&["diff", before, "-"], &dump(), 0), "the same: counter 8, 2 keys, 4 versions\n");
    let (page, err, status) = said(&["diff", before, "-"], &dump()[..9]);
    assert!(page.is_empty() && status == 1 && err.starts_with("standard input: refused 13 at 8: "), "{err}");
}

#[test]
fn drawn() {
    let svg = page(&["picture", "-", "--floor", "3", "--starts", "5,8", "--title", "Zaal <1>"], &dump(), 0);
    for part in ["<svg ", "Zaal &lt;1&gt;", "floor 3", "start 5", "start 8", "0x30784131", "</svg>\n"] {
        assert!(svg.contains(part), "{part}");
    }
    let (page, err, status) = said(&["picture", "-"], b"");
    assert!(page.is_empty() && status == 1 && err.starts_with("standard input: refused 13 at 0: "), "{err}");
}

#[test]
fn help() {
    let help = page(&["--help"], &[], 0);
    assert_eq!(page(&["show", "--help"], &[], 0), help);
    for command in ["hb show", "hb check", "hb diff", "hb picture", "hb journal"] {
        assert!(help.contains(command));
    }
    assert_eq!(page(&["--version"], &[], 0), format!("hb {}\n", env!("CARGO_PKG_VERSION")));
}

#[test]
fn no_such_command() {
    for arguments in [
        &[][..],
        &["shwo", "-"],
        &["show"],
        &["show", "-", "-"],
        &["show", "-", "--jsno"],
        &["check", "-", "--rooms", "4"],
        &["check", "-", "--rooms", "4", "x"],
        &["check", "-", "--rooms", "4", "+8"],
        &["diff", "-"],
        &["diff", "-", "-"],
        &["picture", "-", "--starts", "3,,9"],
        &["picture", "-", "--floor", "18446744073709551616"],
    ] {
        let (page, err, status) = said(arguments, &dump());
        assert!(page.is_empty() && status == 2 && err.lines().count() == 1, "{arguments:?}: {err}");
    }
}

#[test]
fn no_such_file() {
    let (page, err, status) = said(&["show", "no/such/file"], &[]);
    assert!(page.is_empty() && status == 2 && err.starts_with("hb: no/such/file: "), "{err}");
}

#[cfg(target_os = "linux")]
#[test]
fn nowhere_to_write() {
    let full = fs::OpenOptions::new().write(true).open("/dev/full").expect("opened");
    let path = file("full.dump", &dump());
    let mut command = Command::new(env!("CARGO_BIN_EXE_hb"));
    let output = command.arg("show").arg(path).stdout(full).output().expect("ended");
    assert_eq!(output.status.code(), Some(2));
    assert!(output.stderr.starts_with(b"hb: "));
}
