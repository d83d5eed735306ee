//! Inputs that are no ordinary ones, each with what it is.

use crate::console::LINE_MOST;
use crate::journal::Commit;
use crate::language::hex;
use crate::layout::{DESK_HEADER, HALL_HEADER, KEY_CELL, WRITES};
use crate::store::{Bytes, Content};

/// The buffer that the workload and the whiteboard read their input into: what fills it may have been cut.
pub const BUFFER: usize = 65_536;

pub type Named = (&'static str, String);

fn seven(lines: [&str; 7]) -> String {
    lines.map(|line| format!("{line}\n")).concat()
}

/// A text of so many bytes that is a workload, but maybe for its length.
fn seven_long(length: usize) -> String {
    let rest = seven(["", "500", "16", "4", "4", "16", "500"]);
    "0".repeat(length - rest.len()) + &rest
}

/// Workloads at an edge.
pub fn workloads() -> Vec<Named> {
    vec![
        ("an ordinary workload", seven(["42", "500", "16", "4", "4", "16", "500"])),
        ("no newline at the end", "42\n500\n16\n4\n4\n16\n500".to_string()),
        ("leading zeros", seven(["0042", "500", "16", "4", "04", "16", "0500"])),
        ("the largest seed, no operation", seven(["18446744073709551615", "0", "1", "1", "0", "1", "1"])),
        ("the most keys and writers", seven(["7", "300", "1024", "64", "0", "64", "500"])),
        ("the most readers", seven(["7", "300", "1", "0", "64", "1", "1"])),
        // 64 + 29 * 2 + 109 * 600 is 65,522.
        ("as many rooms as fit", seven(["7", "300", "8", "2", "1", "2", "600"])),
        ("one worker, one desk", seven(["7", "300", "8", "1", "0", "16", "500"])),
        ("as long as a text may be", seven_long(BUFFER - 1)),
    ]
}

/// What is no workload, of each kind.
pub fn other_inputs() -> Vec<Named> {
    vec![
        ("nothing", String::new()),
        ("an empty line", "\n".to_string()),
        ("no digits", seven(["a", "b", "c", "d", "e", "f", "g"])),
        ("six lines", "42\n500\n16\n4\n4\n16\n".to_string()),
        ("eight lines", seven(["42", "500", "16", "4", "4", "16", "500\n1"])),
        ("an empty line before", seven(["\n42", "500", "16", "4", "4", "16", "500"])),
        ("an empty line after", seven(["42", "500", "16", "4", "4", "16", "500\n"])),
        ("an empty line for a number", seven(["42", "500", "", "4", "4", "16", "500"])),
        ("a plus sign", seven(["+42", "500", "16", "4", "4", "16", "500"])),
        ("a minus sign", seven(["42", "-0", "16", "4", "4", "16", "500"])),
        ("a space", seven(["42", "500", "16", "4", "4", "16", "500 "])),
        ("a carriage return", seven(["42\r", "500", "16", "4", "4", "16", "500"])),
        ("a byte of zero", seven(["42", "500", "16", "4", "4", "16", "500\0"])),
        ("a seed of 2^64", seven(["18446744073709551616", "500", "16", "4", "4", "16", "500"])),
        ("2^64 + 500 operations", seven(["42", "18446744073709552116", "16", "4", "4", "16", "500"])),
        ("2^64 + 500 version rooms", seven(["42", "500", "16", "4", "4", "16", "18446744073709552116"])),
        ("no keys", seven(["42", "500", "0", "4", "4", "16", "500"])),
        ("1,025 keys", seven(["42", "500", "1025", "4", "4", "16", "500"])),
        ("no workers", seven(["42", "500", "16", "0", "0", "16", "500"])),
        ("65 writers", seven(["42", "500", "16", "65", "0", "16", "500"])),
        ("65 workers", seven(["42", "500", "16", "64", "1", "16", "500"])),
        ("workers whose sum wraps to 1", seven(["42", "500", "16", "18446744073709551615", "2", "16", "500"])),
        ("no key rooms", seven(["42", "500", "16", "4", "4", "0", "1000"])),
        ("1,025 key rooms", seven(["42", "500", "16", "4", "4", "1025", "1"])),
        ("2^32 + 1 key rooms", seven(["42", "500", "16", "4", "4", "4294967297", "1"])),
        ("no version rooms", seven(["42", "500", "16", "4", "4", "16", "0"])),
        ("65,537 version rooms", seven(["42", "500", "16", "4", "4", "1", "65537"])),
        ("the most version rooms do not fit", seven(["42", "500", "16", "4", "4", "1", "65536"])),
        ("rooms that do not fit", seven(["42", "500", "16", "4", "4", "1024", "1000"])),
        // 64 + 29 * 3 + 109 * 600 is 65,551.
        ("one key room more than fits", seven(["42", "500", "16", "4", "4", "3", "600"])),
        ("a text that fills the buffer", seven_long(BUFFER)),
        ("a text that is longer", seven_long(BUFFER + 1)),
    ]
}

/// Scripts of the whiteboard whose demands are not met: the stored script has none.
pub fn whiteboards() -> Vec<Named> {
    vec![
        ("nothing", String::new()),
        ("demands that are not met", NOT_MET.to_string()),
        ("no right answer", "make 0 1 1 = ok\nbegin = begun 1 0\n".to_string()),
        ("as long as a script may be", long_remark(BUFFER - 1)),
        ("a script that fills the buffer", long_remark(BUFFER)),
    ]
}

/// False demands on purpose: another number, another length, a part of the answer, more than the answer, none.
pub const NOT_MET: &str = "\
#   more
# one

make 1 1 1 = ok
begin = begun 1 1
commit 1
abort 1 = 
#
# two
counts=counts 0 0 0
 = ok
counts = counts 0 0
counts = counts 0 0 00
counts = counts 0 0 0
newest 41 = None
abort 1 = no 5";

fn long_remark(length: usize) -> String {
    format!("# {}", "x".repeat(length - 2))
}

/// Scripts of the console with lines about as long as it takes, or longer.
pub fn consoles() -> Vec<Named> {
    let told = "\nsum hall\nsum desk\ncounts\nbegin\n";
    let after = |line: String| format!("make 1 1 2\nbegin\n{line}{told}");
    // A put whose value is too large.
    let put = format!("put 10 41 {}", hex(&vec![b'v'; (LINE_MOST - 10) / 2]));
    let letters = |length: usize| "x".repeat(length);
    vec![
        ("as long as a line may be", after(put.clone())),
        ("as long as a line may be, at the end", format!("make 1 1 1\n{put}")),
        ("one byte too long", after(put.clone() + "0")),
        ("one byte too long, at the end", format!("make 1 1 1\n{put}0")),
        ("a call at its front", after("begin ".to_string() + &letters(LINE_MOST))),
        ("a call behind what the buffer holds", after(letters(LINE_MOST + 1) + "begin")),
        ("three times too long", after(letters(3 * LINE_MOST + 5))),
        ("two lines that are too long", after(letters(LINE_MOST + 1) + "\n" + &letters(LINE_MOST + 2))),
        ("a remark that is too long", after("# ".to_string() + &letters(LINE_MOST))),
        ("no ASCII", after("\u{e9}".repeat(LINE_MOST))),
        ("every value of every byte of a key cell", key_cells()),
        ("as long as a line may be, with blanks", after(format!(" \t{}begin\r", " ".repeat(LINE_MOST - 8)))),
        ("one byte too long for its carriage return", after(put.clone() + "\r")),
        ("blanks that are too long", after(" ".repeat(LINE_MOST + 1))),
        ("a remark behind too many blanks", after(" ".repeat(LINE_MOST + 1) + "#")),
        ("an indented remark that is too long", after(" \t# ".to_string() + &letters(LINE_MOST))),
        ("a quit, and a line that is too long", after("quit\n".to_string() + &letters(LINE_MOST + 1))),
        ("a quit without a newline", "make 1 1 1\n Quit".to_string()),
        ("a journal cut after every byte", cut_journals()),
        ("every value of every byte of a journal", changed_journals()),
        (
            "a journal as long as a line may be",
            after(format!("abort 1\nreplay {}", hex(&vec![0x4c; (LINE_MOST - 7) / 2]))),
        ),
        ("many records in one journal", many_records()),
    ]
}

fn record(number: u64, writes: &[(&str, Content)]) -> Bytes {
    Commit { number, writes: writes.iter().map(|(key, content)| (key.as_bytes().to_vec(), content.clone())).collect() }
        .record()
}

/// Three records, each cut into a hall of its own.
fn cut_journals() -> String {
    let journal = [
        record(2, &[("A1", Some(vec![7]))]),
        record(5, &[("A1", None), ("A2", Some(vec![8, 9])), ("B", Some(vec![]))]),
        record(6, &[("A2", None)]),
    ]
    .concat();
    let one = |end| format!("make 3 5 1\nreplay {}\ncounts\ndump 200\nsum hall\nbegin\n", hex(&journal[..end]));
    (0..=journal.len()).map(one).collect::<String>() + "sum desk\n"
}

/// Two records; the first has room, and the second has if the first is right.
fn changed_journals() -> String {
    let journal = [record(2, &[("A1", Some(vec![7]))]), record(259, &[("A1", None), ("B", Some(vec![]))])].concat();
    let mut script = String::new();
    for at in 0..journal.len() {
        for byte in 0..=255 {
            let mut changed = journal.clone();
            changed[at] = byte;
            script += &format!("make 2 3 1\nreplay {}\ndump 100\n", hex(&changed));
        }
        script += "sum hall\n";
    }
    script
}

/// A thousand versions of one key, and one for which there is no room.
fn many_records() -> String {
    let records: Vec<Bytes> = (2..=1_002).map(|number| record(number, &[("A1", None)])).collect();
    format!("make 1 1000 1\nreplay {}\ncounts\nreadat 500 'A1\nsum hall\nbegin\n", hex(&records.concat()))
}

/// Two keys in the hall and at a desk; the lower one's cell is changed byte by byte, and back.
fn key_cells() -> String {
    let mut script =
        "make 2 2 1\nbegin\nput 1 'A1 07\nput 1 'B2 08\ncommit 1\nbegin\nput 3 'A1 09\nput 3 'B2 -\n".to_string();
    let cell = [&[2, b'A', b'1'][..], &[0; KEY_CELL - 3]].concat();
    for (memory, from) in [("hall", HALL_HEADER), ("desk", DESK_HEADER + WRITES)] {
        for (at, was) in (from..).zip(&cell) {
            for byte in 0..=255 {
                script += &format!("poke {memory} {at} {byte}\ncounts\n");
            }
            script += &format!("poke {memory} {at} {was}\n");
        }
    }
    script + "counts\nread 3 'A1\nsum hall\nsum desk\n"
}
