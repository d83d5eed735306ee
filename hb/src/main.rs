//! `hb` looks into a dump or a journal of the seat store: on any machine, without the store and without changing
//! anything.
//!
//! - `hb show FILE` lists every key with its versions; `--json` writes the same for programs. Of a damaged dump it
//!   lists what stands before the fault.
//! - `hb check FILE` says whether a load would accept the dump. If not, it says the refusal's number, the offset and in
//!   words what is wrong there. `--rooms KEYS VERSIONS` are those of the store to load into, else those of the largest.
//! - `hb diff A B` says what the store did from dump A to dump B, key by key: committed, deleted, swept.
//! - `hb picture FILE > hall.svg` draws it: keys down, numbers across. `--floor N` draws the floor, `--starts 3,9` the
//!   open transactions, `--title TEXT` stands above.
//! - `hb journal FILE` lists every record of a journal with its writes. Where the last is cut off, or a replay would be
//!   refused, it says the offset that a replay answers and in words what is wrong there. With `--dump DUMP` numbers
//!   have to be above that dump's counter. Whether there is room, it does not know.
//!
//! A file `-` is standard input. The exit status is 0; 1 if the dump is refused, the two differ, or the journal is cut
//! or refused; 2 if the command is not one of these, or something could not be read or written. Bytes that do not print
//! are shown in hexadecimal.
//!
//! The JSON is one object, `{"counter":8,"keys":[..]}`. A key is `{"hex":"4131","text":"A1","versions":[..]}`, a version
//! `{"number":2,"hex":"6c6f6f70","text":"loop"}` or `{"number":7,"deleted":true}`. `text` is left out where a byte does
//! not print. Numbers go up to 2^64 - 2, which some readers of JSON round.

use hb::{run, Exit};
use std::io::{stderr, stdin, stdout};
use std::process::ExitCode;

fn main() -> ExitCode {
    let arguments: Vec<_> = std::env::args_os().skip(1).collect();
    match run(&arguments, &mut stdin().lock(), &mut stdout().lock(), &mut stderr().lock()) {
        Exit::Done => ExitCode::SUCCESS,
        Exit::No => ExitCode::from(1),
        Exit::Failed => ExitCode::from(2),
    }
}
