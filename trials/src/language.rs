//! The console's language: a line is read as what it asks, an answer is written as text.

use crate::batch::Space;
use crate::call::{Call, Opening, Reply};
use crate::store::{Committed, Kind, No, Sizes, KEY_BYTES};

pub fn hex(bytes: &[u8]) -> String {
    if bytes.is_empty() {
        return "-".to_string();
    }
    bytes.iter().map(|b| format!("{b:02x}")).collect()
}

fn bytes(word: &str) -> Option<Vec<u8>> {
    if word == "-" {
        return Some(Vec::new());
    }
    if word.is_empty() || word.len() % 2 == 1 {
        return None;
    }
    let digit = |c: u8| match c {
        b'0'..=b'9' => Some(c - b'0'),
        b'a'..=b'f' => Some(c - b'a' + 10),
        b'A'..=b'F' => Some(c - b'A' + 10),
        _ => None,
    };
    word.as_bytes().chunks(2).map(|pair| Some(digit(pair[0])? << 4 | digit(pair[1])?)).collect()
}

/// Hex, or `'` and the key's own letters, each a byte.
pub fn key(word: &str) -> Option<Vec<u8>> {
    match word.strip_prefix('\'') {
        Some(letters) => letters.chars().map(|letter| u8::try_from(letter).ok()).collect(),
        None => bytes(word),
    }
}

/// The key by its letters, where all of it shows.
pub fn letters(key: &[u8]) -> String {
    match key.iter().all(|byte| KEY_BYTES.contains(byte)) {
        true => format!("'{}", String::from_utf8_lossy(key)),
        false => hex(key),
    }
}

fn number(word: &str) -> Option<u64> {
    if !word.bytes().all(|c| c.is_ascii_digit()) {
        return None;
    }
    word.parse().ok()
}

fn sizes([key_rooms, version_rooms, desks]: [&str; 3]) -> Option<Sizes> {
    Some(Sizes::new(number(key_rooms)?, number(version_rooms)?, number(desks)?))
}

pub fn sizes_text(sizes: Sizes) -> String {
    format!("{} {} {}", sizes.key_rooms, sizes.version_rooms, sizes.desks)
}

/// A line of any bytes: each is a letter, whichever it is.
pub fn text(line: &[u8]) -> String {
    line.iter().map(|&byte| char::from(byte)).collect()
}

/// A line's words, parted by spaces and tabs; a carriage return may stand at its end.
pub fn words(line: &str) -> Vec<&str> {
    let line = line.strip_suffix('\r').unwrap_or(line);
    line.split([' ', '\t']).filter(|word| !word.is_empty()).collect()
}

/// No call, and no answer: nothing but blanks, or a remark.
pub fn is_silent(line: &str) -> bool {
    words(line).first().is_none_or(|word| word.starts_with('#'))
}

/// What `help` is answered.
pub const HELP: &str = "\
# make KEYROOMS VERSIONROOMS DESKS; load DUMP KEYROOMS VERSIONROOMS DESKS
# newest KEY; readat NUMBER KEY; counts; desks
# sweep [LIMIT]; sweep2 [LIMIT]; dump [OUTLEN]; replay JOURNAL
# begin; commit START; commitj START OUTLEN; abort START
# read START KEY; put START KEY VALUE; delete START KEY; batch RECORDS full|short
# bytes START KEY; sum hall; peek hall FROM COUNT; poke hall AT BYTE; help; quit
# KEY, VALUE, DUMP, JOURNAL, RECORDS: hex, - for no bytes; a KEY also as ' and its letters
# all else decimal; desk in place of hall
ok";

/// One of the two lent memories.
#[derive(Clone, Copy, PartialEq, Eq, Debug)]
pub enum Which {
    Hall,
    Desk,
}

impl Which {
    pub fn name(self) -> &'static str {
        match self {
            Which::Hall => "hall",
            Which::Desk => "desk",
        }
    }
}

pub enum Asked {
    Open(Opening),
    Call(Call),
    Sum(Which),
    Peek { which: Which, from: u64, count: u64 },
    Poke { which: Which, at: u64, byte: u8 },
    Desks,
    Help,
    Quit,
}

/// What a line asks; nothing if it is no call.
pub fn parse(line: &str) -> Option<Asked> {
    let mut words = words(line);
    let verb = words.first()?.to_ascii_lowercase();
    words[0] = &verb;
    let memory =
        |word: &str| [Which::Hall, Which::Desk].into_iter().find(|which| which.name().eq_ignore_ascii_case(word));
    let space =
        |word: &str| [Space::Full, Space::Short].into_iter().find(|space| space.name().eq_ignore_ascii_case(word));
    let asked = match words[..] {
        ["make", k, v, d] => Asked::Open(Opening::Make { sizes: sizes([k, v, d])? }),
        ["load", dump, k, v, d] => Asked::Open(Opening::Load { dump: bytes(dump)?, sizes: sizes([k, v, d])? }),
        ["begin"] => Asked::Call(Call::Begin),
        ["read", s, k] => Asked::Call(Call::Read { start: number(s)?, key: key(k)? }),
        ["bytes", s, k] => Asked::Call(Call::Bytes { start: number(s)?, key: key(k)? }),
        ["newest", k] => Asked::Call(Call::Newest { key: key(k)? }),
        ["readat", n, k] => Asked::Call(Call::AsOf { number: number(n)?, key: key(k)? }),
        ["put", s, k, v] => Asked::Call(Call::Put { start: number(s)?, key: key(k)?, value: bytes(v)? }),
        ["delete", s, k] => Asked::Call(Call::Delete { start: number(s)?, key: key(k)? }),
        ["commit", s] => Asked::Call(Call::Commit { start: number(s)? }),
        ["commitj", s, r] => Asked::Call(Call::CommitTo { start: number(s)?, room: number(r)? }),
        ["abort", s] => Asked::Call(Call::Abort { start: number(s)? }),
        ["sweep"] => Asked::Call(Call::Sweep { limit: u64::MAX }),
        ["sweep", l] => Asked::Call(Call::Sweep { limit: number(l)? }),
        ["sweep2"] => Asked::Call(Call::Thin { limit: u64::MAX }),
        ["sweep2", l] => Asked::Call(Call::Thin { limit: number(l)? }),
        ["counts"] => Asked::Call(Call::Counts),
        ["dump"] => Asked::Call(Call::Dump { room: u64::MAX }),
        ["dump", r] => Asked::Call(Call::Dump { room: number(r)? }),
        ["replay", j] => Asked::Call(Call::Replay { journal: bytes(j)? }),
        ["batch", b, s] => Asked::Call(Call::Batch { batch: bytes(b)?, space: space(s)? }),
        ["sum", m] => Asked::Sum(memory(m)?),
        ["peek", m, f, c] => Asked::Peek { which: memory(m)?, from: number(f)?, count: number(c)? },
        ["poke", m, a, b] => Asked::Poke { which: memory(m)?, at: number(a)?, byte: number(b)?.try_into().ok()? },
        ["desks"] => Asked::Desks,
        ["help"] => Asked::Help,
        ["quit"] => Asked::Quit,
        _ => return None,
    };
    Some(asked)
}

/// A call as a script has it, with one space between words and in lower case but for a key's own letters.
/// Any other line is left as it is.
pub fn plain(line: &str) -> String {
    let lower = |word: &str| if word.starts_with('\'') { word.to_string() } else { word.to_ascii_lowercase() };
    match parse(line) {
        Some(_) if !line.ends_with("\r\r") => words(line).into_iter().map(lower).collect::<Vec<_>>().join(" "),
        _ => line.to_string(),
    }
}

pub fn refusal_text(no: &No) -> String {
    match no {
        No::Plain(number) => format!("no {number}"),
        No::Conflict(keys) => {
            keys.iter().fold("no 9".to_string(), |text, (key, number)| format!("{text} {} {number}", hex(key)))
        }
        No::At { no, offset } => format!("no {no} {offset}"),
    }
}

pub fn reply_text(reply: &Reply) -> String {
    match reply {
        Reply::No(no) => refusal_text(no),
        Reply::Done => "ok".to_string(),
        Reply::Begun { start, desk } => format!("begun {start} {desk}"),
        Reply::Found { kind: Kind::Own, bytes } => format!("own {}", hex(bytes)),
        Reply::Found { kind: Kind::Hall, bytes } => format!("hall {}", hex(bytes)),
        Reply::Found { kind: Kind::Nothing, .. } => "none".to_string(),
        Reply::Bytes(bytes) => format!("bytes {}", hex(bytes)),
        Reply::Committed(number) => format!("committed {number}"),
        Reply::Closed => "closed".to_string(),
        Reply::Recorded { committed: Committed::Number(number), record } => {
            format!("committed {number} {}", hex(record))
        }
        Reply::Recorded { committed: Committed::Closed, record } => format!("closed {}", hex(record)),
        Reply::Swept { cutoff, dropped } => format!("swept {cutoff} {dropped}"),
        Reply::Thinned { dropped } => format!("swept2 {dropped}"),
        Reply::Counted { keys, versions, desks } => format!("counts {keys} {versions} {desks}"),
        Reply::Dumped(bytes) => format!("dump {}", hex(bytes)),
        Reply::Replayed(end) => format!("replayed {end}"),
        Reply::Batched(replies) => replies
            .iter()
            .fold(format!("batch {}", replies.len()), |text, reply| format!("{text} ; {}", reply_text(reply))),
    }
}

pub fn opening_text(opening: &Opening) -> String {
    match opening {
        Opening::Make { sizes } => format!("make {}", sizes_text(*sizes)),
        Opening::Load { dump, sizes } => format!("load {} {}", hex(dump), sizes_text(*sizes)),
    }
}

pub fn call_text(call: &Call) -> String {
    call_by(hex, call)
}

/// The call, with its key written by `word`.
pub fn call_by(word: fn(&[u8]) -> String, call: &Call) -> String {
    match call {
        Call::Begin => "begin".to_string(),
        Call::Read { start, key } => format!("read {start} {}", word(key)),
        Call::Bytes { start, key } => format!("bytes {start} {}", word(key)),
        Call::Newest { key } => format!("newest {}", word(key)),
        Call::AsOf { number, key } => format!("readat {number} {}", word(key)),
        Call::Put { start, key, value } => format!("put {start} {} {}", word(key), hex(value)),
        Call::Delete { start, key } => format!("delete {start} {}", word(key)),
        Call::Commit { start } => format!("commit {start}"),
        Call::CommitTo { start, room } => format!("commitj {start} {room}"),
        Call::Abort { start } => format!("abort {start}"),
        Call::Sweep { limit } => format!("sweep {limit}"),
        Call::Thin { limit } => format!("sweep2 {limit}"),
        Call::Counts => "counts".to_string(),
        Call::Dump { room } => format!("dump {room}"),
        Call::Replay { journal } => format!("replay {}", hex(journal)),
        Call::Batch { batch, space } => format!("batch {} {}", hex(batch), space.name()),
    }
}
