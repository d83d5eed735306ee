//! The header says the same numbers as this crate, which the other tests hold to the proved calls.

use hourbracken::batch::{self, ANSWER_LEN, MAX_RECORDS};
use hourbracken::{
    desk_len, dump_len, hall_len, Refusal, KEY_BYTES, MAX_DESKS, MAX_KEY, MAX_KEY_ROOMS, MAX_VALUE, MAX_VERSION_ROOMS,
    MAX_WRITES, RECORD_LEN,
};

const HEADER: &str = include_str!("../../include/hourbracken.h");

/// The number that follows a name at the start of a line, after any sign and any cast.
fn number(name: &str) -> Option<u64> {
    let line = HEADER.lines().map(|l| l.trim_start().trim_start_matches("#define ")).find(|l| {
        l.strip_prefix(name).is_some_and(|rest| !rest.starts_with(|c: char| c.is_alphanumeric() || c == '_'))
    })?;
    let rest = line[name.len()..].trim_start_matches(|c: char| !c.is_ascii_digit());
    rest.split(|c: char| !c.is_ascii_digit()).next()?.parse().ok()
}

#[test]
fn refusals() {
    for (name, refusal) in [
        ("HB_UNSOUND", Refusal::Unsound),
        ("HB_BAD_SIZES", Refusal::BadSizes),
        ("HB_BAD_KEY", Refusal::BadKey),
        ("HB_LONG_VALUE", Refusal::LongValue),
        ("HB_NOT_OPEN", Refusal::NotOpen),
        ("HB_DESKS_TAKEN", Refusal::DesksTaken),
        ("HB_TOO_MANY_WRITES", Refusal::TooManyWrites),
        ("HB_SPENT", Refusal::Spent),
        ("HB_NO_KEY_ROOM", Refusal::NoKeyRoom),
        ("HB_NO_VERSION_ROOM", Refusal::NoVersionRoom),
        ("HB_SHORT_OUTPUT", Refusal::ShortOutput),
        ("HB_CUT_SHORT", Refusal::CutShort { offset: 0 }),
        ("HB_MALFORMED", Refusal::Malformed { offset: 0 }),
        ("HB_TOO_BIG", Refusal::TooBig { offset: 0 }),
        ("HB_OUT_OF_REACH", Refusal::OutOfReach),
        ("HB_DESKS_OPEN", Refusal::DesksOpen),
        ("HB_MALFORMED_BATCH", Refusal::MalformedBatch { offset: 0 }),
        ("HB_RESERVED_KIND", Refusal::ReservedKind { offset: 0 }),
    ] {
        assert_eq!(number(name), Some(refusal.number()), "{}", name);
    }
    assert_eq!((number("HB_OK"), number("HB_CONFLICT")), (Some(0), Some(9)));
}

#[test]
fn kinds() {
    let names = ["HB_NOTHING_THERE", "HB_OWN_VALUE", "HB_HALL_VALUE"];
    assert_eq!(names.map(number), [Some(0), Some(1), Some(2)]);
}

#[test]
fn sizes() {
    for (name, size) in [
        ("HB_MAX_KEY", MAX_KEY),
        ("HB_MAX_VALUE", MAX_VALUE),
        ("HB_MAX_KEY_ROOMS", MAX_KEY_ROOMS),
        ("HB_MAX_VERSION_ROOMS", MAX_VERSION_ROOMS),
        ("HB_MAX_DESKS", MAX_DESKS),
        ("HB_MAX_WRITES", MAX_WRITES),
        ("HB_MAX_CLASHES", MAX_WRITES),
        ("HB_CLASH_LEN", 8 + 1 + MAX_KEY),
        ("HB_RECORD_LEN", RECORD_LEN),
        ("HB_BATCH_MAX", MAX_RECORDS),
        ("HB_BATCH_RECORD_LEN", batch::RECORD_LEN),
        ("HB_HEAD_LEN", ANSWER_LEN - MAX_WRITES * (8 + 1 + MAX_KEY)),
        ("HB_VALUE_LEN", 4 + MAX_VALUE),
    ] {
        assert_eq!(number(name), Some(size as u64), "{}", name);
    }
    let bytes = ["HB_FIRST_KEY_BYTE", "HB_LAST_KEY_BYTE"].map(number);
    assert_eq!(bytes, [KEY_BYTES.start(), KEY_BYTES.end()].map(|byte| Some(u64::from(*byte))));
}

/// The numbers of a length: what it is of nothing, and what each size adds for one.
fn numbers(length: &str) -> Vec<usize> {
    let line = HEADER.lines().find(|l| l.starts_with(&format!("#define {length}("))).unwrap_or_default();
    line.split(|c: char| !c.is_ascii_digit()).filter_map(|n| n.parse().ok()).collect()
}

#[test]
fn lengths() {
    let of_two = |length: fn(usize, usize) -> usize| {
        vec![length(0, 0), length(1, 0) - length(0, 0), length(0, 1) - length(0, 0)]
    };
    assert_eq!(numbers("HB_HALL_LEN"), of_two(hall_len));
    assert_eq!(numbers("HB_DUMP_LEN"), of_two(dump_len));
    assert_eq!(numbers("HB_DESK_LEN"), [desk_len(0), desk_len(1) - desk_len(0)]);
}
