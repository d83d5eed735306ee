//! The sizes that the C header and the Rust crate declare are those of the layout, which the console's sums hold the
//! proved store to.

use trials::layout::{DESK_HEADER, DESK_ROW, HALL_HEADER, KEY_ROW, VERSION_ROW};
use trials::store::{DESKS_MAX, KEY_MAX, KEY_ROOMS_MAX, VALUE_MAX, VERSION_ROOMS_MAX, WRITES_MAX};

fn text(path: &str) -> String {
    let path = format!("{}/../{path}", env!("CARGO_MANIFEST_DIR"));
    std::fs::read_to_string(&path).unwrap_or_else(|why| panic!("{path}: {why}"))
}

/// The numbers in a line, without the marks between their digits.
fn numbers(line: &str) -> Vec<usize> {
    let digits = line.replace('_', "");
    digits
        .split(|c: char| !c.is_ascii_digit())
        .filter(|word| !word.is_empty())
        .map(|word| word.parse().unwrap())
        .collect()
}

/// The numbers behind the one line that says `name`.
fn declared(text: &str, name: &str) -> Vec<usize> {
    let lines: Vec<&str> = text.lines().filter_map(|line| line.split_once(name)).map(|(_, rest)| rest).collect();
    assert_eq!(lines.len(), 1, "{name}");
    numbers(lines[0].split("/*").next().unwrap())
}

/// A size, as the header and as the crate declare it.
const SIZES: [(&str, &str, usize); 6] = [
    ("define HB_MAX_KEY ", "pub const MAX_KEY: usize =", KEY_MAX),
    ("define HB_MAX_VALUE ", "pub const MAX_VALUE: usize =", VALUE_MAX),
    ("define HB_MAX_KEY_ROOMS ", "pub const MAX_KEY_ROOMS: usize =", KEY_ROOMS_MAX as usize),
    ("define HB_MAX_VERSION_ROOMS ", "pub const MAX_VERSION_ROOMS: usize =", VERSION_ROOMS_MAX as usize),
    ("define HB_MAX_DESKS ", "pub const MAX_DESKS: usize =", DESKS_MAX as usize),
    ("define HB_MAX_WRITES ", "pub const MAX_WRITES: usize =", WRITES_MAX),
];

#[test]
fn sizes() {
    let (header, source) = (text("include/hourbracken.h"), text("rust/src/lib.rs"));
    for (in_header, in_crate, value) in SIZES {
        assert_eq!(declared(&header, in_header), [value], "{in_header}");
        assert_eq!(declared(&source, in_crate), [value], "{in_crate}");
    }
}

/// The numbers of a length, in the header and in the crate's sum.
fn length(in_header: &str, in_crate: &str) -> [Vec<usize>; 2] {
    let (header, source) = (text("include/hourbracken.h"), text("rust/src/lib.rs"));
    let sum = source.lines().skip_while(|line| !line.contains(in_crate)).nth(1).unwrap();
    [declared(&header, in_header), numbers(sum)]
}

#[test]
fn what_the_memories_need() {
    let hall = length("define HB_HALL_LEN(key_rooms, version_rooms) ", "pub const fn hall_len");
    assert_eq!(hall, [[HALL_HEADER, KEY_ROW, VERSION_ROW]; 2]);
    assert_eq!(length("define HB_DESK_LEN(desks) ", "pub const fn desk_len"), [[DESK_HEADER, DESK_ROW]; 2]);
}
