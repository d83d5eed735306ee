//! A dump's faults, field by field.

use crate::damage::{fields, Field, Part};
use crate::language::hex;
use crate::store::{Bytes, Sizes, Store};

/// Where A1's numbers are among the fields.
const FIRST_NUMBER: usize = 6;
const SECOND_NUMBER: usize = 10;

/// Two keys, three versions, each kind of field.
fn small_fields() -> Vec<Field> {
    let mut store = Store::make(Sizes::new(2, 3, 2)).unwrap();
    store.begin().unwrap();
    store.put(1, b"A1", &[7]).unwrap();
    store.commit(1).unwrap();
    store.begin().unwrap();
    store.delete(3, b"A1").unwrap();
    store.put(3, b"A2", &[]).unwrap();
    store.commit(3).unwrap();
    fields(&store)
}

fn whole(fields: &[Field]) -> Bytes {
    fields.iter().flat_map(|field| field.bytes.clone()).collect()
}

fn load(dump: &[u8]) -> String {
    format!("load {} 2 3 2\n", hex(dump))
}

pub fn cut() -> String {
    let fields = small_fields();
    let mut script =
        "# Each field of a dump with its last byte missing: 13 where the field starts.\nmake 2 3 2\n".to_string();
    for end in 1..=fields.len() {
        if !fields[end - 1].bytes.is_empty() {
            let dump = whole(&fields[..end]);
            script += &load(&dump[..dump.len() - 1]);
        }
    }
    script + &load(&[]) + "sum hall\nsum desk\n"
}

fn faults_of(field: &Field) -> Vec<Bytes> {
    let small = |n: u32| n.to_le_bytes().to_vec();
    match field.part {
        Part::Opening => vec![b"dSEMVCC1".to_vec(), b"DSEMVCC2".to_vec()],
        Part::Next => vec![vec![0; 8]],
        Part::KeyCount | Part::Value => vec![],
        Part::KeyLength => vec![small(0), small(25), small(258)],
        // A first key is above all that come before it: only its bytes can be wrong.
        Part::Key if field.bytes == b"A1" => vec![b"A ".to_vec(), b"A\x7f".to_vec(), b"\x001".to_vec()],
        // As the last, below it, and above it by a byte that no key has.
        Part::Key => vec![b"A1".to_vec(), b"A!".to_vec(), b"A\x7f".to_vec()],
        Part::VersionCount => vec![small(0)],
        // 0, the next number, and far above it.
        Part::Number => [0u64, 5, u64::MAX].iter().map(|n| n.to_le_bytes().to_vec()).collect(),
        Part::Tag => vec![vec![2], vec![255]],
        Part::ValueLength => vec![small(97), small(u32::MAX)],
    }
}

pub fn malformed() -> String {
    let fields = small_fields();
    let mut script =
        "# Each field made wrong: 14 where it starts; then one byte and three bytes too many.\n".to_string();
    let mut load_with = |at: usize, wrong: Bytes| {
        script += &load(&[whole(&fields[..at]), wrong, whole(&fields[at + 1..])].concat());
    };
    for (at, field) in fields.iter().enumerate() {
        let again = fields[..at].iter().any(|before| before.part == field.part) && field.part != Part::Key;
        // Of a part that was there before, one fault is enough.
        let enough = if again { 1 } else { 3 };
        faults_of(field).into_iter().take(enough).for_each(|wrong| load_with(at, wrong));
    }
    load_with(SECOND_NUMBER, fields[FIRST_NUMBER].bytes.clone());
    for more in [1, 3] {
        script += &load(&[whole(&fields), vec![0; more]].concat());
    }
    script + "sum hall\nsum desk\n"
}

pub fn too_big() -> String {
    let dump = hex(&whole(&small_fields()));
    let mut script =
        "# Too big for the sizes: 15 at the key count, and at the version count that finds no room.\n".to_string();
    for (key_rooms, version_rooms) in [(1, 3), (2, 2), (2, 1), (1, 1)] {
        script += &format!("load {dump} {key_rooms} {version_rooms} 2\n");
    }
    script += "load 4453454d564343310500000000000000ffffffff 2 3 2\nsum hall\nsum desk\ncounts\n";
    script + &format!("# And as it is.\nload {dump} 2 3 2\ncounts\nsum hall\nsum desk\ndump 100\n")
}
