//! `hb show`: every key with its versions.

use crate::words::{printable, Hex, Quoted};
use hourbracken::dump::{Dump, Entry, Fault, Reader, Record, Version};
use hourbracken::Shown;
use std::io::{self, Write};

/// The table, up to the first fault, which is answered.
pub fn table(bytes: &[u8], name: &str, out: &mut dyn Write) -> io::Result<Option<Fault>> {
    match Dump::read(bytes) {
        Ok(dump) => writeln!(out, "{name}: {dump}")?,
        Err(_) => writeln!(out, "{name}: damaged; this stands before the fault")?,
    }
    let (mut key_width, mut number_width) = ("key".len(), "number".len());
    for record in Reader::new(bytes).map_while(Result::ok) {
        match record {
            Record::Key { key, .. } => key_width = key_width.max(Shown(key).width()),
            Record::Version(version) => number_width = number_width.max(version.number.to_string().len()),
            Record::Head { .. } => {}
        }
    }
    writeln!(out, "{:key_width$}  {:>number_width$}  value", "key", "number")?;
    let mut key_cell = String::new();
    for record in Reader::new(bytes) {
        match record {
            Err(fault) => return Ok(Some(fault)),
            Ok(Record::Head { .. }) => {}
            Ok(Record::Key { key, .. }) => key_cell = Shown(key).to_string(),
            Ok(Record::Version(Version { number, value })) => {
                write!(out, "{key_cell:key_width$}  {number:>number_width$}  ")?;
                match value {
                    Some(value) => writeln!(out, "{}", Quoted(value))?,
                    None => writeln!(out, "deleted")?,
                }
                key_cell.clear();
            }
        }
    }
    Ok(None)
}

/// One object, a line for each key; nothing if the dump is refused, and then the fault is answered.
pub fn json(bytes: &[u8], out: &mut dyn Write) -> io::Result<Option<Fault>> {
    let dump = match Dump::read(bytes) {
        Ok(dump) => dump,
        Err(fault) => return Ok(Some(fault)),
    };
    write!(out, "{{\"counter\":{},\"keys\":[", dump.counter())?;
    let mut before = "\n";
    for entry in dump.entries() {
        write!(out, "{before}")?;
        json_entry(&entry, out)?;
        before = ",\n";
    }
    writeln!(out, "\n]}}")?;
    Ok(None)
}

fn json_entry(entry: &Entry, out: &mut dyn Write) -> io::Result<()> {
    write!(out, "{{{},\"versions\":[", json_bytes(entry.key))?;
    let mut before = "";
    for Version { number, value } in entry.versions() {
        write!(out, "{before}{{\"number\":{number},")?;
        match value {
            Some(value) => write!(out, "{}}}", json_bytes(value))?,
            None => write!(out, "\"deleted\":true}}")?,
        }
        before = ",";
    }
    write!(out, "]}}")
}

/// Always in hexadecimal, and as text if every byte prints.
fn json_bytes(bytes: &[u8]) -> String {
    match printable(bytes) {
        Some(_) => format!("\"hex\":\"{}\",\"text\":{}", Hex(bytes), Quoted(bytes)),
        None => format!("\"hex\":\"{}\"", Hex(bytes)),
    }
}
