//! `hb check`: would a load accept the dump?

use crate::Exit;
use hourbracken::dump::{Dump, Fault, Wrong};
use std::io::{self, Write};

/// A refusal on one line: its number, the offset if it has one, and what is wrong.
pub fn words(fault: &Fault) -> String {
    match fault.wrong {
        Wrong::Sizes => format!("refused {}: {fault}", fault.refusal().number()),
        _ => format!("refused {} at {}: {fault}", fault.refusal().number(), fault.offset),
    }
}

/// How many bytes are shown at a fault.
const SHOWN: usize = 16;

pub fn verdict(bytes: &[u8], keys: usize, versions: usize, name: &str, out: &mut dyn Write) -> io::Result<Exit> {
    let fault = match Dump::read_for(bytes, keys, versions) {
        Ok(dump) => {
            writeln!(out, "{name}: accepted: {dump}")?;
            return Ok(Exit::Done);
        }
        Err(fault) => fault,
    };
    writeln!(out, "{name}: {}", words(&fault))?;
    if fault.wrong != Wrong::Sizes {
        bytes_at(bytes, fault.offset, out)?;
    }
    Ok(Exit::No)
}

/// What stands at a fault, if anything does.
pub fn bytes_at(bytes: &[u8], at: usize, out: &mut dyn Write) -> io::Result<()> {
    let there = bytes.get(at..).unwrap_or_default();
    if there.is_empty() {
        return Ok(());
    }
    write!(out, "  bytes from {at}:")?;
    there.iter().take(SHOWN).try_for_each(|byte| write!(out, " {byte:02x}"))?;
    writeln!(out, "{}", if there.len() > SHOWN { " .." } else { "" })
}
