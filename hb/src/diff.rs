//! `hb diff`: what the store did from one dump to another.

use crate::words::Quoted;
use crate::Exit;
use hourbracken::dump::{Dump, Entry, Version};
use hourbracken::Shown;
use std::cmp::Ordering;
use std::io::{self, Write};
use std::iter::Peekable;

/// What became of a version.
#[derive(Clone, Copy, PartialEq, Eq, Debug)]
pub enum Change<'d> {
    Committed {
        number: u64,
        value: &'d [u8],
    },
    Deleted {
        number: u64,
    },
    Swept {
        number: u64,
    },
    /// Another content under the same number: the two are not of one store.
    Rewritten {
        number: u64,
        before: Option<&'d [u8]>,
        after: Option<&'d [u8]>,
    },
}

/// The items of two ascending lists by their order: only before, only after, or in both.
fn paired<T>(
    before: impl Iterator<Item = T>,
    after: impl Iterator<Item = T>,
    order: impl Fn(&T, &T) -> Ordering,
) -> impl Iterator<Item = (Option<T>, Option<T>)> {
    let (mut before, mut after): (Peekable<_>, Peekable<_>) = (before.peekable(), after.peekable());
    std::iter::from_fn(move || {
        let order = match (before.peek(), after.peek()) {
            (Some(one), Some(other)) => order(one, other),
            (Some(_), None) => Ordering::Less,
            (None, Some(_)) => Ordering::Greater,
            (None, None) => return None,
        };
        let one = if order.is_le() { before.next() } else { None };
        let other = if order.is_ge() { after.next() } else { None };
        Some((one, other))
    })
}

fn change<'d>(before: Option<Version<'d>>, after: Option<Version<'d>>) -> Option<Change<'d>> {
    match (before, after) {
        (None, Some(Version { number, value: Some(value) })) => Some(Change::Committed { number, value }),
        (None, Some(Version { number, value: None })) => Some(Change::Deleted { number }),
        (Some(Version { number, .. }), None) => Some(Change::Swept { number }),
        (Some(one), Some(other)) if one.value != other.value => {
            Some(Change::Rewritten { number: one.number, before: one.value, after: other.value })
        }
        _ => None,
    }
}

/// Every change by key, then by number.
pub fn changes<'d>(before: &Dump<'d>, after: &Dump<'d>) -> Vec<(&'d [u8], Change<'d>)> {
    let mut all = Vec::new();
    let by_key = |one: &Entry, other: &Entry| one.key.cmp(other.key);
    for (one, other) in paired(before.entries(), after.entries(), by_key) {
        let Some(key) = one.as_ref().or(other.as_ref()).map(|entry| entry.key) else { continue };
        let versions = |entry: Option<Entry<'d>>| entry.into_iter().flat_map(|entry| entry.versions());
        let by_number = |one: &Version, other: &Version| one.number.cmp(&other.number);
        let of_key = paired(versions(one), versions(other), by_number);
        all.extend(of_key.filter_map(|(one, other)| change(one, other)).map(|change| (key, change)));
    }
    all
}

/// Whether the dump has versions of the key, and all are older. No sweep drops a version and leaves it so.
fn only_older(dump: &Dump, key: &[u8], number: u64) -> bool {
    let entry = dump.entries().find(|entry| entry.key == key);
    entry.is_some_and(|entry| entry.versions().all(|version| version.number < number))
}

/// Why the second can't be a later dump of the same store, if it can't.
fn not_one_store(before: &Dump, after: &Dump, changes: &[(&[u8], Change)]) -> Option<String> {
    if after.counter() < before.counter() {
        return Some("the counter went back".to_owned());
    }
    changes.iter().find_map(|(key, change)| match *change {
        Change::Committed { number, .. } | Change::Deleted { number } if number <= before.counter() => {
            Some(format!("{} has {number} only after the counter stood at {}", Shown(key), before.counter()))
        }
        Change::Rewritten { number, .. } => Some(format!("{} has another content under {number}", Shown(key))),
        Change::Swept { number } if only_older(after, key, number) => {
            Some(format!("{} has no {number} any more, and nothing newer", Shown(key)))
        }
        _ => None,
    })
}

fn content(value: Option<&[u8]>) -> String {
    value.map_or("deleted".to_owned(), |value| Quoted(value).to_string())
}

pub fn page(before: &Dump, after: &Dump, out: &mut dyn Write) -> io::Result<Exit> {
    let changes = changes(before, after);
    let counted = |of: fn(&Change) -> bool| changes.iter().filter(|(_, change)| of(change)).count();
    if changes.is_empty() && before.counter() == after.counter() {
        writeln!(out, "the same: {before}")?;
        return Ok(Exit::Done);
    }
    writeln!(out, "counter {} -> {}", before.counter(), after.counter())?;
    let key_width = changes.iter().map(|(key, _)| Shown(key).width()).max().unwrap_or(0);
    let number_width = before.counter().max(after.counter()).to_string().len();
    for (key, change) in &changes {
        let (word, number, rest) = match *change {
            Change::Committed { number, value } => ("committed", number, Quoted(value).to_string()),
            Change::Deleted { number } => ("deleted", number, String::new()),
            Change::Swept { number } => ("swept", number, String::new()),
            Change::Rewritten { number, before, after } => {
                ("rewritten", number, format!("{}, was {}", content(after), content(before)))
            }
        };
        let line = format!("{:key_width$}  {word:9}  {number:>number_width$}  {rest}", Shown(key).to_string());
        writeln!(out, "{}", line.trim_end())?;
    }
    writeln!(
        out,
        "{} committed, {} deleted, {} swept",
        counted(|change| matches!(change, Change::Committed { .. })),
        counted(|change| matches!(change, Change::Deleted { .. })),
        counted(|change| matches!(change, Change::Swept { .. }))
    )?;
    if let Some(why) = not_one_store(before, after, &changes) {
        writeln!(out, "these are not an earlier and a later dump of one store: {why}")?;
    }
    Ok(Exit::No)
}
