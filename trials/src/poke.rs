//! Places where a changed byte matters: a random byte of the memories falls into unused room nearly always.

use crate::console::Console;
use crate::language::Which;
use crate::layout::{
    desk_length, hall_length, versions_at, Held, DESK_COUNT, DESK_HEADER, HALL_DESKS, HALL_HEADER, HALL_SPARE,
    KEY_CELL, KEY_ROW, VERSION_ROW, WRITES, WRITE_ROW,
};
use crate::rng::SplitMix64;
use crate::store::{Store, WRITES_MAX};
use std::ops::Range;

/// A byte to change, what it was and what it becomes.
pub struct Poke {
    pub which: Which,
    pub at: usize,
    pub old: u8,
    pub new: u8,
}

impl Poke {
    pub fn random(rng: &mut SplitMix64, console: &Console) -> Poke {
        let which = rng.pick(&[Which::Hall, Which::Hall, Which::Desk]);
        let memory = console.memory(which);
        let places = match (console.held(), which) {
            (Held::Nothing, _) => vec![0..HALL_HEADER, 0..memory.len()],
            (Held::Hall(store) | Held::Both(store), Which::Hall) => hall_places(rng, store, memory.len()),
            (Held::Hall(store) | Held::Both(store), Which::Desk) => desk_places(rng, store, memory.len()),
        };
        let place = rng.pick(&places);
        let at = place.start + rng.below(place.len());
        let old = memory[at];
        let near = [old.wrapping_add(1), old.wrapping_sub(1), old ^ 0x80, 0, 0xff, b' ', 127, rng.draw() as u8];
        let new = rng.pick(&near);
        Poke { which, at, old, new: if new == old { old ^ 1 } else { new } }
    }

    pub fn text(&self) -> String {
        format!("poke {} {} {}", self.which.name(), self.at, self.new)
    }

    pub fn back_text(&self) -> String {
        format!("poke {} {} {}", self.which.name(), self.at, self.old)
    }
}

/// One of `count` rows, if there is one.
fn row(rng: &mut SplitMix64, from: usize, width: usize, rows: Range<usize>) -> Option<usize> {
    (!rows.is_empty()).then(|| from + width * (rows.start + rng.below(rows.len())))
}

fn hall_places(rng: &mut SplitMix64, store: &Store, length: usize) -> Vec<Range<usize>> {
    let (key_rooms, version_rooms) = (store.sizes.key_rooms as usize, store.sizes.version_rooms as usize);
    let (keys, versions) = (store.keys.len(), store.versions_held() as usize);
    let versions_at = versions_at(store.sizes.key_rooms);
    let needed = hall_length(store.sizes);
    let mut places = vec![
        0..8,
        8..9,
        8..16,
        16..24,
        24..25,
        24..HALL_DESKS,
        HALL_DESKS..HALL_DESKS + 1,
        HALL_DESKS..HALL_SPARE,
        HALL_SPARE..HALL_HEADER,
        needed - 1..needed + 1,
        needed..length,
    ];
    if let Some(at) = row(rng, HALL_HEADER, KEY_ROW, 0..keys) {
        // Length, the key's first bytes, all of the cell, end.
        places.extend([at..at + 1, at + 1..at + 3, at..at + KEY_CELL, at + KEY_CELL..at + KEY_ROW]);
    }
    if let Some(at) = row(rng, versions_at, VERSION_ROW, 0..versions) {
        // Number's low byte and all of it, tag, length, the value's first bytes, all of the row.
        places.extend([
            at..at + 1,
            at..at + 8,
            at + 8..at + 9,
            at + 9..at + 13,
            at + 13..at + 15,
            at..at + VERSION_ROW,
        ]);
    }
    places.extend(row(rng, HALL_HEADER, KEY_ROW, keys..key_rooms).map(|at| at..at + KEY_ROW));
    places.extend(row(rng, versions_at, VERSION_ROW, versions..version_rooms).map(|at| at..at + VERSION_ROW));
    places
}

fn desk_places(rng: &mut SplitMix64, store: &Store, length: usize) -> Vec<Range<usize>> {
    let desks = store.desks.len();
    let needed = desk_length(store.sizes.desks);
    // The marks, those of the last desk and the next, how many there are, the end.
    let last = (desks - 1) / 8..desks / 8 + 1;
    let mut places = vec![
        0..DESK_COUNT,
        last.start..last.end.min(DESK_COUNT),
        DESK_COUNT..DESK_HEADER,
        needed - 1..needed + 1,
        needed..length,
    ];
    let desk = rng.below(desks);
    let near = (0..desks).map(|i| (desk + i) % desks);
    for taken in [true, false] {
        let Some(number) = near.clone().find(|number| store.desks[*number].is_some() == taken) else { continue };
        let at = desk_length(number as u64);
        let writes = store.desks[number].as_ref().map_or(0, |desk| desk.writes.len());
        places.extend([at..at + 1, at..at + 8, at + 8..at + WRITES]);
        if let Some(at) = row(rng, at + WRITES, WRITE_ROW, 0..writes) {
            // Key's length, its first bytes, tag, value's length and first bytes, all of the row.
            let payload = at + KEY_CELL;
            places.extend([
                at..at + 1,
                at + 1..at + 3,
                payload..payload + 1,
                payload + 1..payload + 7,
                at..at + WRITE_ROW,
            ]);
        }
        places.extend(row(rng, at + WRITES, WRITE_ROW, writes..WRITES_MAX).map(|at| at..at + WRITE_ROW));
    }
    places
}
