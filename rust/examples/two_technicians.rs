//! Two technicians edit one seating plan. The second, who began before the first was done, is refused and told which
//! seats it is about.

use hourbracken::{Committed, Refusal, Sizes, Start, Store};
use std::str::from_utf8;

const SIZES: Sizes = Sizes { key_rooms: 8, version_rooms: 64, desks: 2 };

fn show(store: &Store, who: &str, start: Start, seat: &str) -> Result<(), Refusal> {
    let feed = store.read(start, seat.as_bytes())?.bytes().unwrap_or(b"nothing");
    println!("{}: {} gets {}", who, seat, from_utf8(feed).unwrap_or("?"));
    Ok(())
}

fn finish(store: &mut Store, who: &str, start: Start) {
    match store.commit(start) {
        Ok(Committed::As(number)) => println!("{}: saved as {}", who, number),
        Ok(Committed::Closed) => println!("{}: nothing to save", who),
        Err(Refusal::Conflict(clashes)) => println!("{}: refused, {}", who, clashes),
        Err(refusal) => println!("{}: refused {}", who, refusal.number()),
    }
}

fn main() -> Result<(), Refusal> {
    let (mut hall, mut desk) = ([0; SIZES.hall_len()], [0; SIZES.desk_len()]);
    let mut store = Store::make(&mut hall, &mut desk, SIZES)?;

    let anna = store.begin()?.start;
    let bram = store.begin()?.start;
    store.put(anna, b"A1", b"loop")?;
    store.put(anna, b"A2", b"direct")?;
    show(&store, "anna", anna, "A1")?;
    show(&store, "bram", bram, "A1")?;
    finish(&mut store, "anna", anna);

    // bram still sees the plan as it was when he began, and writes two seats that anna has changed since
    show(&store, "bram", bram, "A1")?;
    store.put(bram, b"B7", b"direct")?;
    store.put(bram, b"A2", b"loop")?;
    store.put(bram, b"A1", b"direct")?;
    finish(&mut store, "bram", bram);

    // he begins again, and now sees what she saved
    let bram = store.begin()?.start;
    show(&store, "bram", bram, "A2")?;
    store.put(bram, b"A2", b"loop")?;
    finish(&mut store, "bram", bram);

    let dropped = store.sweep(u64::MAX)?.dropped;
    let held = store.counts()?;
    println!("swept: {} dropped, {} seats in {} versions, {} open", dropped, held.keys, held.versions, held.desks);
    Ok(())
}
