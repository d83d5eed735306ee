//! Both stores beside each other: each answer of one is that of the other, and so is the dump.

use std::fmt::Debug;

use hourbracken::{Begun, Sizes, Start};

use crate::calls::{Answer, Calls, Proved, Refusal};
use crate::plain::Plain;
use crate::workload::{Call, Draws};

fn stop(why: &str) -> ! {
    eprintln!("bench: {why}");
    std::process::exit(1)
}

fn same<T: PartialEq + Debug>(call: Call, proved: Answer<T>, plain: Answer<T>) -> Answer<T> {
    if proved != plain {
        stop(&format!("{call:?}: the proved store answers {proved:?}, the plain one {plain:?}"));
    }
    proved
}

/// Makes a call on both; what is answered is only told of a begin.
pub fn call(call: Call, proved: &mut Proved, plain: &mut Plain) -> Answer<Option<Begun>> {
    match call {
        Call::Begin => same(call, proved.begin(), plain.begin()).map(Some),
        Call::Read(start, key) => same(call, proved.read(start, key), plain.read(start, key)).map(|_| None),
        Call::Newest(key) => same(call, proved.newest(key), plain.newest(key)).map(|_| None),
        Call::Put(start, key, value) => {
            same(call, proved.put(start, key, value), plain.put(start, key, value)).map(|_| None)
        }
        Call::Delete(start, key) => same(call, proved.delete(start, key), plain.delete(start, key)).map(|_| None),
        Call::Commit(start) => same(call, proved.commit(start), plain.commit(start)).map(|_| None),
        Call::Abort(start) => same(call, proved.abort(start), plain.abort(start)).map(|_| None),
        Call::Sweep(limit) => same(call, proved.sweep(limit), plain.sweep(limit)).map(|_| None),
    }
}

/// Counts and dump; an output that is a byte short must be refused by both.
pub fn states(proved: &Proved, plain: &Plain) {
    let mut a = vec![0; Sizes::MAX.dump_len()];
    let mut b = a.clone();
    let len = proved.dump(&mut a);
    if proved.counts() != plain.counts() || len != plain.dump(&mut b) || a != b {
        stop("the two stores hold different things");
    }
    let short = len.unwrap_or(1) - 1;
    let refused = Err(Refusal::Number(12));
    if proved.dump(&mut a[..short]) != refused || plain.dump(&mut b[..short]) != refused {
        stop("an output shorter than the dump was not refused");
    }
}

/// Random calls on a small store, among them every refusal that they can meet.
pub fn edges() -> Answer<()> {
    let sizes = Sizes { key_rooms: 30, version_rooms: 40, desks: 63 };
    let (mut hall, mut desk) = (vec![0; sizes.hall_len()], vec![0; sizes.desk_len()]);
    let mut proved = Proved::make(&mut hall, &mut desk, sizes)?;
    let mut plain = Plain::make(sizes)?;
    let mut draws = Draws(1);
    let mut starts = vec![Start::from_number(0); sizes.desks];
    let mut missing = vec![3, 4, 5, 6, 7, 9, 10, 11];
    let mut last = 0;
    for i in 0..40_000 {
        let letter = [b' ', b'!', b'a'][draws.below(3)];
        let (key, value) = (&[letter; 25][..draws.below(26)], &[letter; 97][..draws.below(98)]);
        let start = starts[draws.below(sizes.desks)];
        let filling = i / 1_000 % 2 == 0;
        let random = match draws.below(16) {
            0..=1 if filling => Call::Begin,
            0..=1 => Call::Abort(start),
            2 => Call::Read(start, key),
            3 => Call::Newest(key),
            4..=11 => Call::Put(start, key, value),
            12 => Call::Delete(start, key),
            13 => Call::Commit(start),
            14 => Call::Abort(start),
            _ => Call::Sweep(draws.next() % (last + 4)),
        };
        match call(random, &mut proved, &mut plain) {
            Ok(None) => {}
            Ok(Some(begun)) => {
                starts[begun.desk] = begun.start;
                last = begun.start.number();
            }
            Err(Refusal::Number(number)) => missing.retain(|refusal| *refusal != number),
            Err(Refusal::Conflict(_)) => missing.retain(|refusal| *refusal != 9),
        }
        if i % 1_000 == 0 {
            states(&proved, &plain);
        }
    }
    if !missing.is_empty() {
        stop(&format!("random calls have met no refusal {missing:?}"));
    }
    Ok(())
}
