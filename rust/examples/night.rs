//! A night's calls in one batch: seats go to standby, what was left open at closing time is ended, and old versions are
//! swept. Each call is answered as if it were made singly.

use hourbracken::batch::{Answer, Batch, ANSWER_LEN, RECORD_LEN};
use hourbracken::{Committed, Refusal, Shown, Sizes, Start, Store};
use std::error::Error;

const SIZES: Sizes = Sizes { key_rooms: 8, version_rooms: 64, desks: 3 };
const RECORDS: usize = 16;

/// By day: a transaction with one write.
fn plan(store: &mut Store, seat: &[u8], feed: &[u8]) -> Result<Start, Refusal> {
    let start = store.begin()?.start;
    store.put(start, seat, feed)?;
    Ok(start)
}

/// An answer in words, or why there is none.
fn told(answer: Answer) -> (&'static str, Result<String, Refusal>) {
    let done = |()| "done".to_string();
    match answer {
        Answer::Begin(begun) => ("begin", begun.map(|begun| format!("start {} at desk {}", begun.start, begun.desk))),
        Answer::Read(found) => ("read", found.map(|found| Shown(found.bytes().unwrap_or(b"nothing")).to_string())),
        Answer::Put(answer) => ("put", answer.map(done)),
        Answer::Delete(answer) => ("delete", answer.map(done)),
        Answer::Commit(committed) => {
            let words = committed.map(|committed| match committed {
                Committed::As(number) => format!("saved as {number}"),
                Committed::Closed => "nothing to save".to_string(),
            });
            ("commit", words)
        }
        Answer::Abort(answer) => ("abort", answer.map(done)),
        Answer::Sweep(swept) => ("sweep", swept.map(|swept| format!("{} dropped", swept.dropped))),
    }
}

fn main() -> Result<(), Box<dyn Error>> {
    let (mut hall, mut desk) = ([0; SIZES.hall_len()], [0; SIZES.desk_len()]);
    let mut store = Store::make(&mut hall, &mut desk, SIZES)?;
    let start = plan(&mut store, b"A1", b"loop")?;
    store.commit(start)?;
    let anna = plan(&mut store, b"A2", b"direct")?; // both went home with their plans open
    let bram = plan(&mut store, b"B7", b"direct")?;

    let (mut room, mut out) = ([0; RECORDS * RECORD_LEN], [0; RECORDS * ANSWER_LEN]);
    let mut batch = Batch::new(&mut room);
    let night = batch.begin()?;
    batch.read(night, b"A1")?;
    for seat in [&b"A1"[..], b"A2", b"row B"] {
        batch.put(night, seat, b"standby")?;
    }
    batch.commit(night)?;
    batch.commit(anna)?;
    batch.abort(bram)?;
    let check = batch.begin()?;
    batch.read(check, b"A2")?;
    batch.read(check, b"B7")?;
    batch.commit(check)?;
    batch.sweep(u64::MAX)?;

    for answer in store.batch(&batch, &mut out)? {
        match told(answer) {
            (call, Ok(words)) => println!("{call}: {words}"),
            (call, Err(refusal)) => println!("{call}: refused, {refusal}"),
        }
    }
    Ok(())
}
