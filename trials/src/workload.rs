//! The seeded workload over the plain store.

use crate::layout::hall_length;
use crate::rng::SplitMix64;
use crate::store::{Bytes, No, Sizes, Store};

/// The one line for input that is no workload. Its words are free: only that it is one line is asked for.
pub const OTHER: &str = "not a workload that this program runs: it takes seven numbers, and rooms of at most 64 KiB";

#[derive(Clone, PartialEq, Eq, Debug)]
pub struct Workload {
    pub seed: u64,
    pub operations: u64,
    pub keys: u64,
    pub writers: u64,
    pub readers: u64,
    pub sizes: Sizes,
}

/// The program's buffers, for hall memory and for its input: they decide which rooms fit, and which text is whole.
/// Its buffer for desk memory has 64 desks.
const BUFFER: usize = 65_536;

fn decimal(line: &[u8]) -> Option<u64> {
    if line.is_empty() || !line.iter().all(u8::is_ascii_digit) {
        return None;
    }
    std::str::from_utf8(line).ok()?.parse().ok()
}

impl Workload {
    /// Nothing if it is other input. A text that fills the buffer may have been cut.
    pub fn read(input: &[u8]) -> Option<Workload> {
        if input.len() >= BUFFER {
            return None;
        }
        let input = input.strip_suffix(b"\n").unwrap_or(input);
        let numbers: Option<Vec<u64>> = input.split(|byte| *byte == b'\n').map(decimal).collect();
        let [seed, operations, keys, writers, readers, key_rooms, version_rooms] = numbers?[..] else { return None };
        // A desk for each worker, so more workers than desks are out of range with them.
        let sizes = Sizes::new(key_rooms, version_rooms, writers.checked_add(readers)?);
        if !(sizes.allowed() && (1..=1_024).contains(&keys) && hall_length(sizes) <= BUFFER) {
            return None;
        }
        Some(Workload { seed, operations, keys, writers, readers, sizes })
    }

    pub fn run(&self) -> Bytes {
        let mut store = Store::make(self.sizes).unwrap();
        let mut rng = SplitMix64::new(self.seed);
        // Of each worker the open transaction's start and how many operations it has had.
        let mut open: Vec<Option<(u64, u32)>> = vec![None; self.sizes.desks as usize];
        for _ in 0..self.operations {
            let (first, second, third) = (rng.draw(), rng.draw(), rng.draw());
            let worker = first % self.sizes.desks;
            let key = format!("K{:04}", second % self.keys).into_bytes();
            let payload = (third as u32).to_be_bytes();
            let (start, done) = match open[worker as usize] {
                Some(transaction) => transaction,
                // Each worker has a desk, and the counter is far from its end.
                None => (store.begin().unwrap().0, 0),
            };
            if worker < self.writers {
                store.put(start, &key, &payload).unwrap();
            } else {
                store.read_kind(start, &key).unwrap();
            }
            open[worker as usize] = Some((start, done + 1));
            if done + 1 == 4 {
                finish(&mut store, start);
                open[worker as usize] = None;
            }
        }
        for (start, _) in open.into_iter().flatten() {
            finish(&mut store, start);
        }
        store.dump(u64::MAX).unwrap()
    }
}

fn finish(store: &mut Store, start: u64) {
    match store.commit(start) {
        Ok(_) | Err(No::Conflict(_)) => {}
        Err(No::Plain(10 | 11)) => store.abort(start).unwrap(),
        Err(no) => unreachable!("{no:?}"),
    }
}

#[cfg(test)]
mod tests {
    use super::*;
    use crate::programs::inputs;

    /// What is other input, and what is none, is said beside the texts.
    #[test]
    fn input() {
        let read = |text: &str| Workload::read(text.as_bytes());
        let (fits, others) = (inputs::workloads(), inputs::other_inputs());
        fits.iter().for_each(|(what, text)| assert!(read(text).is_some(), "{what}"));
        others.iter().for_each(|(what, text)| assert_eq!(read(text), None, "{what}"));
        let fits = "42\n500\n16\n4\n4\n16\n500\n";
        assert_eq!(read(fits), read(fits.trim_end()));
        assert_eq!(read(fits), read("0042\n500\n16\n4\n04\n16\n0500\n"));
        let needed = |key_rooms| hall_length(Sizes::new(key_rooms, 600, 1));
        assert_eq!((needed(2), needed(3)), (65_522, 65_551));
    }

    #[test]
    fn small_runs() {
        let run = |text: &str| Workload::read(text.as_bytes()).unwrap().run();
        let new_store = Store::make(Sizes::new(1, 1, 1)).unwrap().dump(20).unwrap();
        assert_eq!(run("7\n0\n1\n1\n0\n1\n1"), new_store);
        // A single reader: four reads are one transaction, closed without a number.
        assert_eq!(run("7\n9\n1\n0\n1\n1\n1")[8..16], 4u64.to_le_bytes());
        // One writer, one key, one room: the first four puts commit as 2, every later commit lacks room.
        let mut rng = SplitMix64::new(7);
        let payload = (0..12).map(|_| rng.draw()).last().unwrap() as u32;
        let loaded = Store::load(&run("7\n9\n1\n1\n0\n1\n1"), Sizes::new(1, 1, 1)).unwrap();
        assert_eq!(loaded.counter, 4);
        assert_eq!(loaded.newest_bytes(b"K0000"), payload.to_be_bytes());
    }
}
