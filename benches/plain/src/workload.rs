//! The workload as a list of calls, made beforehand.

use std::hint::black_box;

use hourbracken::{Sizes, Start};

use crate::calls::{Answer, Calls, Refusal};

pub const SIZES: Sizes = Sizes { key_rooms: KEYS, version_rooms: 4_096, desks: WRITERS + READERS };
const SEED: u64 = 1;
const OPERATIONS: usize = 100_000;
const KEYS: usize = 512;
const WRITERS: usize = 8;
const READERS: usize = 8;
const BETWEEN_SWEEPS: usize = 1_000;

#[derive(Clone, Copy, Debug)]
pub enum Call<'b> {
    Begin,
    Read(Start, &'b [u8]),
    Newest(&'b [u8]),
    Put(Start, &'b [u8], &'b [u8]),
    Delete(Start, &'b [u8]),
    Commit(Start),
    Abort(Start),
    Sweep(u64),
}

impl Call<'_> {
    /// Makes the call; the compiler must not learn that nobody looks at the answer.
    #[inline]
    pub fn make(&self, store: &mut impl Calls) {
        match *self {
            Call::Begin => drop(black_box(store.begin())),
            Call::Read(start, key) => drop(black_box(store.read(start, key))),
            Call::Newest(key) => drop(black_box(store.newest(key))),
            Call::Put(start, key, value) => drop(black_box(store.put(start, key, value))),
            Call::Delete(start, key) => drop(black_box(store.delete(start, key))),
            Call::Commit(start) => drop(black_box(store.commit(start))),
            Call::Abort(start) => drop(black_box(store.abort(start))),
            Call::Sweep(limit) => drop(black_box(store.sweep(limit))),
        }
    }

    pub fn name(&self) -> &'static str {
        match self {
            Call::Begin => "begin",
            Call::Read(..) => "read",
            Call::Newest(_) => "newest",
            Call::Put(..) => "put",
            Call::Delete(..) => "delete",
            Call::Commit(_) => "commit",
            Call::Abort(_) => "abort",
            Call::Sweep(_) => "sweep",
        }
    }
}

/// SplitMix64.
pub struct Draws(pub u64);

impl Draws {
    pub fn next(&mut self) -> u64 {
        self.0 = self.0.wrapping_add(0x9E37_79B9_7F4A_7C15);
        let z = (self.0 ^ self.0 >> 30).wrapping_mul(0xBF58_476D_1CE4_E5B9);
        let z = (z ^ z >> 27).wrapping_mul(0x94D0_49BB_1331_11EB);
        z ^ z >> 31
    }

    pub fn below(&mut self, end: usize) -> usize {
        (self.next() % end as u64) as usize
    }
}

pub struct Operation {
    worker: usize,
    key: [u8; 5],
    value: [u8; 4],
}

pub fn operations() -> Vec<Operation> {
    let mut draws = Draws(SEED);
    let mut operation = |_| {
        let worker = draws.below(WRITERS + READERS);
        let key = draws.below(KEYS);
        let digit = |unit: usize| b'0' + (key / unit % 10) as u8;
        let key = [b'K', digit(1_000), digit(100), digit(10), digit(1)];
        Operation { worker, key, value: (draws.next() as u32).to_be_bytes() }
    };
    (0..OPERATIONS).map(&mut operation).collect()
}

/// The calls that the operations make on this store, which is new.
pub fn calls<'b>(operations: &'b [Operation], store: &mut impl Calls) -> Answer<Vec<Call<'b>>> {
    let mut list = Vec::new();
    let mut open = [None; WRITERS + READERS];
    for (i, Operation { worker, key, value }) in operations.iter().enumerate() {
        let (start, done) = match open[*worker] {
            Some(transaction) => transaction,
            None => {
                list.push(Call::Begin);
                (store.begin()?.start, 0)
            }
        };
        let call = if *worker < WRITERS { Call::Put(start, key, value) } else { Call::Read(start, key) };
        call.make(store);
        list.push(call);
        open[*worker] = Some((start, done + 1));
        if done + 1 == 4 {
            open[*worker] = None;
            commit(start, store, &mut list)?;
        }
        if (i + 1) % BETWEEN_SWEEPS == 0 {
            store.sweep(u64::MAX)?;
            list.push(Call::Sweep(u64::MAX));
        }
    }
    for (start, _) in open.into_iter().flatten() {
        commit(start, store, &mut list)?;
    }
    Ok(list)
}

/// A commit that finds no room is aborted.
fn commit(start: Start, store: &mut impl Calls, list: &mut Vec<Call>) -> Answer<()> {
    list.push(Call::Commit(start));
    if let Err(Refusal::Number(10 | 11)) = store.commit(start) {
        list.push(Call::Abort(start));
        store.abort(start)?;
    }
    Ok(())
}
