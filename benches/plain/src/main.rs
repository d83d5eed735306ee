//! Measures the proved store's calls and their soundness tests beside the same store in plain Rust. ./bench runs it:
//!   plain names    the calls of the workload, a line each
//!   plain count    makes them on both stores, between marks that the emulator's plugin counts by
//!   plain time N   compares the stores, then times N runs on both and prints a line of each side: its name, best and
//!                  median in nanoseconds

mod alike;
mod calls;
mod plain;
mod workload;

use std::env::args;
use std::ffi::c_long;
use std::process::exit;
use std::time::Instant;

use hourbracken::Start;

use calls::{Answer, Proved};
use plain::Plain;
use workload::{Call, SIZES};

/// As in `benches/marks.h`.
const MARK_OPEN: c_long = 18_498;
const MARK_CLOSE: c_long = 18_499;

extern "C" {
    fn syscall(number: c_long, ...) -> c_long;
}

fn mark(number: c_long) {
    // SAFETY: no kernel has such a call, so it is refused and changes nothing.
    unsafe { syscall(number) };
}

#[derive(Clone, Copy)]
enum Meter {
    Marks,
    Clock,
}

impl Meter {
    /// Does it and tells the nanoseconds, if it has a clock.
    #[inline]
    fn measure(self, work: impl FnOnce()) -> u64 {
        match self {
            Meter::Marks => {
                mark(MARK_OPEN);
                work();
                mark(MARK_CLOSE);
                0
            }
            Meter::Clock => {
                let opened = Instant::now();
                work();
                opened.elapsed().as_nanos() as u64
            }
        }
    }
}

/// How bytes are cleared and copied depends on where they stand, so each memory begins at a page.
#[repr(align(4096))]
struct Memory<const N: usize>([u8; N]);

struct Memories {
    hall: Memory<{ SIZES.hall_len() }>,
    desk: Memory<{ SIZES.desk_len() }>,
}

impl Memories {
    fn make(&mut self) -> Answer<Proved<'_>> {
        Proved::make(&mut self.hall.0, &mut self.desk.0, SIZES)
    }
}

/// Times of a side: each part's best, and each run's sum.
#[derive(Default)]
struct Times {
    best: Vec<u64>,
    sums: Vec<u64>,
}

impl Times {
    fn add(&mut self, run: Vec<u64>) {
        self.sums.push(run.iter().sum());
        self.best.resize(run.len(), u64::MAX);
        self.best.iter_mut().zip(run).for_each(|(best, time)| *best = time.min(*best));
    }

    fn best(&self) -> u64 {
        self.best.iter().sum()
    }
}

fn median(mut sums: Vec<u64>) -> u64 {
    sums.sort();
    sums[sums.len() / 2]
}

/// Makes the calls, each right after a call that is refused once the same test is passed. Answers both times of each.
fn run_proved(meter: Meter, calls: &[Call], store: &mut Proved) -> (Vec<u64>, Vec<u64>) {
    let test = Call::Read(Start::from_number(0), &[]);
    calls.iter().map(|call| (meter.measure(|| test.make(store)), meter.measure(|| call.make(store)))).unzip()
}

/// A call is too short for the clock: it times those up to each sweep together.
fn run_plain(meter: Meter, calls: &[Call], store: &mut Plain) -> Vec<u64> {
    let parts: Vec<&[Call]> = match meter {
        Meter::Marks => calls.chunks(1).collect(),
        Meter::Clock => calls.split_inclusive(|call| matches!(call, Call::Sweep(_))).collect(),
    };
    parts.iter().map(|part| meter.measure(|| part.iter().for_each(|call| call.make(store)))).collect()
}

fn time(calls: &[Call], memories: &mut Memories, runs: usize) -> Answer<()> {
    let (mut tests, mut whole, mut plain) = (Times::default(), Times::default(), Times::default());
    for run in 1..=runs {
        eprintln!("bench: timing the workload, run {run} of {runs}");
        let (mut proved_store, mut plain_store) = (memories.make()?, Plain::make(SIZES)?);
        let times = run_proved(Meter::Clock, calls, &mut proved_store);
        tests.add(times.0);
        whole.add(times.1);
        plain.add(run_plain(Meter::Clock, calls, &mut plain_store));
        alike::states(&proved_store, &plain_store);
    }
    let less = whole.sums.iter().zip(&tests.sums).map(|(whole, tests)| whole.saturating_sub(*tests)).collect();
    println!("whole\t{}\t{}", whole.best(), median(whole.sums.clone()));
    println!("tests\t{}\t{}", tests.best(), median(tests.sums.clone()));
    println!("less\t{}\t{}", whole.best().saturating_sub(tests.best()), median(less));
    println!("plain\t{}\t{}", plain.best(), median(plain.sums.clone()));
    Ok(())
}

fn count(calls: &[Call], memories: &mut Memories) -> Answer<()> {
    let (mut proved, mut plain) = (memories.make()?, Plain::make(SIZES)?);
    Meter::Marks.measure(|| ()); // what the marks count with nothing between them
    run_proved(Meter::Marks, calls, &mut proved);
    run_plain(Meter::Marks, calls, &mut plain);
    alike::states(&proved, &plain);
    Ok(())
}

fn compare(calls: &[Call], memories: &mut Memories) -> Answer<()> {
    eprintln!("bench: comparing the answers of both stores");
    let (mut proved, mut plain) = (memories.make()?, Plain::make(SIZES)?);
    for call in calls {
        let _ = alike::call(*call, &mut proved, &mut plain); // conflicts are refused, as they should be
    }
    alike::states(&proved, &plain);
    alike::edges()
}

fn run(words: &[&str]) -> Answer<()> {
    let mut memories = Box::new(Memories { hall: Memory([0; SIZES.hall_len()]), desk: Memory([0; SIZES.desk_len()]) });
    let operations = workload::operations();
    let calls = workload::calls(&operations, &mut Plain::make(SIZES)?)?;
    match (words, words.get(1).and_then(|runs| runs.parse().ok())) {
        (["names"], _) => calls.iter().for_each(|call| println!("{}", call.name())),
        (["count"], _) => count(&calls, &mut memories)?,
        (["time", _], Some(runs @ 1..)) => {
            compare(&calls, &mut memories)?;
            time(&calls, &mut memories, runs)?;
        }
        _ => {
            eprintln!("usage: plain names, plain count, or plain time RUNS");
            exit(2);
        }
    }
    Ok(())
}

fn main() {
    let words: Vec<String> = args().skip(1).collect();
    let words: Vec<&str> = words.iter().map(String::as_str).collect();
    if let Err(refusal) = run(&words) {
        eprintln!("bench: the workload was refused: {refusal:?}");
        exit(1);
    }
}
