//! `trial [--seeds N] [--from S] [--calls C] [--seconds T] -- COMMAND..`: random scripts through a console. See
//! trials/README.md.

use std::io::{stderr, Write};
use std::process::exit;
use std::time::{Duration, Instant, SystemTime, UNIX_EPOCH};
use trials::compare::{short, Tally};
use trials::store::LAST_REFUSAL;
use trials::trial::{blame, run, try_seed, Heard};

/// How long a console may take for one script.
const PATIENCE: Duration = Duration::from_secs(120);
/// After so many differing seeds more of them tell nothing.
const ENOUGH: usize = 10;

struct Settings {
    seeds: u64,
    from: u64,
    calls: usize,
    /// If given, seeds are tried until then, however many.
    time: Option<Duration>,
    command: Vec<String>,
}

impl Settings {
    fn read() -> Result<Settings, String> {
        let mut all = Settings { seeds: 100, from: 0, calls: 200, time: None, command: Vec::new() };
        let mut from = None;
        let mut words = std::env::args().skip(1);
        while let Some(word) = words.next() {
            if word == "--" {
                all.command = words.by_ref().collect();
                break;
            }
            let value = words.next().and_then(|value| value.parse::<u64>().ok());
            let number = value.ok_or(format!("{word} wants a number"))?;
            match word.as_str() {
                "--seeds" => all.seeds = number,
                "--from" => from = Some(number),
                "--calls" => all.calls = number as usize,
                "--seconds" => all.time = Some(Duration::from_secs(number)),
                _ => return Err(format!("no such word: {word}")),
            }
        }
        if all.command.is_empty() {
            return Err("no console: -- COMMAND..".to_string());
        }
        // Long runs go elsewhere each time.
        let clock =
            || SystemTime::now().duration_since(UNIX_EPOCH).map_or(0, |time| time.as_secs() % 1_000_000 * 1_000);
        all.from = from.unwrap_or_else(|| if all.time.is_some() { clock() } else { 0 });
        Ok(all)
    }
}

fn main() {
    let settings = Settings::read().unwrap_or_else(|fault| {
        eprintln!("trial: {fault}");
        exit(2);
    });
    let console = |script: &[u8]| -> Heard {
        run(&settings.command, script, PATIENCE).unwrap_or_else(|fault| {
            eprintln!("trial: {}: {fault}", settings.command[0]);
            exit(2);
        })
    };
    let began = Instant::now();
    let mut shown = began;
    let mut tally = Tally::default();
    let mut failing = Vec::new();
    let mut seed = settings.from;
    loop {
        let ended = match settings.time {
            Some(time) => began.elapsed() >= time,
            None => seed - settings.from >= settings.seeds,
        };
        if ended || failing.len() == ENOUGH {
            break;
        }
        match try_seed(&console, seed, settings.calls) {
            Ok(agreed) => tally.add(&agreed),
            Err(difference) => failing.push((seed, difference)),
        }
        seed += 1;
        if shown.elapsed() >= Duration::from_secs(1) {
            shown = Instant::now();
            eprint!("\rtrial: {} seeds, {} calls, {} differences ", seed - settings.from, tally.calls, failing.len());
            let _ = stderr().flush();
        }
    }
    if shown != began {
        eprintln!();
    }
    println!(
        "trial: seeds {} to {}: {} calls and {} answers agree, {} seeds differ; {} s",
        settings.from,
        seed - 1,
        tally.calls,
        tally.answers,
        failing.len(),
        began.elapsed().as_secs()
    );
    let refusals: Vec<String> =
        (1..=LAST_REFUSAL).map(|number| format!("{number}: {}", tally.refused[number])).collect();
    println!("trial: refusals met: {}", refusals.join(", "));
    let seeds: Vec<u64> = failing.iter().map(|(seed, _)| *seed).collect();
    let Some((first, seen)) = failing.into_iter().next() else { return };
    println!("trial: seeds that differ: {seeds:?}");
    let failure = blame(&console, first, settings.calls, seen);
    match failure.again {
        true => println!("trial: seed {first}, {} lines, made short:", failure.lines),
        false => println!("trial: seed {first} differed once and not again; its script up to there:"),
    }
    failure.script.lines().for_each(|line| println!("  {}", short(line)));
    println!("{}", failure.difference);
    exit(1);
}
