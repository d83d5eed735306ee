//! `script SEED [LINES]`: an adversarial console script on standard output. `script coverage SEEDS`: how often the
//! scripts of the first seeds are answered each refusal number, and each other answer by its first word.

use std::process::exit;
use trials::script::{coverage, script};

const LINES: usize = 200;

fn main() {
    let words: Vec<String> = std::env::args().skip(1).collect();
    let number = |i: usize| words.get(i).and_then(|word| word.parse::<u64>().ok());
    match (words.len(), number(0), number(1)) {
        (1, Some(seed), _) => print!("{}", script(seed, LINES)),
        (2, Some(seed), Some(lines)) => print!("{}", script(seed, lines as usize)),
        (2, None, Some(seeds)) if words[0] == "coverage" => println!("{:?}", coverage(0..seeds, LINES)),
        _ => {
            eprintln!("usage: script SEED [LINES], or script coverage SEEDS");
            exit(2);
        }
    }
}
