//! `programs CRATES`: the programs that are built in the folder of crates on inputs that are no ordinary ones. See
//! trials/README.md.

use std::process::exit;
use std::time::{Duration, Instant};
use trials::programs::{faults, Program};
use trials::trial::run;

/// How long a program may take for one input.
const PATIENCE: Duration = Duration::from_secs(120);

fn main() {
    let words: Vec<String> = std::env::args().skip(1).collect();
    let [crates] = &words[..] else {
        eprintln!("usage: programs CRATES");
        exit(2);
    };
    let began = Instant::now();
    let mut differ = 0;
    let mut tried = 0;
    for program in Program::ALL {
        let name = program.name();
        let command = [format!("{crates}/{name}/out/{name}")];
        let (faults, inputs) = faults(program, &|input| {
            run(&command, input, PATIENCE).unwrap_or_else(|fault| {
                eprintln!("programs: {}: {fault}", command[0]);
                exit(2);
            })
        });
        if let Some(first) = faults.first() {
            println!("programs: {name} answers {} of {inputs} inputs otherwise", faults.len());
            println!("programs: the first is {}\n{}", first.what, first.told);
        }
        differ += faults.len();
        tried += inputs;
    }
    let seconds = began.elapsed().as_secs();
    println!(
        "programs: {} of {tried} inputs that are no ordinary ones agree, {differ} differ; {seconds} s",
        tried - differ
    );
    exit(i32::from(differ > 0));
}
