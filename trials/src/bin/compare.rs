//! `compare SCRIPT ANSWERS`: whether the answers that a console gave to a script are the plain store's. The first
//! line that differs is shown, and the exit status is 1.

use std::process::exit;
use trials::compare::compare;

fn main() {
    let names: Vec<String> = std::env::args().skip(1).collect();
    let [script, answers] = &names[..] else {
        eprintln!("usage: compare SCRIPT ANSWERS");
        exit(2);
    };
    let read = |name: &String| {
        std::fs::read(name).unwrap_or_else(|fault| {
            eprintln!("compare: {name}: {fault}");
            exit(2);
        })
    };
    let (script, answers) = (read(script), read(answers));
    match compare(&script, &answers) {
        Ok(tally) => println!("{} answers agree", tally.answers),
        Err(difference) => {
            println!("{difference}");
            exit(1);
        }
    }
}
