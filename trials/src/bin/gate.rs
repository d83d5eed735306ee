//! `gate DIR` writes the console's stored script to DIR/stdin and what it has to be answered to DIR/stdout.

use std::path::Path;
use std::process::exit;
use trials::gate::gate;

fn main() -> std::io::Result<()> {
    let words: Vec<String> = std::env::args().skip(1).collect();
    let [dir] = &words[..] else {
        eprintln!("usage: gate DIR");
        exit(2);
    };
    let (script, answers) = gate();
    std::fs::write(Path::new(dir).join("stdin"), script)?;
    std::fs::write(Path::new(dir).join("stdout"), answers)
}
