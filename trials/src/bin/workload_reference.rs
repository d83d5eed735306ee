//! Seven decimal lines on standard input, the workload's dump on standard output.

use std::io::{self, Read, Write};
use trials::workload::{Workload, OTHER};

fn main() -> io::Result<()> {
    let mut input = Vec::new();
    io::stdin().read_to_end(&mut input)?;
    match Workload::read(&input) {
        Some(workload) => io::stdout().write_all(&workload.run()),
        None => io::stdout().write_all(format!("{OTHER}\n").as_bytes()),
    }
}
