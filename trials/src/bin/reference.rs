//! The console's language over the plain store, standard input to standard output.

use std::io::{self, BufRead, Write};
use trials::console::Console;

fn main() -> io::Result<()> {
    let mut console = Console::new();
    let mut out = io::stdout().lock();
    for line in io::stdin().lock().split(b'\n') {
        if let Some(answer) = console.answer_bytes(&line?) {
            writeln!(out, "{answer}")?;
        }
        if console.ended() {
            break;
        }
    }
    out.flush()
}
