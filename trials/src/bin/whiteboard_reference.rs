//! Reads the whiteboard's script from standard input, has the plain store answer it, and prints the page that
//! crates/whiteboard must print. If an answer is not what the script demands, it prints those rows alone and fails.

use std::io::{self, Read};
use std::process::exit;
use trials::whiteboard::page;

fn main() -> io::Result<()> {
    let mut script = Vec::new();
    io::stdin().read_to_end(&mut script)?;
    let page = page(&script);
    if !page.not_right.is_empty() {
        eprintln!("{}", page.not_right.join("\n"));
        eprintln!("answers of the plain store that are not what the script demands: {}", page.not_right.len());
        exit(1);
    }
    print!("{}", page.text);
    Ok(())
}
