//! What the program `hb` does. Each command is a function of dumps, or of a journal, that writes its page.

pub mod check;
mod command;
pub mod diff;
pub mod journal;
pub mod show;
mod words;

use command::{Command, USAGE};
use hourbracken::dump::{Dump, Fault};
use hourbracken::picture::Picture;
use std::ffi::{OsStr, OsString};
use std::fs::File;
use std::io::{self, BufWriter, ErrorKind, Read, Write};

/// How it ends.
#[derive(Clone, Copy, PartialEq, Eq, Debug)]
pub enum Exit {
    Done,
    /// The dump is refused, the two differ, or the journal is not whole.
    No,
    /// The command is none, or something could not be read or written.
    Failed,
}

/// Runs the command that the arguments say.
pub fn run(arguments: &[OsString], input: &mut dyn Read, out: &mut dyn Write, err: &mut dyn Write) -> Exit {
    let command = match Command::of(arguments) {
        Ok(command) => command,
        Err(why) => {
            let _ = writeln!(err, "hb: {why}; hb --help says what it does");
            return Exit::Failed;
        }
    };
    let mut out = BufWriter::new(out);
    match perform(&command, input, &mut out, err).and_then(|exit| out.flush().map(|()| exit)) {
        Ok(exit) => exit,
        Err(why) => {
            // a reader that has seen enough, as `head`, is no news
            if why.kind() != ErrorKind::BrokenPipe {
                let _ = writeln!(err, "hb: {why}");
            }
            Exit::Failed
        }
    }
}

fn perform(command: &Command, input: &mut dyn Read, out: &mut dyn Write, err: &mut dyn Write) -> io::Result<Exit> {
    match command {
        Command::Help => out.write_all(USAGE.as_bytes()).map(|()| Exit::Done),
        Command::Version => writeln!(out, "hb {}", env!("CARGO_PKG_VERSION")).map(|()| Exit::Done),
        Command::Show { file, json } => {
            let bytes = read(file, input)?;
            let fault = if *json { show::json(&bytes, out)? } else { show::table(&bytes, &name(file), out)? };
            refused(fault, file, out, err)
        }
        Command::Check { file, rooms: (keys, versions) } => {
            let bytes = read(file, input)?;
            check::verdict(&bytes, *keys, *versions, &name(file), out)
        }
        Command::Diff { a, b } => {
            let (bytes, other) = (read(a, input)?, read(b, input)?);
            match (Dump::read(&bytes), Dump::read(&other)) {
                (Ok(before), Ok(after)) => diff::page(&before, &after, out),
                (Err(fault), _) => refused(Some(fault), a, out, err),
                (_, Err(fault)) => refused(Some(fault), b, out, err),
            }
        }
        Command::Journal { file, dump } => {
            let counter = match dump {
                Some(dump) => match Dump::read(&read(dump, input)?) {
                    Ok(read) => read.counter(),
                    Err(fault) => return refused(Some(fault), dump, out, err),
                },
                None => 0,
            };
            journal::page(&read(file, input)?, counter, &name(file), out)
        }
        Command::Picture { file, floor, starts, title } => {
            let bytes = read(file, input)?;
            let dump = match Dump::read(&bytes) {
                Ok(dump) => dump,
                Err(fault) => return refused(Some(fault), file, out, err),
            };
            let named = name(file);
            let picture = Picture::new(dump).title(title.as_deref().unwrap_or(&named)).starts(starts);
            write!(out, "{}", floor.map_or(picture, |floor| picture.floor(floor)))?;
            Ok(Exit::Done)
        }
    }
}

/// Says the fault, after what is written already.
fn refused(fault: Option<Fault>, file: &OsStr, out: &mut dyn Write, err: &mut dyn Write) -> io::Result<Exit> {
    let Some(fault) = fault else { return Ok(Exit::Done) };
    out.flush()?;
    writeln!(err, "{}: {}", name(file), check::words(&fault))?;
    Ok(Exit::No)
}

fn name(file: &OsStr) -> String {
    if file == "-" {
        return "standard input".to_owned();
    }
    file.to_string_lossy().into_owned()
}

fn read(file: &OsStr, input: &mut dyn Read) -> io::Result<Vec<u8>> {
    let mut bytes = Vec::new();
    if file == "-" {
        input.read_to_end(&mut bytes)
    } else {
        File::open(file).and_then(|mut opened| opened.read_to_end(&mut bytes))
    }
    .map_err(|why| io::Error::new(ErrorKind::Other, format!("{}: {why}", name(file))))?;
    Ok(bytes)
}
