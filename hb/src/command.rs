//! The command line.

use hourbracken::{Start, MAX_KEY_ROOMS, MAX_VERSION_ROOMS};
use std::ffi::{OsStr, OsString};

pub const USAGE: &str = "\
hb looks into a dump or a journal of the seat store.

  hb show FILE [--json]                    every key with its versions
  hb check FILE [--rooms KEYS VERSIONS]    would a load accept it? if not, what is wrong, and where
  hb diff A B                              what the store did from A to B, key by key
  hb picture FILE [--floor N] [--starts N,N..] [--title TEXT] > hall.svg
  hb journal FILE [--dump DUMP]            every record of a journal, and where and why they end
  hb --help | --version

A file - is standard input. Without --rooms a dump is checked for the largest store. With --dump
the journal goes on from that dump: its numbers are above the dump's counter.
Exit status: 0; 1 if the dump is refused, the two differ or the journal is cut or refused; 2 if the
command is not one of these, or something could not be read or written.
";

pub enum Command {
    Help,
    Version,
    Show { file: OsString, json: bool },
    Check { file: OsString, rooms: (usize, usize) },
    Diff { a: OsString, b: OsString },
    Journal { file: OsString, dump: Option<OsString> },
    Picture { file: OsString, floor: Option<u64>, starts: Vec<Start>, title: Option<String> },
}

/// The arguments after the command's name: files, and options with what belongs to them.
struct Rest {
    words: Vec<OsString>,
}

impl Rest {
    /// Takes an option out, with so many words after it.
    fn option(&mut self, name: &str, words: usize) -> Result<Option<Vec<OsString>>, String> {
        let Some(at) = self.words.iter().position(|word| word == name) else { return Ok(None) };
        if self.words.len() <= at + words {
            let plural = if words == 1 { "" } else { "s" };
            return Err(format!("{name} has {words} word{plural} after it"));
        }
        Ok(Some(self.words.drain(at..=at + words).skip(1).collect()))
    }

    /// What is left: the files.
    fn files<const N: usize>(self) -> Result<[OsString; N], String> {
        let is_option = |word: &&OsString| word.to_string_lossy().starts_with('-') && *word != "-";
        if let Some(option) = self.words.iter().find(is_option) {
            return Err(format!("{} is no option here", option.to_string_lossy()));
        }
        <[OsString; N]>::try_from(self.words).map_err(|words| {
            let plural = if N == 1 { "" } else { "s" };
            format!("it takes {N} file{plural} and has {}", words.len())
        })
    }
}

fn number<T: std::str::FromStr>(word: &OsStr) -> Result<T, String> {
    let text = word.to_string_lossy();
    let digits = text.bytes().all(|byte| byte.is_ascii_digit());
    text.parse().ok().filter(|_| digits).ok_or_else(|| format!("{text} is no number that can be meant here"))
}

impl Command {
    pub fn of(arguments: &[OsString]) -> Result<Command, String> {
        let Some((name, rest)) = arguments.split_first() else { return Err("what is to be done?".to_owned()) };
        let mut rest = Rest { words: rest.to_vec() };
        if rest.option("--help", 0)?.is_some() {
            return Ok(Command::Help);
        }
        match name.to_str() {
            Some("--help" | "-h" | "help") => Ok(Command::Help),
            Some("--version") => Ok(Command::Version),
            Some("show") => show(rest),
            Some("check") => check(rest),
            Some("diff") => diff(rest),
            Some("picture") => picture(rest),
            Some("journal") => journal(rest),
            _ => Err(format!("{} is none of its commands", name.to_string_lossy())),
        }
    }
}

fn show(mut rest: Rest) -> Result<Command, String> {
    let json = rest.option("--json", 0)?.is_some();
    let [file] = rest.files()?;
    Ok(Command::Show { file, json })
}

fn check(mut rest: Rest) -> Result<Command, String> {
    let rooms = match rest.option("--rooms", 2)? {
        Some(words) => (number(&words[0])?, number(&words[1])?),
        None => (MAX_KEY_ROOMS, MAX_VERSION_ROOMS),
    };
    let [file] = rest.files()?;
    Ok(Command::Check { file, rooms })
}

fn diff(rest: Rest) -> Result<Command, String> {
    let [a, b] = rest.files()?;
    if a == "-" && b == "-" {
        return Err("only one of the two can be standard input".to_owned());
    }
    Ok(Command::Diff { a, b })
}

fn journal(mut rest: Rest) -> Result<Command, String> {
    let dump = rest.option("--dump", 1)?.map(|mut words| words.remove(0));
    let [file] = rest.files()?;
    if file == "-" && dump.as_deref() == Some(OsStr::new("-")) {
        return Err("only one of the two can be standard input".to_owned());
    }
    Ok(Command::Journal { file, dump })
}

fn picture(mut rest: Rest) -> Result<Command, String> {
    let floor = rest.option("--floor", 1)?.map(|words| number(&words[0])).transpose()?;
    let mut starts = Vec::new();
    if let Some(words) = rest.option("--starts", 1)? {
        for word in words[0].to_string_lossy().split(',') {
            starts.push(Start::from_number(number(OsStr::new(word))?));
        }
    }
    let title = rest.option("--title", 1)?.map(|words| words[0].to_string_lossy().into_owned());
    let [file] = rest.files()?;
    Ok(Command::Picture { file, floor, starts, title })
}
