//! A script that is answered differently, made short.

mod batches;

use crate::console::Console;
use crate::language::{plain, words};
use batches::Batch;

/// What began a transaction: a line, and which of its records if it is a batch.
type Begun = (usize, usize);

struct Start {
    number: u64,
    begun: Begun,
}

impl Start {
    fn begun(starts: &[Start], number: u64) -> Option<Begun> {
        starts.iter().rev().find(|start| start.number == number).map(|start| start.begun)
    }

    fn now(starts: &[Start], begun: Begun) -> Option<u64> {
        starts.iter().find(|start| start.begun == begun).map(|start| start.number)
    }
}

struct Line {
    text: String,
    /// What began the start that it names.
    begun: Option<Begun>,
    batch: Option<Batch>,
}

/// The start that a line names.
fn start_of(line: &str) -> Option<u64> {
    let words = words(line);
    match words.first()?.to_ascii_lowercase().as_str() {
        "read" | "bytes" | "put" | "delete" | "commit" | "commitj" | "abort" => words.get(1)?.parse().ok(),
        _ => None,
    }
}

/// The same line with another start.
fn with_start(line: &str, start: u64) -> String {
    let word = words(line)[1];
    let at = word.as_ptr() as usize - line.as_ptr() as usize;
    format!("{}{start}{}", &line[..at], &line[at + word.len()..])
}

/// What the plain store answers to `begin`.
fn start_begun(answer: &str) -> Option<u64> {
    answer.strip_prefix("begun ")?.split(' ').next()?.parse().ok()
}

impl Line {
    /// What the line began; sums and peeks change nothing, and are not asked.
    fn hear(&self, console: &mut Console, place: usize, text: &str) -> Vec<Start> {
        if text.starts_with("sum ") || text.starts_with("peek ") {
            return Vec::new();
        }
        let answer = console.answer(text).unwrap_or_default();
        let answers = answer.strip_prefix("batch ").and_then(|rest| rest.split_once(" ; ")).map(|(_, all)| all);
        let begins = answers.unwrap_or(&answer).split(" ; ").enumerate();
        let name = |record| self.batch.as_ref().map_or(record, |batch| batch.first_place(record));
        begins.filter_map(|(i, one)| Some(Start { number: start_begun(one)?, begun: (place, name(i)) })).collect()
    }
}

fn read(script: &str) -> Vec<Line> {
    let mut console = Console::new();
    let mut starts: Vec<Start> = Vec::new();
    let mut lines = Vec::new();
    for (place, text) in script.split_inclusive('\n').enumerate() {
        let text = text.strip_suffix('\n').unwrap_or(text).to_string();
        let begun = start_of(&text).and_then(|start| Start::begun(&starts, start));
        let line = Line { batch: Batch::read(&text, &starts), text, begun };
        starts.extend(line.hear(&mut console, place, &line.text));
        lines.push(line);
    }
    lines
}

/// The script of the lines at these places. A start is the one that its begin gives now.
fn write(lines: &[Line], places: &[usize]) -> String {
    let mut console = Console::new();
    let mut starts: Vec<Start> = Vec::new();
    let mut script = String::new();
    for place in places {
        let line = &lines[*place];
        let now = line.begun.and_then(|begun| Start::now(&starts, begun));
        let text = match (&line.batch, now) {
            (Some(batch), _) => batch.text(&starts),
            (None, Some(now)) => with_start(&line.text, now),
            (None, None) => line.text.clone(),
        };
        starts.extend(line.hear(&mut console, *place, &text));
        script += &text;
        script += "\n";
    }
    script
}

/// As short and plain a script as can be had that is still answered differently. `differs` says at which line, from 0.
pub fn shrink(script: &str, differs: impl Fn(&str) -> Option<usize>) -> String {
    let plain: String =
        script.split_inclusive('\n').map(|line| plain(line.strip_suffix('\n').unwrap_or(line)) + "\n").collect();
    let mut short = take_away(if differs(&plain).is_some() { &plain } else { script }, &differs);
    while let Some(next) = make_for_load(&short, &differs).or_else(|| fewer_records(&short, &differs)) {
        short = take_away(&next, &differs);
    }
    short
}

/// Takes lines away, all, by halves, quarters and so on down to single ones.
fn take_away(script: &str, differs: &impl Fn(&str) -> Option<usize>) -> String {
    let lines = read(script);
    let mut places: Vec<usize> = (0..lines.len()).collect();
    let mut size = places.len().max(1);
    loop {
        let mut shorter = false;
        let mut at = 0;
        while at < places.len() {
            let end = (at + size).min(places.len());
            let mut left = [&places[..at], &places[end..]].concat();
            match differs(&write(&lines, &left)) {
                Some(line) => {
                    // What comes after does not matter any more.
                    left.truncate(line + 1);
                    places = left;
                    shorter = true;
                }
                None => at = end,
            }
        }
        if size == 1 && !shorter {
            return write(&lines, &places);
        }
        size = (size / 2).max(1);
    }
}

/// The script with an empty store where it had a load, if there is one that doesn't matter.
fn make_for_load(script: &str, differs: &impl Fn(&str) -> Option<usize>) -> Option<String> {
    let mut lines = read(script);
    let places: Vec<usize> = (0..lines.len()).collect();
    for at in 0..lines.len() {
        let load = lines[at].text.clone();
        let words: Vec<&str> = load.split(' ').collect();
        if let ["load", _, sizes @ ..] = &words[..] {
            lines[at].text = format!("make {}", sizes.join(" "));
            let plain = write(&lines, &places);
            if differs(&plain).is_some() {
                return Some(plain);
            }
            lines[at].text = load;
        }
    }
    None
}

/// The script with fewer records in a batch, if there is one that can lose some.
fn fewer_records(script: &str, differs: &impl Fn(&str) -> Option<usize>) -> Option<String> {
    let mut lines = read(script);
    let places: Vec<usize> = (0..lines.len()).collect();
    for at in 0..lines.len() {
        let Some(batch) = lines[at].batch.clone() else { continue };
        let shorter = batch.shortened(|next| {
            lines[at].batch = Some(next.clone());
            differs(&write(&lines, &places)).is_some()
        });
        let found = shorter.is_some();
        lines[at].batch = shorter.or(Some(batch));
        if found {
            return Some(write(&lines, &places));
        }
    }
    None
}

#[cfg(test)]
mod tests {
    use super::*;
    use crate::batch::{Record, Who};
    use crate::language::hex;

    #[test]
    fn starts_follow_their_begin() {
        let script = "make 1 1 2\nbegin\nbegin\nput 2 41 07\ncounts\ncommit 2\nabort 2\nsum hall\n";
        // As if every commit with a number were answered wrongly.
        let differs = |script: &str| {
            let mut console = Console::new();
            script.lines().position(|line| console.answer(line).is_some_and(|answer| answer.starts_with("committed")))
        };
        assert_eq!(differs(script), Some(5));
        assert_eq!(shrink(script, differs), "make 1 1 2\nbegin\nput 1 41 07\ncommit 1\n");
    }

    /// A batch loses records too; its starts and its places follow their begins, and so do later lines.
    #[test]
    fn batches_lose_records() {
        let batch = |records: &[Record], rest: &str| {
            let bytes: Vec<u8> = records.iter().flat_map(Record::bytes).collect();
            format!("batch {}{rest} full\n", hex(&bytes))
        };
        let put = |who| Record::Put { who, key: b"A".to_vec(), value: vec![7] };
        let commit = |who| Record::Commit { who };
        let place = Who::Place;
        let script = [
            "make 2 4 4\nbegin\nbegin\n".to_string(),
            batch(
                &[Record::Sweep { limit: 0 }, commit(Who::Start(1)), Record::Begin, Record::Begin, put(place(3))],
                "",
            ),
            batch(&[Record::Begin, put(Who::Start(2)), Record::Abort { who: place(0) }, commit(Who::Start(2))], ""),
            "abort 3\n".to_string(),
            batch(&[commit(Who::Start(4)), Record::Begin], "4c17"),
            "commit 4\n".to_string(),
        ]
        .concat();
        // As if conflicts were answered wrongly.
        let differs = |script: &str| {
            let mut console = Console::new();
            script.lines().position(|line| console.answer(line).is_some_and(|answer| answer.contains("no 9")))
        };
        assert_eq!(differs(&script), Some(7));
        let short = [
            "make 2 4 4\n".to_string(),
            batch(&[Record::Begin, Record::Begin, put(place(1))], ""),
            batch(&[put(Who::Start(1)), commit(Who::Start(1))], ""),
            "commit 2\n".to_string(),
        ]
        .concat();
        assert_eq!(shrink(&script, differs), short);
        // Of what is refused, no more than it takes.
        let script = batch(&[Record::Begin, Record::Begin, commit(place(1))], "4c174c104c10");
        let reserved = |script: &str| script.lines().position(|line| line.contains("4c17"));
        assert_eq!(shrink(&script, reserved), "batch 4c17 full\n");
    }

    /// Lines are made plain, if it does not matter how they were typed.
    #[test]
    fn typed_lines() {
        let script = "make 1 1 2\r\n Begin\nBEGIN\t\nPut\t2  'a  4A \nabort 2\n";
        let a_put = |script: &str| script.lines().position(|line| line.to_ascii_lowercase().starts_with("put"));
        assert_eq!(shrink(script, a_put), "put 2 'a 4a\n");
        let typed_so = |script: &str| {
            let mut console = Console::new();
            script
                .split('\n')
                .position(|line| console.answer(line).as_deref() == Some("ok") && line.starts_with("Put\t"))
        };
        assert_eq!(shrink(script, typed_so), "make 1 1 2\r\nBEGIN\t\nPut\t1  'a  4A \n");
    }

    #[test]
    fn loads_become_makes() {
        let script = "load 4453454d56434331feffffffffffffff00000000 4 8 2\nbegin\nput 18446744073709551614 41 07\n";
        let differs = |script: &str| script.lines().position(|line| line.starts_with("put 1"));
        assert_eq!(shrink(script, differs), "put 18446744073709551614 41 07\n");
        let differs = |script: &str| {
            let mut console = Console::new();
            script.lines().position(|line| console.answer(line) == Some("ok".to_string()) && line.starts_with("put"))
        };
        assert_eq!(shrink(script, differs), "make 4 8 2\nbegin\nput 1 41 07\n");
    }

    #[test]
    fn to_nothing() {
        assert_eq!(shrink("begin\ncounts\n", |_| Some(0)), "");
    }
}
