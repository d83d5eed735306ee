//! A console's answers to a script, held to the plain store's.

use crate::console::{lines, Console};
use crate::language::{parse, text, Asked};
use crate::store::LAST_REFUSAL;

/// The first answer that is not the plain store's.
#[derive(Clone, PartialEq, Eq, Debug)]
pub struct Difference {
    /// Which line of the script it answers, from 0; past the end if it is an answer too many.
    pub line: usize,
    pub asked: String,
    pub expected: String,
    pub found: String,
}

impl std::fmt::Display for Difference {
    fn fmt(&self, f: &mut std::fmt::Formatter<'_>) -> std::fmt::Result {
        let Difference { line, asked, expected, found } = self;
        write!(f, "line {}: {}\n  expected {}\n  found    {}", line + 1, short(asked), short(expected), short(found))
    }
}

/// A line that can be looked at.
pub fn short(line: &str) -> String {
    match line.char_indices().nth(400) {
        Some((cut, _)) => format!("{} .. ({} bytes)", &line[..cut], line.len()),
        None => line.to_string(),
    }
}

/// What was compared.
#[derive(Clone, Default, PartialEq, Eq, Debug)]
pub struct Tally {
    pub answers: u64,
    /// Answers to calls of the store: no sum, peek or poke, no desks or help, and no line that is no call.
    pub calls: u64,
    /// How often each refusal number was answered, in batches too.
    pub refused: [u64; LAST_REFUSAL + 1],
}

impl Tally {
    fn count(&mut self, asked: &[u8], answer: &str) {
        self.answers += 1;
        let asked = parse(&text(asked));
        self.calls += u64::from(matches!(asked, Some(Asked::Open(_) | Asked::Call(_))) && answer != "what");
        for refusal in answer.split(" ; ").filter_map(|answer| answer.strip_prefix("no ")) {
            let number: usize = refusal.split(' ').next().unwrap().parse().unwrap();
            self.refused[number] += 1;
        }
    }

    pub fn add(&mut self, other: &Tally) {
        self.answers += other.answers;
        self.calls += other.calls;
        self.refused.iter_mut().zip(other.refused).for_each(|(one, more)| *one += more);
    }
}

/// The plain store's answers to a script, line by line; none to a line that has no answer.
pub fn expected(script: &[u8]) -> impl Iterator<Item = (&[u8], Option<String>)> {
    let mut console = Console::new();
    lines(script).map(move |line| (line, console.answer_bytes(line)))
}

/// What agrees, or what differs first.
pub fn compare(script: &[u8], answers: &[u8]) -> Result<Tally, Difference> {
    // With its newline, so that an answer cut short is none.
    let mut given = answers.split_inclusive(|byte| *byte == b'\n');
    let mut tally = Tally::default();
    for (line, (asked, answer)) in expected(script).enumerate() {
        let Some(answer) = answer else { continue };
        for expected in answer.split('\n') {
            let found = given.next();
            if found.and_then(|found| found.strip_suffix(b"\n")) != Some(expected.as_bytes()) {
                let asked = String::from_utf8_lossy(asked).into_owned();
                return Err(Difference { line, asked, expected: expected.to_string(), found: told(found) });
            }
        }
        tally.count(asked, &answer);
    }
    match given.next() {
        None => Ok(tally),
        extra => Err(Difference {
            line: lines(script).count(),
            asked: "after the last line".to_string(),
            expected: told(None),
            found: told(extra),
        }),
    }
}

fn told(answer: Option<&[u8]>) -> String {
    match answer {
        None => "no answer".to_string(),
        Some(line) => match line.strip_suffix(b"\n") {
            Some(whole) => String::from_utf8_lossy(whole).into_owned(),
            None => format!("{}, and no newline", String::from_utf8_lossy(line)),
        },
    }
}

#[cfg(test)]
mod tests {
    use super::*;

    const SCRIPT: &[u8] = b"make 1 1 1\nabort 9\n# a remark\nbegin\npeek hall 0 1\n";

    #[test]
    fn agreement() {
        let tally = compare(SCRIPT, b"ok\nno 5\nbegun 1 0\nbytes 01\n").unwrap();
        assert_eq!((tally.answers, tally.calls, tally.refused[5]), (4, 3, 1));
        assert_eq!(compare(b"", b""), Ok(Tally::default()));
        assert_eq!(compare(b"begin", b"no 1\n").unwrap().refused[1], 1);
    }

    #[test]
    fn differences() {
        for (answers, line) in [
            ("", 0),
            ("\nno 5\nbegun 1 0\nbytes 01\n", 0),
            ("ok\nok\nbegun 1 0\nbytes 01\n", 1),
            ("ok\nno 5\n\nbegun 1 0\nbytes 01\n", 3),
            ("ok\nno 5\nbegun 1 0\n", 4),
            ("ok\nno 5\nbegun 1 0\nbytes 01", 4),
            ("ok\nno 5\nbegun 1 0\nbytes 01\n\n", 5),
        ] {
            assert_eq!(compare(SCRIPT, answers.as_bytes()).unwrap_err().line, line, "{answers:?}");
        }
    }
}
