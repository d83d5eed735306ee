//! Random scripts through a console, each answer held to the plain store's.

use crate::compare::{compare, Difference, Tally};
use crate::console::lines;
use crate::script::script;
use crate::shrink::shrink;
use std::io::{self, Read, Write};
use std::process::{Command, Stdio};
use std::sync::mpsc;
use std::thread;
use std::time::Duration;

/// What a console wrote, and what is wrong with how it ended.
pub struct Heard {
    pub answers: Vec<u8>,
    pub fault: Option<String>,
}

/// Runs a command on a script. Input and output each have a thread of their own, so that neither waits for the other.
pub fn run(command: &[String], script: &[u8], patience: Duration) -> io::Result<Heard> {
    let mut console =
        Command::new(&command[0]).args(&command[1..]).stdin(Stdio::piped()).stdout(Stdio::piped()).spawn()?;
    let mut input = console.stdin.take().expect("its input is piped");
    let mut output = console.stdout.take().expect("its output is piped");
    thread::scope(|threads| {
        // A console that ends early breaks the pipe: its answers will show that.
        threads.spawn(move || drop(input.write_all(script)));
        let (done, heard) = mpsc::channel();
        threads.spawn(move || {
            let mut answers = Vec::new();
            let read = output.read_to_end(&mut answers);
            done.send((answers, read)).expect("somebody listens");
        });
        let in_time = heard.recv_timeout(patience).ok();
        let late = in_time.is_none();
        if late {
            console.kill()?;
        }
        let (answers, read) = in_time.unwrap_or_else(|| heard.recv().expect("somebody answers"));
        read?;
        let status = console.wait()?;
        let fault = match (late, status.success()) {
            (true, _) => Some(format!("still running after {} seconds", patience.as_secs())),
            (false, false) => Some(status.to_string()),
            (false, true) => None,
        };
        Ok(Heard { answers, fault })
    })
}

/// What agrees, or what differs first; an end that is not well is a difference too.
pub fn judge(script: &[u8], heard: &Heard) -> Result<Tally, Difference> {
    match (compare(script, &heard.answers), &heard.fault) {
        (agreed, None) => agreed,
        (Err(difference), Some(fault)) => {
            Err(Difference { found: format!("{} ({fault})", difference.found), ..difference })
        }
        (Ok(_), Some(fault)) => Err(Difference {
            line: lines(script).count(),
            asked: "after the last line".to_string(),
            expected: "a good end".to_string(),
            found: fault.clone(),
        }),
    }
}

/// A seed whose script is answered differently.
pub struct Failure {
    pub seed: u64,
    pub lines: usize,
    /// Whether it still is: then the script is made short.
    pub again: bool,
    /// The shortest script that was found, or the seed's own up to what differed; and what differs in it.
    pub script: String,
    pub difference: Difference,
}

/// Holds the console to the script of a seed.
pub fn try_seed(console: &dyn Fn(&[u8]) -> Heard, seed: u64, length: usize) -> Result<Tally, Difference> {
    let script = script(seed, length).into_bytes();
    judge(&script, &console(&script))
}

/// Makes the script of a failing seed short. Where the console now agrees, `seen` is all that is known of the failure.
pub fn blame(console: &dyn Fn(&[u8]) -> Heard, seed: u64, length: usize, seen: Difference) -> Failure {
    let differs = |script: &str| judge(script.as_bytes(), &console(script.as_bytes())).err();
    let long = script(seed, length);
    let lines = lines(long.as_bytes()).count();
    let shortened = || shrink(&long, |script| differs(script).map(|difference| difference.line));
    let again = differs(&long).map(|_| shortened()).and_then(|short| differs(&short).map(|now| (short, now)));
    match again {
        Some((script, difference)) => Failure { seed, lines, again: true, script, difference },
        None => {
            let script = long.split_inclusive('\n').take(seen.line + 1).collect();
            Failure { seed, lines, again: false, script, difference: seen }
        }
    }
}

#[cfg(test)]
mod tests {
    use super::*;
    use crate::compare::expected;
    use std::cell::Cell;

    fn answers(script: &[u8]) -> String {
        expected(script).filter_map(|(_, answer)| answer).map(|answer| answer + "\n").collect()
    }

    /// A console whose runs after the first `wrong` ones are right; what is told of a seed that it fails.
    fn told(wrong: u32) -> Failure {
        let left = Cell::new(wrong);
        let console = |script: &[u8]| {
            let right = answers(script);
            let differs = left.get() > 0;
            left.set(left.get().saturating_sub(1));
            Heard { answers: if differs { right.replace("sum ", "total ") } else { right }.into_bytes(), fault: None }
        };
        let seen = try_seed(&console, 1, 20).expect_err("its first run is wrong");
        blame(&console, 1, 20, seen)
    }

    /// However often it differed while the script was made short: what is told is what was seen first, with its script.
    #[test]
    fn what_does_not_differ_again_is_told() {
        let long = script(1, 20);
        for wrong in [1, 2, 4] {
            let failure = told(wrong);
            assert!(!failure.again && long.starts_with(&failure.script), "{}", failure.script);
            assert!(failure.difference.found.starts_with("total "), "{}", failure.difference.found);
            assert_eq!(lines(failure.script.as_bytes()).last().unwrap(), failure.difference.asked.as_bytes());
            assert_eq!(failure.difference.line + 1, lines(failure.script.as_bytes()).count());
        }
        let steady = told(u32::MAX);
        assert!(steady.again && steady.script.len() < long.len());
    }
}
