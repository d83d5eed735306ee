//! The console's stored script: every rule of docs/RULES.md that a console can show, with remarks. What it has to be
//! answered is the plain store's.

mod batches;
mod loads;
mod memory;

use crate::compare::expected;
use crate::console::Console;
use crate::language::hex;
use crate::store::{DESKS_MAX, WRITES_MAX};

/// The script, and what a console has to answer.
pub fn gate() -> (String, String) {
    let script = [
        include_str!("gate/calls.txt"),
        &desks(),
        &writes(),
        &clashes(),
        include_str!("gate/rooms.txt"),
        include_str!("gate/journals.txt"),
        &batches::batches(),
        &loads::cut(),
        &loads::malformed(),
        &loads::too_big(),
        &round_trip(),
        &memory::unsound_hall(),
        &memory::unsound_desks(),
        &memory::of_no_account(),
        include_str!("gate/lines.txt"),
    ]
    .concat();
    let answers = expected(script.as_bytes()).filter_map(|(_, answer)| answer).map(|answer| answer + "\n").collect();
    (script, answers)
}

fn desks() -> String {
    let begins = "begin\n".repeat(DESKS_MAX as usize);
    format!(
        "# All 64 desks, then 6. The sixth is freed, and the next begin takes it.\n\
         make 1 1 64\n{begins}begin\ncounts\nsum hall\nsum desk\nabort 6\ncounts\nbegin\nbegin\nsum desk\n\
         # The first and the last desk.\nabort 64\nabort 1\nbegin\nbegin\ncommit 67\nsum desk\n\
         # As many desks as were chosen, then 6: one, two, and 63. What a larger store left behind them stays.\n\
         make 1 1 1\nsum hall\nsum desk\nbegin\nbegin\nabort 1\nbegin\nsum desk\n\
         make 1 1 2\nbegin\nbegin\nbegin\nabort 1\nbegin\nsum hall\nsum desk\n\
         load 4453454d56434331010000000000000000000000 1 1 63\n{begins}counts\nsum hall\nsum desk\ndump 20\n"
    )
}

fn writes() -> String {
    let mut script = "# Sixteen keys; a seventeenth is 7, a held one is not.\nmake 20 40 64\nbegin\n".to_string();
    for i in 0..WRITES_MAX {
        // Neither ascending nor descending.
        script += &format!("put 1 {} {i:02x}\n", hex(&[b'a' + (i * 7 % WRITES_MAX) as u8]));
    }
    script
        + "put 1 71 -\ndelete 1 71\nsum desk\ndelete 1 61\nput 1 70 ff\nread 1 61\nread 1 62\nread 1 70\nread 1 71\n\
           sum desk\ncommit 1\ncounts\nnewest 61\nnewest 70\ndump 2000\n"
}

/// Sixteen keys written by two, the second in the other order.
fn clashes() -> String {
    let mut script =
        "# All keys that clash are named, by ascending key: sixteen, one of three, none.\nmake 20 40 64\n".to_string();
    script += &"begin\n".repeat(4);
    let letters = |start: u64, byte: fn(u8) -> u8| -> String {
        (0..WRITES_MAX as u8).map(|i| format!("put {start} {} {i:02x}\n", hex(&[byte(i)]))).collect()
    };
    script += &letters(1, |i| b'a' + i);
    script += "commit 1\nbegin\ndelete 6 62\ncommit 6\nsum hall\n";
    script += &letters(2, |i| b'p' - i);
    script
        + "commit 2\nsum hall\nsum desk\nput 3 72 -\nput 3 70 -\nput 3 71 -\ncommit 3\n\
           put 4 72 -\nput 4 71 -\ncommit 4\ncounts\nsum hall\nsum desk\n"
}

/// Two transactions commit, one stays open; what is dumped is loaded again.
fn round_trip() -> String {
    let run =
        "make 3 4 8\nbegin\nput 1 4131 aa\ncommit 1\nbegin\nput 3 4131 -\ndelete 3 42\ncommit 3\nsweep 4\nbegin\n\
               put 5 4131 bb\ncounts\n";
    let mut console = Console::new();
    run.lines().for_each(|line| drop(console.answer(line)));
    let dump = console.answer("dump 100").expect("it is a call").replace("dump ", "");
    format!(
        "# What is loaded again into the same sizes has the same hall; open transactions are not in a dump.\n\
         {run}sum hall\nsum desk\ndump 100\nload {dump} 3 4 8\nsum hall\nsum desk\ncounts\ndump 100\n"
    )
}

#[cfg(test)]
mod tests {
    use super::*;
    use crate::store::LAST_REFUSAL;
    use std::collections::BTreeMap;

    #[test]
    fn every_answer_is_met() {
        let mut met: BTreeMap<String, u64> = BTreeMap::new();
        for answer in gate().1.lines() {
            let words: Vec<&str> = answer.split(' ').collect();
            let name = if words[0] == "no" { words[..2].join(" ") } else { words[0].to_string() };
            *met.entry(name).or_default() += 1;
        }
        println!("{met:?}");
        let others =
            "ok begun own hall none bytes committed closed swept swept2 counts dump replayed batch sum what desk desks #";
        for name in (1..=LAST_REFUSAL).map(|number| format!("no {number}")).chain(others.split(' ').map(String::from)) {
            assert!(met.contains_key(&name), "{name} is never answered");
        }
    }

    /// Places that a remark calls not sound are not, and what was poked is poked back.
    #[test]
    fn pokes_are_unsound() {
        let mut console = Console::new();
        let mut poked = false;
        for line in (memory::unsound_hall() + &memory::unsound_desks()).lines() {
            let answer = console.answer(line);
            poked ^= line.starts_with("poke");
            if line == "counts" {
                assert_eq!(answer.as_deref(), Some(if poked { "no 1" } else { "counts 2 3 2" }), "{line}");
            }
        }
        assert!(!poked);
    }
}
