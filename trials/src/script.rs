//! Seeded adversarial console scripts: random calls, and what only the console has: sums, peeks, bytes changed as a
//! fault would, lines that are no call, calls as a person may type them. Every accepted dump is loaded again.

use crate::call::Opening;
use crate::compare::expected;
use crate::console::Console;
use crate::language::{call_by, hex, letters, opening_text, sizes_text, Which};
use crate::layout::{desk_length, hall_length, Held, HALL_HEADER};
use crate::poke::Poke;
use crate::random::{Gen, Theme};
use crate::rng::SplitMix64;
use std::collections::BTreeMap;
use std::ops::Range;

/// As long as a line of a random script is that might be a call.
const LONG: usize = 262_144;

struct Writer {
    gen: Gen,
    console: Console,
    text: String,
    lines: usize,
    /// Bytes that are still to be changed back, last changed last.
    poked: Vec<Poke>,
    /// Sums are asked after one of so many calls that are not refused.
    sums: usize,
    /// How lines are typed.
    hand: SplitMix64,
}

/// A console script of about `length` lines.
pub fn script(seed: u64, length: usize) -> String {
    let mut rng = SplitMix64::new(seed ^ 0x5eed << 48);
    let mut gen = match rng.chance(1, 24) {
        true => Gen::about(Theme::Large, rng),
        false if rng.chance(1, 6) => Gen::about(Theme::Batches, rng),
        false => Gen::new(seed),
    };
    gen.batches = true;
    let hand = SplitMix64::new(seed ^ 0x4a4d << 48);
    let (console, text) = (Console::new(), String::new());
    let mut writer = Writer { gen, console, text, lines: 0, poked: Vec::new(), sums: 0, hand };
    writer.sums = writer.gen.rng.pick(&[4, 16, 64]);
    // Met by memory that holds nothing.
    for _ in 0..writer.gen.rng.below(4) {
        writer.call();
    }
    let opening = writer.gen.next_opening();
    writer.open(opening);
    while writer.lines < length {
        writer.step();
    }
    writer.end()
}

impl Writer {
    /// Adds a line, with its answer. Sums and peeks change nothing, and nobody asks here what they say.
    fn add(&mut self, line: &str) -> String {
        let text = if self.hand.chance(1, 8) { self.typed(line) } else { line.to_string() };
        self.text += &text;
        self.text += "\n";
        self.lines += 1;
        if line.starts_with("sum ") || line.starts_with("peek ") {
            return String::new();
        }
        self.console.answer(&text).unwrap_or_default()
    }

    /// The line as a person may type it: other blanks, some letters in upper case, the largest number left out.
    fn typed(&mut self, line: &str) -> String {
        let rng = &mut self.hand;
        let calls = ["sweep", "sweep2", "dump"];
        let short = line.strip_suffix(&format!(" {}", u64::MAX)).filter(|verb| calls.contains(verb));
        let blanks = ["", " ", "\t", "  ", "\t ", " \t\t "];
        let case = rng.pick(&[0, 1, 3]);
        let mut text = String::new();
        for (place, word) in short.unwrap_or(line).split(' ').enumerate() {
            text += rng.pick(&blanks[usize::from(place > 0)..]);
            // A key's own letters stay as they are.
            let case = if word.starts_with('\'') { 0 } else { case };
            text.extend(word.chars().map(|c| if rng.chance(case, 3) { c.to_ascii_uppercase() } else { c }));
        }
        text + rng.pick(&blanks) + rng.pick(&["", "", "\r"])
    }

    fn step(&mut self) {
        if !self.poked.is_empty() && self.gen.rng.chance(1, 2) {
            return self.poke_back();
        }
        // A byte changed back may meet other content by then, and nothing is sound any more.
        let lost = self.poked.is_empty() && !matches!(self.console.held(), Held::Both(_));
        let often = match self.gen.theme {
            _ if lost || self.gen.stuck() => 24,
            Theme::Loads => 24,
            _ => 2 * usize::from(!self.gen.calm),
        };
        if self.hand.chance(1, 50) {
            self.add("desks");
        }
        // What was done since some dump is lost, and done again from its journal.
        let lost_often = match self.gen.theme {
            Theme::Journals => 20,
            _ if self.gen.calm => 2,
            _ => 6,
        };
        if self.gen.idle() && self.gen.rng.chance(lost_often, 200) {
            if let Some(opening) = self.gen.next_recovery() {
                return self.open(opening);
            }
        }
        match self.gen.rng.below(100) {
            0..=1 => self.no_call(),
            2..=3 => self.peek(),
            4..=6 => self.poke(),
            7..=9 if self.gen.idle() => {
                let opening = self.gen.next_fault();
                self.open(opening);
            }
            n if n <= 9 + often && self.gen.idle() => {
                let opening = self.gen.next_opening();
                self.open(opening);
            }
            _ => self.call(),
        }
    }

    fn call(&mut self) {
        let call = self.gen.next_call();
        let word = self.gen.rng.pick(&[hex, hex, letters]);
        let answer = self.add(&call_by(word, &call));
        match answer.strip_prefix("dump ") {
            Some(dump) => self.round_trip(dump),
            None => self.look(&answer),
        }
    }

    fn open(&mut self, opening: Opening) {
        let answer = self.add(&opening_text(&opening));
        if answer == "ok" {
            self.poked.clear();
        }
        self.follow_memory();
        self.look(&answer);
    }

    /// Loads a dump into the sizes that it came from.
    fn round_trip(&mut self, dump: &str) {
        let (Held::Hall(store) | Held::Both(store)) = self.console.held() else { return };
        let line = format!("load {dump} {}", sizes_text(store.sizes));
        if line.len() <= LONG {
            self.add(&line);
            self.poked.clear();
            self.follow_memory();
            self.sums();
        }
    }

    /// The memories' sums tell whether a refusal left every byte, so each is followed by them, and so is
    /// each replay and each batch; other calls now and then.
    fn look(&mut self, answer: &str) {
        if ["no ", "replayed ", "batch "].iter().any(|word| answer.starts_with(word)) {
            return self.sums();
        }
        if !self.gen.rng.chance(1, self.sums) {
            return;
        }
        match self.console.held() {
            Held::Both(store) if self.gen.rng.chance(1, 2) => {
                // Sooner told than a sum, where the hall is small.
                let needed = hall_length(store.sizes);
                self.add(&format!("peek hall 0 {}", needed.min(2_000)));
                self.add("sum desk");
            }
            _ => self.sums(),
        }
    }

    fn sums(&mut self) {
        self.add("sum hall");
        self.add("sum desk");
    }

    fn peek(&mut self) {
        let which = self.gen.rng.pick(&[Which::Hall, Which::Desk]);
        let length = self.console.memory(which).len();
        let needed = match (which, self.console.held()) {
            (Which::Hall, Held::Hall(store) | Held::Both(store)) => hall_length(store.sizes),
            (Which::Hall, Held::Nothing) => HALL_HEADER,
            (Which::Desk, Held::Hall(store) | Held::Both(store)) => desk_length(store.sizes.desks),
            (Which::Desk, Held::Nothing) => desk_length(1),
        };
        let (from, count) = match self.gen.rng.below(8) {
            0 => (0, HALL_HEADER as u64),
            1 => (needed as u64 - 8, 16),
            2 => (length as u64 - 3, self.gen.rng.pick(&[2, 3, 4])),
            3 => (length as u64, self.gen.rng.pick(&[0, 1])),
            4 => (self.gen.rng.pick(&[u64::MAX, 1 << 32, 1 << 63]), self.gen.rng.pick(&[1, 2, u64::MAX])),
            _ => (self.gen.rng.below(needed) as u64, 1 + self.gen.rng.below(100) as u64),
        };
        self.add(&format!("peek {} {from} {count}", which.name()));
    }

    /// A byte is changed. If what it gives is sound too, the run may go on with that.
    fn poke(&mut self) {
        let poke = Poke::random(&mut self.gen.rng, &self.console);
        self.add(&poke.text());
        self.follow_memory();
        let sound = matches!(self.console.held(), Held::Both(_));
        if !(sound && self.gen.rng.chance(1, 2)) {
            self.poked.push(poke);
        }
        if self.gen.rng.chance(1, 4) {
            self.sums();
        }
    }

    fn poke_back(&mut self) {
        if let Some(poke) = self.poked.pop() {
            self.add(&poke.back_text());
            self.follow_memory();
        }
    }

    /// The generator aims by what the memories say; where they say nothing, by what they said before.
    fn follow_memory(&mut self) {
        if let Held::Both(store) = self.console.held() {
            self.gen.store = Some(store.clone());
        }
    }

    fn no_call(&mut self) {
        let line = match self.gen.rng.below(80) {
            0 => "x".repeat(LONG + 1 + self.gen.rng.below(LONG)),
            1 => format!("newest {}", hex(&vec![b'k'; LONG / 4])),
            2 => format!("load {} 1 1 1", hex(&vec![b'D'; LONG / 4])),
            3 => format!("put 1 41 {}", hex(&vec![b'v'; LONG / 4])),
            4 => format!("replay {}", hex(&vec![b'L'; LONG / 4])),
            // As long as a line may be.
            5 => format!("read 10 {}", hex(&vec![b'k'; (LONG - 8) / 2])),
            6..=24 => self.gen.rng.pick(&TYPED).to_string(),
            _ => self.gen.rng.pick(&NO_CALLS).to_string(),
        };
        let answer = self.add(&line);
        self.follow_memory();
        self.look(&answer);
    }

    fn end(mut self) -> String {
        while !self.poked.is_empty() {
            self.poke_back();
        }
        self.sums();
        self.add("counts");
        self.add("dump 1048576");
        if self.hand.chance(1, 4) {
            self.add("quit");
            self.add("begin");
            self.add("help");
        }
        // A last line counts also where no newline ends it.
        if self.gen.rng.chance(1, 4) {
            self.text.pop();
        }
        self.text
    }
}

/// Nearly calls, remarks, and numbers as they may also be written.
const NO_CALLS: [&str; 97] = [
    "",
    "#",
    "# a remark",
    "#begin",
    " \t# a remark",
    " ",
    "\t  ",
    "\r",
    " \r",
    "beginn",
    "begi",
    "be gin",
    "begin\r\r",
    "begin\r ",
    "\rbegin",
    "begin\0",
    "begin\u{b}",
    "\u{a0}begin",
    "begin 1",
    "b\u{e9}gin",
    "newest 'b\u{e9}gin",
    "make",
    "make 1",
    "make 1 2",
    "make 1 2 3 4",
    "make -1 2 3",
    "make 1 0x2 3",
    "make 1 2 x",
    "make 1\r2 3",
    "read 1",
    "read 1 4",
    "read 1 4 1",
    "read 1 0x41",
    "read 1 4G",
    "read  41",
    "read 1 ",
    "read - 41",
    "newest",
    "readat 1",
    "readat - 41",
    "newest zz",
    "newest 4g",
    "newest --",
    "newest 'A 1",
    "newest 'A\t1",
    "newest ' A",
    "newest 41'",
    "newest 'A '",
    "put 1 'A1",
    "put 1 41 'A1",
    "read '1 41",
    "load 'A 1 1 1",
    "put 1 41",
    "put 1 41 4",
    "put 1 41 - -",
    "commit",
    "commit -1",
    "commit 1.",
    "commit 18446744073709551616",
    "commit 99999999999999999999999",
    "commit 00000000000000000000000",
    "commitj",
    "commitj 1",
    "commitj 1 2 3",
    "commitj 1 -",
    "commitj 1 18446744073709551616",
    "commit 1 99",
    "replay",
    "replay 4",
    "replay - -",
    "replay 4C0",
    "replay '",
    "batch",
    "batch -",
    "batch 4c10",
    "batch full",
    "batch 4c1 full",
    "batch 4c10 half",
    "batch 4c10 full short",
    "batch 'A full",
    "sweep x",
    "sweep -",
    "sweep 1 1",
    "sweep2 -",
    "sweep2 1 1",
    "sweep 2 1",
    "counts 1",
    "dump -",
    "load - 1",
    "load - 1 1",
    "load -",
    "abort 1 1",
    "delete 1",
    "bytes 1",
    "desks 1",
    "help quit",
    "quit 1",
];

/// Calls as a person may type them.
const TYPED: [&str; 30] = [
    "begin ",
    " begin",
    "\tbegin",
    "begin\t",
    "begin\r",
    "Begin",
    " \t BEGIN \t \r",
    "make 0  1 1",
    "MAKE 1\t0 1 ",
    "make 1 2 3 ",
    "Load - 1 1 1",
    "read 1 4A",
    "Read\t1  4a ",
    "bytes 1 4B",
    "NEWEST 4C",
    "Newest 'J",
    "newest 'j ",
    "put 1 4A 4b4B",
    "put\t1 'j  4A",
    "sweep",
    "SWEEP\t",
    "sweep2",
    " Sweep2\r",
    "dump",
    "Dump\r",
    "desks",
    " Desks",
    "help",
    "SUM HALL",
    "Peek Desk 0 9",
];

/// How often each refusal number, and each other answer by its first word, is given to the scripts of these seeds.
pub fn coverage(seeds: Range<u64>, length: usize) -> BTreeMap<String, u64> {
    let mut met = BTreeMap::new();
    for ((_, answer), times) in answers(seeds, length) {
        *met.entry(answer).or_default() += times;
    }
    met
}

/// The same, apart for each first word of a line; the records of batches are one such word.
fn answers(seeds: Range<u64>, length: usize) -> BTreeMap<(String, String), u64> {
    let mut met = BTreeMap::new();
    for seed in seeds {
        for (line, answer) in expected(script(seed, length).as_bytes()) {
            let Some(answer) = answer else { continue };
            let asked = line.split(|byte| *byte == b' ').next().unwrap_or_default();
            for (place, answer) in answer.split(" ; ").enumerate() {
                let words: Vec<&str> = answer.split(' ').collect();
                let name = if words[0] == "no" { format!("no {:>2}", words[1]) } else { words[0].to_string() };
                let asked = match place {
                    // A line that is no call may begin with anything.
                    0 if name == "what" => String::new(),
                    0 => String::from_utf8_lossy(asked).into_owned(),
                    _ => "record".to_string(),
                };
                *met.entry((asked, name)).or_default() += 1;
            }
        }
    }
    met
}

#[cfg(test)]
mod tests {
    use super::*;
    use crate::store::LAST_REFUSAL;

    #[test]
    fn every_refusal_is_met() {
        let by_word = answers(0..200, 150);
        let mut met: BTreeMap<&str, u64> = BTreeMap::new();
        by_word.iter().for_each(|((_, answer), times)| *met.entry(answer).or_default() += times);
        println!("answers in 200 scripts: {met:?}");
        for number in 1..=LAST_REFUSAL {
            let times = met.get(format!("no {number:>2}").as_str()).copied().unwrap_or(0);
            assert!(times >= 20, "refusal {number} is met {times} times");
        }
        for (asked, answers) in [
            ("commitj", "committed,closed,no  1,no  5,no  8,no  9,no 10,no 11,no 12"),
            ("replay", "replayed,no  1,no 10,no 11,no 14,no 17"),
            ("batch", "batch,no  1,no 12,no 18,no 19"),
            ("record", "begun,ok,own,hall,none,committed,closed,swept,no  3,no  4,no  5,no  6,no  8,no  9,no 10,no 11"),
        ] {
            for answer in answers.split(',') {
                let times = by_word.get(&(asked.to_string(), answer.to_string())).copied().unwrap_or(0);
                println!("{asked}: {answer} {times} times");
                assert!(times >= 5, "{asked} is answered {answer} {times} times");
            }
        }
    }
}
