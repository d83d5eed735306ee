//! The console over the plain store and the two memories that it stands in.

use crate::call::{call, open, Call, Opening, Reply};
use crate::language::{is_silent, parse, refusal_text, reply_text, text, Asked, Which, HELP};
use crate::layout::{desk_bytes, desk_length, hall_bytes, hall_length, held, Held};
use crate::rebuild::Watch;
use crate::store::{No, Sizes, Store, DESKS_MAX};

/// What the console lends: hall memory of a mebibyte and desk memory for all desks, each with some bytes more.
pub const PAST: usize = 64;
pub const HALL_LENT: usize = (1 << 20) + PAST;
pub const DESK_LENT: usize = desk_length(DESKS_MAX) + PAST;
/// What all of it is filled with at first.
const FILL: u8 = 0xa5;

/// The longest line that is read; a longer one is no call. It holds, in hex, any dump of what hall memory holds.
pub const LINE_MOST: usize = 2 * ((1 << 20) + 4_096);

/// A script's lines; the last one may lack its newline.
pub fn lines(script: &[u8]) -> impl Iterator<Item = &[u8]> {
    script.split_inclusive(|byte| *byte == b'\n').map(|line| line.strip_suffix(b"\n").unwrap_or(line))
}

/// Whether sizes in range need no more than the console lends.
pub fn fits(sizes: Sizes) -> bool {
    !sizes.allowed() || (hall_length(sizes) <= HALL_LENT && desk_length(sizes.desks) <= DESK_LENT)
}

struct Memory {
    bytes: Vec<u8>,
    /// The sum of the bytes, once it was asked for.
    sum: Option<u64>,
}

impl Memory {
    fn lent(length: usize) -> Memory {
        Memory { bytes: vec![FILL; length], sum: None }
    }

    fn write(&mut self, at: usize, bytes: &[u8]) {
        let place = &mut self.bytes[at..at + bytes.len()];
        if place != bytes {
            place.copy_from_slice(bytes);
            self.sum = None;
        }
    }

    /// FNV-1a, 64 bits.
    fn sum(&mut self) -> u64 {
        let step = |sum: u64, byte: &u8| (sum ^ *byte as u64).wrapping_mul(0x100_0000_01b3);
        *self.sum.get_or_insert_with(|| self.bytes.iter().fold(0xcbf2_9ce4_8422_2325, step))
    }

    /// None outside the memory.
    fn part(&self, from: u64, count: u64) -> Option<&[u8]> {
        let end = from.checked_add(count)?;
        self.bytes.get(from.try_into().ok()?..end.try_into().ok()?)
    }
}

pub struct Console {
    hall: Memory,
    desk: Memory,
    /// What the memories' bytes say.
    held: Held,
    /// Whether a line asked for the end: no later one is read.
    ended: bool,
    watch: Watch,
}

impl Console {
    pub fn new() -> Console {
        Console {
            hall: Memory::lent(HALL_LENT),
            desk: Memory::lent(DESK_LENT),
            // What the memories are filled with is not sound.
            held: Held::Nothing,
            ended: false,
            watch: Watch::new(),
        }
    }

    pub fn held(&self) -> &Held {
        &self.held
    }

    pub fn ended(&self) -> bool {
        self.ended
    }

    pub fn memory(&self, which: Which) -> &[u8] {
        match which {
            Which::Hall => &self.hall.bytes,
            Which::Desk => &self.desk.bytes,
        }
    }

    fn lent(&mut self, which: Which) -> &mut Memory {
        match which {
            Which::Hall => &mut self.hall,
            Which::Desk => &mut self.desk,
        }
    }

    /// The answer to a line, of one or more lines; none to an empty line, a remark, `quit` and what stands behind it.
    pub fn answer(&mut self, line: &str) -> Option<String> {
        if self.ended || is_silent(line) {
            return None;
        }
        match parse(line) {
            None => Some("what".to_string()),
            Some(Asked::Quit) => {
                self.ended = true;
                None
            }
            Some(asked) => Some(self.reply(asked)),
        }
    }

    /// The same for a line of any bytes.
    pub fn answer_bytes(&mut self, line: &[u8]) -> Option<String> {
        if LINE_MOST < line.len() {
            // No more of it than this is seen.
            let first = line[..=LINE_MOST].iter().find(|byte| !b" \t".contains(byte));
            return (!self.ended && first != Some(&b'#')).then(|| "what".to_string());
        }
        self.answer(&text(line))
    }

    fn reply(&mut self, asked: Asked) -> String {
        match asked {
            Asked::Open(opening) => match self.open(&opening) {
                Ok(store) => {
                    self.held = Held::Both(store);
                    self.watch.forget();
                    self.write_state();
                    "ok".to_string()
                }
                Err(no) => refusal_text(&no),
            },
            Asked::Call(next) => reply_text(&self.call(&next)),
            Asked::Sum(which) => format!("sum {}", self.lent(which).sum()),
            Asked::Peek { which, from, count } => match self.lent(which).part(from, count) {
                Some(bytes) => reply_text(&Reply::Bytes(bytes.to_vec())),
                None => "what".to_string(),
            },
            Asked::Poke { which, at, byte } => {
                if self.lent(which).part(at, 1).is_none() {
                    return "what".to_string();
                }
                self.lent(which).write(at as usize, &[byte]);
                self.held = held(&self.hall.bytes, &self.desk.bytes);
                self.watch.forget();
                "ok".to_string()
            }
            Asked::Desks => self.desks(),
            Asked::Help => HELP.to_string(),
            Asked::Quit => unreachable!("it has no answer"),
        }
    }

    /// Sizes that need more than is lent are refused as sizes out of range are, before a dump is looked at.
    fn open(&self, opening: &Opening) -> Result<Store, No> {
        match fits(opening.sizes()) {
            true => open(opening),
            false => Err(No::Plain(2)),
        }
    }

    fn desks(&self) -> String {
        let Held::Both(store) = &self.held else { return "no 1".to_string() };
        let open = store.desks.iter().enumerate().filter_map(|(place, desk)| Some((place, desk.as_ref()?)));
        let lines: Vec<String> =
            open.map(|(place, desk)| format!("desk {place} {} {}\n", desk.start, desk.writes.len())).collect();
        format!("{}desks {}", lines.concat(), lines.len())
    }

    fn call(&mut self, next: &Call) -> Reply {
        match (&mut self.held, next) {
            (Held::Both(store), _) => {
                let reply = self.watch.call(store, next);
                self.write_state();
                reply
            }
            // These three are lent hall memory only.
            (Held::Hall(store), Call::Newest { .. } | Call::AsOf { .. } | Call::Dump { .. }) => call(store, next),
            (_, Call::Bytes { .. }) => Reply::Bytes(Vec::new()),
            _ => Reply::No(No::Plain(1)),
        }
    }

    /// Brings the memories up to the state. Bytes past the needed lengths stay as they are.
    fn write_state(&mut self) {
        if let Held::Both(store) = &self.held {
            self.hall.write(0, &hall_bytes(store));
            self.desk.write(0, &desk_bytes(&store.desks));
        }
    }
}

#[cfg(test)]
impl Console {
    /// Changes the state behind the calls' backs, as a faulty console would.
    pub fn meddle(&mut self, change: impl FnOnce(&mut crate::store::Store)) {
        if let Held::Both(store) = &mut self.held {
            change(store);
            self.watch.forget();
            self.write_state();
        }
    }
}

impl Default for Console {
    fn default() -> Console {
        Console::new()
    }
}

#[cfg(test)]
mod tests {
    use super::*;

    fn answers(script: &str) -> Vec<String> {
        let mut console = Console::new();
        lines(script.as_bytes()).filter_map(|line| console.answer_bytes(line)).collect()
    }

    #[test]
    fn before_the_first_make() {
        assert_eq!(
            answers("begin\nnewest 41\nbytes 1 41\ncounts\ndump 99\nmake 0 1 1\nbegin"),
            ["no 1", "no 1", "bytes -", "no 1", "no 1", "no 2", "no 1"]
        );
    }

    #[test]
    fn a_session() {
        let script = "# two technicians\nmake 4 8 64\n\nbegin\nbegin\nput 1 4131 07\nread 1 4131\nread 2 4131\ncommit 1\n\
                      put 2 4131 -\nread 2 4131\ncommit 2\nnewest 4131\nsweep 18446744073709551615\ncounts\ndump 43\ndump 44\n\
                      begin\ncommit 4\nabort 4";
        let dump = "dump 4453454d56434331040000000000000001000000020000004131010000000300000000000000010100000007";
        assert_eq!(
            answers(script),
            [
                "ok",
                "begun 1 0",
                "begun 2 1",
                "ok",
                "own 07",
                "none",
                "committed 3",
                "ok",
                "own -",
                "no 9 4131 3",
                "hall 07",
                "swept 3 0",
                "counts 1 1 0",
                "no 12",
                dump,
                "begun 4 0",
                "closed",
                "no 5"
            ]
        );
    }

    #[test]
    fn no_calls() {
        let lines = [
            "beginn",
            "begin\r\r",
            "begin\r ",
            "be gin",
            "make 1 2",
            "make 1 2 3 4",
            "load - 1 2",
            "newest ' A",
            "newest 'A\tB",
            "quit 1",
            "help 1",
            "desks 1",
            "sweep 1 2",
            "sweep2 1 2",
            "commit 18446744073709551616",
            "commit +1",
            "read 1 4",
            "read 1 ",
            "commitj",
            "commitj 1",
            "commitj 1 2 3",
            "commitj 1 -",
            "replay",
            "replay 4",
            "replay - -",
            "batch",
            "batch -",
            "batch full",
            "batch 4c1 full",
            "batch 4c10 fully",
            "batch 4c10 full short",
            "batch '4c full",
            "sum x",
            "poke hall 0 256",
            "peek desk 129673 1",
            "peek hall 1048641 0",
            "peek hall 18446744073709551615 2",
            "poke hall 1048640 0",
            "poke desk 18446744073709551615 0",
        ];
        for line in lines {
            assert_eq!(answers(line), ["what"], "{line}");
        }
    }

    #[test]
    fn calls_as_they_are_typed() {
        let script =
            "\tMake 2\t 2 3 \r\n Begin\r\nPUT 1 4a 4A\nread  1  'J\nREAD 1 'j\ndesks\nBEGIN\nDesks \nabort\t1\n\
                      sweep\nSweep2 \ndump\nSum\tHALL 1\npoke hall 63 1\ndesks\n \t\n  # remark\n\r\nhelp\nquit 1\n\
                      \tqUit\r\nbegin\nhelp";
        let dump = "dump 4453454d56434331030000000000000000000000";
        assert_eq!(
            answers(script),
            [
                "ok",
                "begun 1 0",
                "ok",
                "own 4a",
                "none",
                "desk 0 1 1\ndesks 1",
                "begun 2 1",
                "desk 0 1 1\ndesk 1 2 0\ndesks 2",
                "ok",
                "swept 2 0",
                "swept2 0",
                dump,
                "what",
                "ok",
                "no 1",
                HELP,
                "what"
            ]
        );
    }

    #[test]
    fn batches() {
        // begin, put A1 = 07, read A1, commit, commit; then the same as a read of the hall.
        let first =
            "4c104c12010000020000004131 0100000007 4c11010000020000004131 4c140100004c14010000".replace(' ', "");
        let script = format!(
            "batch 4c10 full\nmake 4 8 2\nbatch - full\nBatch - SHORT\nbatch {first} short\nbatch {first} full\n\
             batch 4c104c11010000020000004131 full\nbatch 4c15010000 full\nbatch 4c104c17 short\nbatch 4c full\n\
             counts\nbatch 4c104c104c10 full\npoke hall 63 1\nbatch 4c17 short"
        );
        assert_eq!(
            answers(&script),
            [
                "no 1",
                "ok",
                "batch 0",
                "batch 0",
                "no 12",
                "batch 5 ; begun 1 0 ; ok ; own 07 ; committed 2 ; no 5",
                "batch 2 ; begun 3 0 ; hall 07",
                "no 18 0",
                "no 19 2",
                "no 18 0",
                "counts 1 1 1",
                "batch 3 ; begun 4 1 ; no 6 ; no 6",
                "ok",
                "no 1",
            ]
        );
    }

    /// Of what is too long the front tells whether it is a remark.
    #[test]
    fn long_lines() {
        let long = |front: &str, rest: &str| front.to_string() + &" ".repeat(LINE_MOST) + rest;
        assert_eq!(answers(&long("", "begin")), ["what"]);
        assert_eq!(answers(&long("", "")), Vec::<String>::new());
        assert_eq!(answers(&long(" ", "")), ["what"]);
        assert_eq!(answers(&long(" ", "#")), ["what"]);
        assert_eq!(answers(&long("", "#")), Vec::<String>::new());
        assert_eq!(answers(&long("\t# ", "")), Vec::<String>::new());
        assert_eq!(answers(&long("quit\n", "begin")), Vec::<String>::new());
    }

    #[test]
    fn sums_and_peeks() {
        let fnv = |bytes: &[u8]| {
            bytes.iter().fold(0xcbf2_9ce4_8422_2325u64, |h, b| (h ^ *b as u64).wrapping_mul(0x100_0000_01b3))
        };
        // Published: the sums of nothing and of "a".
        assert_eq!((fnv(b""), fnv(b"a")), (0xcbf2_9ce4_8422_2325, 0xaf63_dc4c_8601_ec8c));
        let mut hall = vec![0xa5; 1_048_640];
        let mut desk = vec![0xa5; 129_673];
        let sums = |hall: &[u8], desk: &[u8]| [format!("sum {}", fnv(hall)), format!("sum {}", fnv(desk))];
        assert_eq!(answers("sum hall\nsum desk"), sums(&hall, &desk));
        hall[..64 + 2 * 29 + 3 * 109].fill(0);
        (hall[0], hall[4], hall[8], hall[32]) = (2, 3, 1, 2);
        desk[..9 + 2 * 2_025].fill(0);
        (desk[0], desk[8], desk[9]) = (1, 2, 1);
        assert_eq!(answers("make 2 3 2\nbegin\nsum hall\nsum desk")[2..], sums(&hall, &desk));
        // A smaller store leaves what was past it.
        hall[..64 + 29 + 109].fill(0);
        (hall[0], hall[4], hall[32]) = (1, 1, 1);
        desk[..9 + 2_025].fill(0);
        desk[8] = 1;
        let script =
            "make 2 3 2\nbegin\nmake 1 1 1\nsum hall\nsum desk\npeek hall 0 9\npeek desk 4058 2\npeek hall 1048640 0";
        let found = answers(script);
        assert_eq!(found[3..5], sums(&hall, &desk));
        assert_eq!(found[5..], ["bytes 010000000100000000", "bytes 00a5", "bytes -"]);
    }

    /// 64 + 29 k + 109 v bytes, of 1,048,640 that are lent.
    #[test]
    fn sizes_that_need_more_than_is_lent() {
        let script =
            "make 1 65536 1\nmake 1024 65536 64\nmake 4 9619 64\nload 44 4 9619 64\nbegin\nmake 3 9619 64\nbegin\n\
                      make 1 9620 1\ncounts\nload 44 3 9619 64\nmake 1 1 65";
        let answers = answers(script);
        assert_eq!(answers[..7], ["no 2", "no 2", "no 2", "no 2", "no 1", "ok", "begun 1 0"]);
        assert_eq!(answers[7..], ["no 2", "counts 0 0 1", "no 13 0", "no 2"]);
    }

    #[test]
    fn pokes() {
        // The first makes the hall unsound, the third the desks alone, the fifth is of no account.
        let script =
            "make 1 1 64\nbegin\npoke hall 63 1\nbegin\nnewest 41\nbytes 1 41\npoke hall 63 0\nput 1 41 07\ncommit 1\n\
                      poke desk 10 1\nbegin\ncounts\nnewest 41\ndump 0\npoke desk 10 0\npoke hall 1048639 1\nbegin";
        assert_eq!(
            answers(script),
            [
                "ok",
                "begun 1 0",
                "ok",
                "no 1",
                "no 1",
                "bytes -",
                "ok",
                "ok",
                "committed 2",
                "ok",
                "no 1",
                "no 1",
                "hall 07",
                "no 12",
                "ok",
                "ok",
                "begun 3 0"
            ]
        );
        // Another sound state: the counter is raised, and the open start is another.
        let script = "make 1 1 64\nbegin\npoke hall 8 9\npoke desk 9 7\nabort 1\nput 7 41 -\ncommit 7\npoke hall 1048640 0\npoke desk 0 256";
        assert_eq!(answers(script)[2..], ["ok", "ok", "no 5", "ok", "committed 10", "what", "what"]);
    }

    /// However a run goes, the memories say the state that the store is in.
    #[test]
    fn memories_say_the_state() {
        for seed in 0..40 {
            let mut console = Console::new();
            for line in lines(crate::script::script(seed, 60).as_bytes()) {
                console.answer_bytes(line);
                assert_eq!(held(&console.hall.bytes, &console.desk.bytes), console.held, "seed {seed}");
            }
        }
    }
}
