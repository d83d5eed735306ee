//! Random runs as antt theorems about the definitions of crates/model/specs, each to be proved by computation.
//! A theorem holds exactly if the definitions answer what the plain store answers.

use crate::call::{call, open, Call, Opening, Reply};
use crate::journal::Commit;
use crate::language::sizes_text;
use crate::random::{Gen, Theme};
use crate::rebuild::written;
use crate::rng::SplitMix64;
use crate::store::{Committed, Kind, No, DESKS_MAX, TOP};
use std::fmt::Write;
use std::fs;
use std::path::Path;

/// The key whose numbers the record `Shown` gathers at the end.
const A1: &[u8] = b"A1";

pub struct Run {
    /// Its seed, and for a load which of the seed's loads.
    pub name: String,
    pub opening: Opening,
    pub refused: Option<No>,
    pub calls: Vec<Call>,
    pub replies: Vec<Reply>,
    pub holds: Vec<u64>,
    /// What its commits published, and the counter before.
    pub commits: Vec<Commit>,
    pub counter: u64,
}

impl Run {
    /// An opening and, if it is accepted, about `length` calls; the last ones show the whole hall.
    pub fn random(seed: u64, length: usize) -> Run {
        let mut gen = Gen::new(seed);
        let mut run = Run::of(seed.to_string(), gen.next_opening(), Vec::new());
        if run.refused.is_some() {
            return run;
        }
        let length = length * 2 / 3 + gen.rng.below(length * 2 / 3 + 1);
        let longer = matches!(gen.theme, Theme::Desks | Theme::Clashes);
        let length = if longer { length + DESKS_MAX as usize } else { length };
        while run.calls.len() < length {
            match gen.next_call() {
                // The definitions give a read's kind and bytes at once.
                Call::Bytes { start, key } => run.calls.push(Call::Read { start, key }),
                call => run.calls.push(call),
            }
        }
        run.calls.push(Call::Counts);
        run.calls.push(Call::Dump { room: TOP });
        Run::of(run.name, run.opening, run.calls)
    }

    /// A load, most often of a damaged dump; if it is accepted, what it gave is shown.
    pub fn load(seed: u64, place: u64) -> Run {
        let mut gen = Gen::about(Theme::Loads, SplitMix64::new(seed ^ (place + 1) << 48));
        let opening = gen.next_load();
        let shown = vec![Call::Counts, Call::Dump { room: TOP }, Call::Begin, Call::Sweep { limit: u64::MAX }];
        let run = Run::of(format!("{seed}_{place}"), opening, shown);
        if run.refused.is_some() {
            return run.cut(0);
        }
        run
    }

    /// A dump of an earlier moment and the journal since, right or not; if there is one, what it gave is shown.
    pub fn recovery(seed: u64, place: u64, length: usize) -> Option<Run> {
        let mut gen = Gen::about(Theme::Journals, SplitMix64::new(seed ^ (place + 1) << 40));
        gen.next_opening();
        (0..length).for_each(|_| drop(gen.next_call()));
        let opening = gen.next_recovery()?;
        let mut calls = Vec::new();
        while !gen.idle() {
            calls.push(gen.next_call());
        }
        calls.extend([Call::Counts, Call::Dump { room: TOP }, Call::Begin, Call::Sweep { limit: u64::MAX }]);
        let run = Run::of(format!("{seed}_{place}_journal"), opening, calls);
        Some(if run.refused.is_some() { run.cut(0) } else { run })
    }

    pub fn of(name: String, opening: Opening, calls: Vec<Call>) -> Run {
        let (replies, holds, commits) = (Vec::new(), Vec::new(), Vec::new());
        let mut run = Run { name, opening, refused: None, calls, replies, holds, commits, counter: 0 };
        match open(&run.opening) {
            Err(no) => run.refused = Some(no),
            Ok(mut store) => {
                run.counter = store.counter;
                for next in &run.calls {
                    let writes = written(&store, next);
                    let reply = call(&mut store, next);
                    if let Reply::Committed(number) | Reply::Recorded { committed: Committed::Number(number), .. } =
                        reply
                    {
                        run.commits.push(Commit { number, writes });
                    }
                    run.replies.push(reply);
                }
                run.holds = store.keys.get(A1).iter().flat_map(|vs| vs.iter().map(|v| v.number)).collect();
            }
        }
        run
    }

    /// The run's first `length` calls.
    pub fn cut(&self, length: usize) -> Run {
        Run::of(self.name.clone(), self.opening.clone(), self.calls[..length].to_vec())
    }

    pub fn theorem(&self) -> String {
        let (name, opening) = (&self.name, opening(&self.opening));
        match &self.refused {
            Some(no) => format!(
                "pub creation_{name} : created ({opening}) ≡ ({}, None)\nUNFOLDING\ncreation_{name} = refl\n",
                refusal(no)
            ),
            None => {
                let calls = list(self.calls.iter().map(call_term));
                let replies = list(self.replies.iter().map(reply_term));
                let holds = list(self.holds.iter().map(|n| n.to_string()));
                format!(
                    "pub creation_{name} : (created ({opening})).0 ≡ done\nUNFOLDING\ncreation_{name} = refl\n\n\
                     pub run_{name} : AllRight (case ({opening})\n    ({calls})\n    ({replies})\n    ({holds}) ∷ [])\n\
                     UNFOLDING\nrun_{name} = refl\n"
                ) + &self.journal_theorem()
            }
        }
    }

    /// What the run's commits wrote, what they would all have written, cut somewhere, and the last one's number.
    fn journal_theorem(&self) -> String {
        if self.commits.is_empty() {
            return String::new();
        }
        let (name, opening, counter) = (&self.name, opening(&self.opening), self.counter);
        let calls = list(self.calls.iter().map(call_term));
        let written = self.replies.iter().filter_map(|reply| match reply {
            Reply::Recorded { record, .. } => Some(&record[..]),
            _ => None,
        });
        let records: Vec<Vec<u8>> = self.commits.iter().map(Commit::record).collect();
        // At the end of a record, or within one.
        let cut = match records.len() % 2 {
            0 => records[..records.len() / 2].concat().len(),
            _ => records.concat().len() * 3 / 4,
        };
        let within = |end: &mut usize, record: &Vec<u8>| {
            *end += record.len();
            (*end <= cut).then(|| record.clone())
        };
        let whole: Vec<u8> = records.iter().scan(0, within).flatten().collect();
        let last = self.commits.last().map_or(0, |commit| commit.number);
        let all = !self.calls.iter().any(|call| matches!(call, Call::Commit { .. } | Call::Replay { .. }));
        format!(
            "\npub journal_{name} : noted ({opening})\n    ({calls})\n    {cut} {counter}\n    \
             ≡ Some ({}, {}, {last}, {all})\nUNFOLDING\njournal_{name} = refl\n",
            bytes(&written.collect::<Vec<&[u8]>>().concat()),
            bytes(&whole)
        )
    }
}

fn list(items: impl Iterator<Item = String>) -> String {
    items.map(|item| item + " ∷ ").collect::<String>() + "[]"
}

fn bytes(bytes: &[u8]) -> String {
    list(bytes.iter().map(|b| format!("{b:#04x}")))
}

fn opening(opening: &Opening) -> String {
    match opening {
        Opening::Make { sizes } => format!("make {}", sizes_text(*sizes)),
        Opening::Load { dump, sizes } => format!("load ({}) {}", bytes(dump), sizes_text(*sizes)),
    }
}

fn call_term(call: &Call) -> String {
    match call {
        Call::Begin => "begin".to_string(),
        Call::Read { start, key } | Call::Bytes { start, key } => format!("on {start} (read ({}))", bytes(key)),
        Call::Newest { key } => format!("ask (newest ({}))", bytes(key)),
        Call::AsOf { number, key } => format!("ask (as_of {number} ({}))", bytes(key)),
        Call::Put { start, key, value } => format!("on {start} (put ({}) ({}))", bytes(key), bytes(value)),
        Call::Delete { start, key } => format!("on {start} (delete ({}))", bytes(key)),
        Call::Commit { start } => format!("on {start} commit"),
        Call::CommitTo { start, room } => format!("on {start} (commit_to (Some {room}))"),
        Call::Abort { start } => format!("on {start} abort"),
        Call::Sweep { limit } => format!("sweep {limit}"),
        Call::Thin { limit } => format!("thin {limit}"),
        Call::Counts => "ask counts".to_string(),
        Call::Dump { room } => format!("ask (dump {room})"),
        Call::Replay { journal } => format!("replay ({})", bytes(journal)),
        Call::Batch { .. } => unreachable!("no batch is drawn for a theorem"),
    }
}

fn refusal(no: &No) -> String {
    match no {
        No::Plain(number) => format!("refused {number}"),
        No::Conflict(keys) => {
            let pairs = keys.iter().map(|(key, number)| format!("({}, {number})", bytes(key)));
            format!("conflict ({})", list(pairs))
        }
        No::At { no, offset } => format!("faulty {no} {offset}"),
    }
}

fn reply_term(reply: &Reply) -> String {
    let (answer, handed) = match reply {
        Reply::No(no) => (refusal(no), &[][..]),
        Reply::Done => ("done".to_string(), &[][..]),
        Reply::Begun { start, desk } => (format!("began {start} {desk}"), &[][..]),
        Reply::Found { kind: Kind::Own, bytes } => ("found own_value".to_string(), &bytes[..]),
        Reply::Found { kind: Kind::Hall, bytes } => ("found hall_value".to_string(), &bytes[..]),
        Reply::Found { kind: Kind::Nothing, bytes } => ("found nothing_there".to_string(), &bytes[..]),
        Reply::Bytes(_) => unreachable!("the definitions have no call for the bytes alone"),
        Reply::Committed(number) => (format!("committed {number}"), &[][..]),
        Reply::Closed => ("closed".to_string(), &[][..]),
        Reply::Recorded { committed: Committed::Number(number), record } => {
            (format!("committed {number}"), &record[..])
        }
        Reply::Recorded { committed: Committed::Closed, record } => ("closed".to_string(), &record[..]),
        Reply::Swept { cutoff, dropped } => (format!("swept {cutoff} {dropped}"), &[][..]),
        Reply::Thinned { dropped } => (format!("thinned {dropped}"), &[][..]),
        Reply::Counted { keys, versions, desks } => (format!("counted {keys} {versions} {desks}"), &[][..]),
        Reply::Dumped(bytes) => (format!("dumped {}", bytes.len()), &bytes[..]),
        Reply::Replayed(end) => (format!("replayed {end}"), &[][..]),
        Reply::Batched(_) => unreachable!("no batch is drawn for a theorem"),
    };
    format!("({answer}, {})", bytes(handed))
}

/// The bytes that the commits of a run wrote, those of all its commits cut after n bytes, the number of the last, and
/// whether all of them wrote.
const NOTED: &str = "
abbrev pub noted : Creation → List Call → (n counter : ℕ) → Option (Bytes × Bytes × ℕ × Bool)
noted o cs n c =
    option_map
    (λ (s : Store).
        (journal_of s cs, journal (whole_in n (commits_of s cs)), last_of c (commits_of s cs), all_journaled cs))
    (created o).1
";

/// The lines above the theorems, and the `unfolding` line that each of them stands under.
pub struct Frame {
    head: String,
    unfolding: String,
}

impl Frame {
    /// Every `unfoldable` definition that a run can need is unfolded, by the names that the specs have now.
    pub fn read(specs: &Path) -> std::io::Result<Frame> {
        let mut head = "use Rattle.std.specs.Prelude.{ℕ, ◌≡◌, refl, Bool, true, false, List, [], ◌∷◌}\n\
                        use Rattle.std.specs.Prelude.{Option, Some, None, option_map}\n"
            .to_string();
        let mut unfolding = String::from("unfolding");
        let named = [
            ("Bytes", "Bytes"),
            ("State", "Store"),
            ("Sound", ""),
            ("Sweeps", ""),
            ("Dump", ""),
            ("Load", ""),
            ("Journal", ""),
            (
                "Calls",
                "Call, read, put, delete, commit, commit_to, abort, newest, as_of, counts, dump, begin, on, ask, sweep, \
                 thin, replay, own_value, hall_value, nothing_there, refused, conflict, faulty, began, found, done, \
                 committed, closed, swept, thinned, counted, dumped, replayed",
            ),
            ("Runs", "Creation, make, load"),
            ("History", ""),
            ("Recovery", ""),
            ("Whiteboard", "case"),
        ];
        for (module, constructors) in named {
            let text = fs::read_to_string(specs.join(module).with_extension("antt"))?;
            let mut names: Vec<&str> = constructors.split(", ").filter(|name| !name.is_empty()).collect();
            for line in text.lines() {
                if let Some(rest) = line.strip_prefix("unfoldable pub ") {
                    let name = rest.split(' ').next().unwrap();
                    names.push(name);
                    write!(unfolding, " {name}").unwrap();
                }
            }
            writeln!(head, "use Rattle.model.specs.{module}.{{{}}}", names.join(", ")).unwrap();
        }
        head += NOTED;
        Ok(Frame { head, unfolding })
    }

    pub fn file(&self, runs: &[Run]) -> String {
        let mut text = self.head.clone();
        for run in runs {
            text += "\n";
            text += &run.theorem().replace("UNFOLDING", &self.unfolding);
        }
        text
    }
}

#[cfg(test)]
mod tests {
    use super::*;
    use crate::journal::{front, Front};
    use crate::store::{Bytes, Store, KEY_MAX, VALUE_MAX, WRITES_MAX};
    use std::collections::BTreeMap;

    /// What a replay met, where it left the counter at that number.
    fn replayed(journal: &[u8], reply: &Reply, counter: u64) -> &'static str {
        match reply {
            Reply::No(No::At { no: 14, offset }) => match front(&journal[*offset as usize..]) {
                Front::Body(body) if body.len() < 12 => "replay: a body too short",
                Front::Body(body) => spoiled(body, counter),
                _ => "replay: another mark",
            },
            Reply::No(No::At { no: 10, .. }) => "replay: no key room",
            Reply::No(No::At { offset: 0, .. }) => "replay: no version room",
            Reply::No(No::At { .. }) => "replay: no version room behind a record",
            Reply::Replayed(end) => match (journal.len() - *end as usize, *end) {
                (0, 0) => "replay: an empty journal",
                (0, _) if counter == TOP => "replay: up to the last number",
                (0, _) => "replay: a whole journal",
                (1, _) => "replay: cut in a mark",
                (2..=5, _) => "replay: cut in a length",
                (_, 0) => "replay: cut in its first body",
                _ => "replay: cut in a later body",
            },
            _ if matches!(front(journal), Front::OtherMark) => "17 before another mark",
            _ => "17",
        }
    }

    fn spoiled(body: &[u8], counter: u64) -> &'static str {
        let number = u64::from_le_bytes(body[..8].try_into().unwrap());
        match u32::from_le_bytes(body[8..12].try_into().unwrap()) {
            _ if number == counter => "replay: the counter's number again",
            _ if number < counter => "replay: a number below the counter",
            _ if number > TOP => "replay: a number above the last",
            0 => "replay: no writes",
            17 => "replay: seventeen writes",
            _ => "replay: writes that break a rule",
        }
    }

    /// The order of a commit's refusals where its output is too short.
    fn recorded(before: &Store, start: u64, room: u64, reply: &Reply) -> Option<&'static str> {
        let writes = written(before, &Call::Commit { start });
        let length = Commit { number: before.counter, writes }.record().len() as u64;
        match reply {
            Reply::No(No::Conflict(_)) if room < length => Some("9 before 12"),
            Reply::No(No::Plain(8)) if room < length => Some("8 before 12"),
            Reply::No(No::Plain(10 | 11)) if room < length => Some("10 or 11 before 12"),
            Reply::No(No::Plain(12)) if room + 1 == length => Some("an output one byte short"),
            Reply::Recorded { committed: Committed::Number(_), .. } if room == length => {
                Some("a record fills its output")
            }
            Reply::Recorded { committed: Committed::Closed, .. } if room == 0 => Some("closed without an output"),
            _ => None,
        }
    }

    /// Corners where two rules meet; a run that never comes there could not tell them apart.
    fn corners(run: &Run, met: &mut BTreeMap<&'static str, u64>) {
        let mut meet = |corner| *met.entry(corner).or_default() += 1;
        if let (Opening::Load { dump, .. }, Some(No::At { no: 14, offset })) = (&run.opening, &run.refused) {
            if dump.get(*offset as usize..*offset as usize + 4) == Some(&[25, 0, 0, 0]) && *offset == 20 {
                meet("load: key length 25");
            }
            // A first key is above all that come before it.
            if *offset == 24 {
                meet("load: a byte that no key has");
            }
        }
        let Ok(mut store) = open(&run.opening) else { return };
        for next in &run.calls {
            let before = store.clone();
            let reply = call(&mut store, next);
            let full = before.desks.iter().all(Option::is_some);
            let is_open = |start: u64| before.desks.iter().flatten().any(|desk| desk.start == start);
            let in_length = |key: &Bytes| (1..=KEY_MAX).contains(&key.len());
            match next {
                Call::Replay { journal } => meet(replayed(journal, &reply, store.counter)),
                Call::CommitTo { start, room } => {
                    recorded(&before, *start, *room, &reply).into_iter().for_each(&mut meet)
                }
                _ => {}
            }
            if let (Call::Commit { start } | Call::CommitTo { start, .. }, Reply::No(No::Plain(number @ (8 | 10)))) =
                (next, &reply)
            {
                let writes = &before.desks.iter().flatten().find(|d| d.start == *start).unwrap().writes;
                let new = writes.keys().filter(|k| !before.keys.contains_key(*k)).count();
                if *number == 8 && new as u64 > before.sizes.key_rooms - before.keys.len() as u64 {
                    meet("8 before 10");
                }
                if writes.len() as u64 > before.sizes.version_rooms - before.versions_held() {
                    meet(if *number == 8 { "8 before 11" } else { "10 before 11" });
                }
            }
            match (next, reply) {
                (_, Reply::No(No::Conflict(_))) if before.counter == TOP => meet("9 before 8"),
                (Call::Commit { start } | Call::CommitTo { start, .. }, Reply::No(No::Conflict(keys))) => {
                    let writes = &before.desks.iter().flatten().find(|d| d.start == *start).unwrap().writes;
                    meet(match keys.len() {
                        WRITES_MAX => "sixteen keys clash",
                        1 if writes.len() > 1 => "one of several keys clashes",
                        all if all == writes.len() => "all keys clash",
                        _ => "some keys clash and some don't",
                    });
                    if keys.iter().any(|(_, number)| *number != keys[0].1) {
                        meet("keys clash at other numbers");
                    }
                }
                (_, Reply::Closed | Reply::Recorded { .. }) if before.counter == TOP => {
                    meet("closed at the last number")
                }
                (Call::Begin, Reply::No(No::Plain(6))) if before.counter == TOP => meet("6 before 8"),
                (Call::Begin, Reply::No(No::Plain(6))) => match before.desks.len() {
                    1 => meet("one desk, taken"),
                    2 => meet("both desks taken"),
                    63 => meet("63 desks taken"),
                    64 => meet("64 desks taken"),
                    _ => {}
                },
                (Call::Put { value, .. }, Reply::Done) if value.len() == VALUE_MAX => meet("the longest value"),
                (Call::Put { value, .. }, Reply::No(No::Plain(4))) if value.len() == VALUE_MAX + 1 => {
                    meet("a value one byte too long")
                }
                (Call::Begin, Reply::Begun { .. }) if !full && store.desks.iter().all(Option::is_some) => {
                    meet("last desk taken")
                }
                (Call::Begin, Reply::Begun { desk, .. }) if before.desks[desk + 1..].iter().any(Option::is_some) => {
                    meet("a desk between others taken again")
                }
                (Call::Sweep { .. }, Reply::Swept { cutoff, dropped }) if dropped > 0 && cutoff < before.counter => {
                    meet("sweep held back and drops")
                }
                (Call::Thin { limit }, Reply::Thinned { dropped }) => {
                    let starts = || before.desks.iter().flatten().map(|desk| desk.start);
                    let above = |store: &Store| {
                        let numbers = store.keys.values().flatten().map(|version| version.number);
                        numbers.filter(|number| starts().any(|start| start < *number)).count()
                    };
                    if above(&store) < above(&before) {
                        meet("drops above an open start");
                    }
                    let deletions =
                        store.keys.values().map(|chain| &chain[0]).filter(|oldest| oldest.content.is_none());
                    if deletions.into_iter().any(|oldest| oldest.number <= *limit) {
                        meet("a deletion stays for a start below it");
                    }
                    if dropped == 0 && store.floor > before.floor {
                        meet("the floor rises and nothing goes");
                    }
                }
                (Call::Put { start, key, value }, Reply::No(No::Plain(3)))
                    if in_length(key) && (value.len() > VALUE_MAX || !is_open(*start)) =>
                {
                    meet("a byte that no key has before 4 and 5")
                }
                (Call::AsOf { number, key }, Reply::No(No::Plain(3)))
                    if in_length(key) && !(before.floor..=before.counter).contains(number) =>
                {
                    meet("a byte that no key has before 16")
                }
                (Call::Dump { room }, Reply::Dumped(bytes)) if bytes.len() as u64 == *room => meet("dump exact"),
                _ => {}
            }
        }
    }

    #[test]
    fn corners_are_met() {
        let mut met = BTreeMap::new();
        for seed in 0..300 {
            corners(&Run::random(seed, 30), &mut met);
            (0..4).for_each(|place| corners(&Run::load(seed, place), &mut met));
            (0..4).filter_map(|place| Run::recovery(seed, place, 60)).for_each(|run| corners(&run, &mut met));
        }
        println!("corners met: {met:?}");
        assert_eq!(met.len(), 54, "{met:?}");
    }
}
