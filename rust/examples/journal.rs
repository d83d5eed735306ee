//! A hall that is killed at a random byte of its files, again and again, and comes back each time.
//!
//!     cargo run --release --example journal -- --kills 1000
//!
//! A child process edits seats and keeps a dump and a journal as `docs/MANUAL.md` says: a record is synced before its
//! commit is told. Somewhere in what it writes it halts, and is killed. Its parent knows what it was told and no more:
//! it loads the dump and replays the journal, and each commit that was told has to be there, and no other. The last one
//! may be there untold, if its record is whole. It does the same with the journal cut at each byte that it grew by.

use hourbracken::dump::Dump;
use hourbracken::{Recorded, Refusal, Sizes, Start, Store, RECORD_LEN};
use std::collections::BTreeMap;
use std::env::{args, current_exe, temp_dir, var_os};
use std::error::Error;
use std::fs::{self, File, OpenOptions};
use std::io::{self, BufRead, BufReader, Write};
use std::path::{Path, PathBuf};
use std::process::{Command, ExitCode, Stdio};
use trials::rng::SplitMix64;

type Answer<T> = Result<T, Box<dyn Error>>;

const SIZES: Sizes = Sizes { key_rooms: 12, version_rooms: 72, desks: 2 };
/// The most that a child writes before it halts: more than a dump.
const MOST: usize = 1_000;
/// A step between two writes counts as so many bytes, so that some halt there.
const STEP: usize = 8;

// ---- the hall: what a program does that keeps a journal

struct Memories {
    hall: [u8; SIZES.hall_len()],
    desk: [u8; SIZES.desk_len()],
}

impl Memories {
    fn new() -> Memories {
        Memories { hall: [0; SIZES.hall_len()], desk: [0; SIZES.desk_len()] }
    }
}

/// Each dump has a journal of its own, named by the dump's counter, so that the two change in one step.
fn journal_of(folder: &Path, counter: u64) -> PathBuf {
    folder.join(format!("journal.{counter}"))
}

/// No bytes where there is no file.
fn contents(path: &Path) -> io::Result<Vec<u8>> {
    match fs::read(path) {
        Err(why) if why.kind() == io::ErrorKind::NotFound => Ok(Vec::new()),
        read => read,
    }
}

struct Hall<'m> {
    store: Store<'m>,
    folder: PathBuf,
    journal: File,
    ends: Ends,
}

impl<'m> Hall<'m> {
    /// The store of the last dump and the journal since, which goes on where its whole records end.
    fn come_back(folder: &Path, memories: &'m mut Memories, ends: Ends) -> Answer<Hall<'m>> {
        let dump = fs::read(folder.join("dump"))?;
        let path = journal_of(folder, Dump::read(&dump)?.counter());
        let mut store = Store::load(&dump, &mut memories.hall, &mut memories.desk, SIZES)?;
        let whole = store.replay(&contents(&path)?)?;
        let journal = OpenOptions::new().append(true).create(true).open(path)?;
        journal.set_len(whole as u64)?;
        File::open(folder)?.sync_all()?;
        Ok(Hall { store, folder: folder.to_owned(), journal, ends })
    }

    /// Tells of a commit once its record is there to stay.
    fn commit(&mut self, start: Start) -> Answer<()> {
        let mut out = [0; RECORD_LEN];
        let Recorded { committed, record } = match self.store.commit_to(start, &mut out) {
            Err(Refusal::Conflict(_)) => return Ok(()),
            Err(Refusal::NoVersionRoom) => {
                self.sweep()?;
                return self.commit(start);
            }
            answer => answer?,
        };
        if let Some(number) = committed.number() {
            println!("under way {number}{}", writes_of(record));
            self.ends.write(&mut self.journal, record)?;
            self.journal.sync_data()?;
            self.ends.step();
            println!("saved {number}");
        }
        Ok(())
    }

    /// Sweeps are not in a journal, so that a dump follows at once: then the same sizes have room for a replay.
    fn sweep(&mut self) -> Answer<()> {
        self.store.sweep(u64::MAX)?;
        let mut room = [0; SIZES.dump_len()];
        let length = self.store.dump(&mut room)?;
        let (old, new) = (self.folder.join("dump"), self.folder.join("dump.new"));
        let (before, counter) = (Dump::read(&fs::read(&old)?)?.counter(), Dump::read(&room[..length])?.counter());
        let mut file = File::create(&new)?;
        self.ends.write(&mut file, &room[..length])?;
        file.sync_all()?;
        self.ends.step();
        fs::rename(&new, &old)?; // from here on the new dump counts, and its journal, which has no record yet
        self.ends.step();
        self.journal = File::create(journal_of(&self.folder, counter))?;
        File::open(&self.folder)?.sync_all()?;
        self.ends.step();
        if before != counter {
            fs::remove_file(journal_of(&self.folder, before))?;
        }
        Ok(())
    }
}

// ---- the child: edits seats, and halts after so many bytes

/// Bytes until it halts.
struct Ends(usize);

impl Ends {
    fn write(&mut self, file: &mut File, bytes: &[u8]) -> io::Result<()> {
        file.write_all(&bytes[..bytes.len().min(self.0)])?;
        self.spend(bytes.len());
        Ok(())
    }

    fn step(&mut self) {
        self.spend(STEP);
    }

    fn spend(&mut self, bytes: usize) {
        if self.0 <= bytes {
            println!("halted");
            loop {
                std::thread::park(); // until it is killed
            }
        }
        self.0 -= bytes;
    }
}

/// The writes of a record, for the parent: ` A1=loop B2-`.
fn writes_of(record: &[u8]) -> String {
    let records = hourbracken::journal::Records::new(record).map_while(Result::ok);
    let text = |bytes: &[u8]| String::from_utf8_lossy(bytes).into_owned();
    let write = |write: hourbracken::journal::Write| match write.value {
        Some(value) => format!(" {}={}", text(write.key), text(value)),
        None => format!(" {}-", text(write.key)),
    };
    records.flat_map(|record| record.writes()).map(write).collect()
}

fn edit(hall: &mut Hall, start: Start, rng: &mut SplitMix64) -> Answer<()> {
    for _ in 0..=rng.below(4) {
        let key = [b'A' + rng.below(SIZES.key_rooms) as u8, b'1'];
        if rng.chance(1, 4) {
            hall.store.delete(start, &key)?;
        } else {
            hall.store.put(start, &key, rng.pick(&[&b""[..], b"loop", b"direct", b"stage-left"]))?;
        }
    }
    Ok(())
}

/// Two at a time: some clash, some are aborted, and some write nothing.
fn live(folder: &Path, seed: u64) -> Answer<()> {
    let (mut memories, mut rng) = (Memories::new(), SplitMix64::new(seed));
    let ends = Ends(rng.below(MOST));
    let mut hall = Hall::come_back(folder, &mut memories, ends)?;
    loop {
        let starts = [hall.store.begin()?.start, hall.store.begin()?.start];
        for start in starts {
            if rng.chance(7, 8) {
                edit(&mut hall, start, &mut rng)?;
            }
        }
        for start in starts {
            if rng.chance(1, 8) {
                hall.store.abort(start)?;
            } else {
                hall.commit(start)?;
            }
        }
    }
}

// ---- the parent: kills it, and looks what is there

type Writes = BTreeMap<Vec<u8>, Option<Vec<u8>>>;

/// A commit that the parent heard of.
struct Told {
    number: u64,
    writes: Writes,
    saved: bool,
}

impl Told {
    /// Of a line `3 A1=loop B2-`.
    fn of(line: &str) -> Option<Told> {
        let mut words = line.split_whitespace();
        let number = words.next()?.parse().ok()?;
        let write = |word: &str| match word.split_once('=') {
            Some((key, value)) => (key.into(), Some(value.into())),
            None => (word.trim_end_matches('-').into(), None),
        };
        Some(Told { number, writes: words.map(write).collect(), saved: false })
    }

    fn record_len(&self) -> usize {
        let payload = |value: &Option<Vec<u8>>| value.as_ref().map_or(1, |value| 1 + 4 + value.len());
        18 + self.writes.iter().map(|(key, value)| 4 + key.len() + payload(value)).sum::<usize>()
    }
}

/// Starts the child, hears it until it halts, and kills it. Answers how many commits it told.
fn kill_one(folder: &Path, seed: u64, told: &mut Vec<Told>) -> Answer<usize> {
    // an emulated program can't start itself
    let mut words = Vec::from_iter(var_os("CARGO_TARGET_X86_64_UNKNOWN_LINUX_GNU_RUNNER"));
    words.extend([current_exe()?.into(), "--live".into(), folder.into(), seed.to_string().into()]);
    let mut child = Command::new(&words[0]).args(&words[1..]).stdout(Stdio::piped()).spawn()?;
    let lines = BufReader::new(child.stdout.take().ok_or("no output")?).lines();
    let (mut saved, mut halted) = (0, false);
    for line in lines.map_while(Result::ok) {
        if let Some(rest) = line.strip_prefix("under way ") {
            told.push(Told::of(rest).ok_or("no commit")?);
        } else if let (Some(number), Some(last)) = (line.strip_prefix("saved "), told.last_mut()) {
            last.saved = number == last.number.to_string();
            saved += usize::from(last.saved);
        } else if line == "halted" {
            halted = true;
            break;
        }
    }
    child.kill()?;
    child.wait()?;
    halted.then_some(saved).ok_or_else(|| "the child ended by itself".into())
}

/// Versions by key and number.
type Held = BTreeMap<(Vec<u8>, u64), Option<Vec<u8>>>;

fn held_in(dump: &Dump) -> Held {
    let mut held = Held::new();
    for entry in dump.entries() {
        let versions = entry.versions().map(|version| (version.number, version.value.map(<[u8]>::to_vec)));
        held.extend(versions.map(|(number, value)| ((entry.key.to_vec(), number), value)));
    }
    held
}

/// What the parent goes by: the last dump, and the commits since that it heard of.
struct Known {
    dump: Vec<u8>,
    counter: u64,
    held: Held,
    told: Vec<Told>,
    journal_len: usize,
}

impl Known {
    fn by(dump: Vec<u8>) -> Answer<Known> {
        let read = Dump::read(&dump)?;
        let (counter, held) = (read.counter(), held_in(&read));
        Ok(Known { dump, counter, held, told: Vec::new(), journal_len: 0 })
    }

    /// The versions of the dump and of the first so many commits since.
    fn held_after(&self, commits: usize) -> Held {
        let mut held = self.held.clone();
        for Told { number, writes, .. } in &self.told[..commits] {
            held.extend(writes.iter().map(|(key, value)| ((key.clone(), *number), value.clone())));
        }
        held
    }

    /// The journal, replayed over the dump, has to give the commits whose records are whole, and nothing else. Answers
    /// how many they are.
    fn rebuilt(&self, journal: &[u8]) -> Answer<usize> {
        let (mut end, mut whole) = (0, 0);
        while let Some(next) = self.told.get(whole).map(|commit| end + commit.record_len()) {
            if next > journal.len() {
                break;
            }
            (end, whole) = (next, whole + 1);
        }
        let mut memories = Memories::new();
        let mut store = Store::load(&self.dump, &mut memories.hall, &mut memories.desk, SIZES)?;
        if store.replay(journal)? != end {
            return Err(format!("its records do not end at {end}").into());
        }
        let mut room = [0; SIZES.dump_len()];
        let length = store.dump(&mut room)?;
        if held_in(&Dump::read(&room[..length])?) != self.held_after(whole) {
            return Err(format!("its {whole} commits are not what was told").into());
        }
        Ok(whole)
    }

    /// Each byte that the journal grew by is a place to cut it. Answers how many they are.
    fn cut(&mut self, journal: &[u8]) -> Answer<usize> {
        for end in self.journal_len..journal.len() {
            self.rebuilt(&journal[..end]).map_err(|why| format!("cut at {end}: {why}"))?;
        }
        let grown = journal.len().saturating_sub(self.journal_len);
        self.journal_len = journal.len();
        Ok(grown)
    }

    /// Another dump has come, after a sweep: all that it has was told up to its counter, and each key's newest value is
    /// there.
    fn go_on_from(&mut self, dump: Vec<u8>) -> Answer<()> {
        let mut next = Known::by(dump)?;
        let before = self.told.iter().take_while(|commit| commit.number <= next.counter).count();
        let all = self.held_after(before);
        let newest: BTreeMap<_, _> = all.iter().map(|((key, number), value)| (key, (*number, value))).collect();
        let is_there = |(key, (number, value)): (&Vec<u8>, (u64, &Option<Vec<u8>>))| {
            value.is_none() || next.held.contains_key(&(key.clone(), number))
        };
        if !(next.held.iter().all(|(at, value)| all.get(at) == Some(value)) && newest.into_iter().all(is_there)) {
            return Err(format!("the dump at {} is not what was told", next.counter).into());
        }
        next.told = self.told.split_off(before);
        *self = next;
        Ok(())
    }
}

#[derive(Default)]
struct Count {
    saved: usize,
    untold: usize,
    cuts: usize,
    lost: usize,
}

/// One kill, and what is there then. A commit that is not whole never was; one that is whole stays, told or not.
fn look(folder: &Path, known: &mut Known, count: &mut Count) -> Answer<()> {
    let dump = fs::read(folder.join("dump"))?;
    if dump != known.dump {
        known.go_on_from(dump)?;
    }
    let journal = contents(&journal_of(folder, known.counter))?;
    let whole = known.rebuilt(&journal)?;
    count.cuts += known.cut(&journal)?;
    count.lost += known.told[whole..].iter().filter(|commit| commit.saved).count();
    known.told.truncate(whole);
    if let Some(last) = known.told.last_mut().filter(|last| !last.saved) {
        count.untold += 1;
        last.saved = true;
    }
    known.journal_len = known.told.iter().map(Told::record_len).sum();
    Ok(())
}

fn kill(folder: &Path, kills: usize, seed: u64) -> Answer<Count> {
    let (mut memories, mut dump) = (Memories::new(), vec![0; SIZES.dump_len()]);
    let length = Store::make(&mut memories.hall, &mut memories.desk, SIZES)?.dump(&mut dump)?;
    dump.truncate(length);
    fs::write(folder.join("dump"), &dump)?;
    let (mut known, mut count, mut rng) = (Known::by(dump)?, Count::default(), SplitMix64::new(seed));
    for at in 0..kills {
        count.saved += kill_one(folder, rng.draw(), &mut known.told)?;
        look(folder, &mut known, &mut count).map_err(|why| format!("kill {at}: {why}"))?;
    }
    Ok(count)
}

fn number(words: &[String], name: &str, otherwise: u64) -> Answer<u64> {
    match words.iter().position(|word| word == name) {
        Some(at) => Ok(words.get(at + 1).ok_or("a number is missing")?.parse()?),
        None => Ok(otherwise),
    }
}

fn main() -> Answer<ExitCode> {
    let words: Vec<String> = args().skip(1).collect();
    if let ["--live", folder, seed] = words.iter().map(String::as_str).collect::<Vec<_>>()[..] {
        live(Path::new(folder), seed.parse()?)?;
    }
    let (kills, seed) = (number(&words, "--kills", 100)? as usize, number(&words, "--seed", 1)?);
    let folder = temp_dir().join(format!("hourbracken-journal-{}", std::process::id()));
    fs::create_dir(&folder)?;
    let counted = kill(&folder, kills, seed);
    fs::remove_dir_all(&folder)?;
    let Count { saved, untold, cuts, lost } = counted?;
    println!("{kills} kills and {cuts} cuts, {saved} commits told and {untold} untold: {lost} lost");
    Ok(if lost == 0 { ExitCode::SUCCESS } else { ExitCode::FAILURE })
}
