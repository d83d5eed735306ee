//! Holds the definitions of crates/model/specs to the plain store: see trials/README.md.

use std::collections::BTreeMap;
use std::fs;
use std::io;
use std::path::{Path, PathBuf};
use std::process::{exit, Command};
use std::time::Instant;
use trials::antt::{Frame, Run};
use trials::call::{number, Reply};
use trials::language::{call_text, opening_text, refusal_text, reply_text};

struct Settings {
    from: u64,
    seeds: u64,
    calls: usize,
    loads: u64,
    per_file: usize,
    model: PathBuf,
    keep: bool,
    /// Say that they differ, and not which call.
    quick: bool,
}

impl Settings {
    fn read() -> Result<Settings, String> {
        let home = Path::new(env!("CARGO_MANIFEST_DIR")).join("../crates/model");
        let mut all =
            Settings { from: 0, seeds: 300, calls: 30, loads: 4, per_file: 50, model: home, keep: false, quick: false };
        let mut words = std::env::args().skip(1);
        while let Some(word) = words.next() {
            match word.as_str() {
                "--keep" => all.keep = true,
                "--quick" => all.quick = true,
                _ => all.take(&word, &words.next().ok_or(format!("{word} wants a value"))?)?,
            }
        }
        Ok(all)
    }

    fn take(&mut self, word: &str, value: &str) -> Result<(), String> {
        let number = value.parse::<u64>().map_err(|_| format!("{word} wants a number"));
        match word {
            "--from" => self.from = number?,
            "--seeds" => self.seeds = number?.max(1),
            "--calls" => self.calls = number?.max(1) as usize,
            "--loads" => self.loads = number?,
            "--per-file" => self.per_file = number?.max(1) as usize,
            "--model" => self.model = PathBuf::from(value),
            _ => return Err(format!("no such word: {word}")),
        }
        Ok(())
    }
}

/// A repository of the one crate: the model's specs, no code, and in proofs/ nothing but the given runs.
struct Ground {
    at: PathBuf,
    frame: Frame,
}

impl Ground {
    fn new(model: &Path) -> io::Result<Ground> {
        let at = std::env::temp_dir().join(format!("trials-cases-{}", std::process::id()));
        let crate_at = at.join("crates/model");
        fs::create_dir_all(crate_at.join("specs"))?;
        fs::create_dir_all(crate_at.join("src"))?;
        fs::create_dir_all(crate_at.join("proofs"))?;
        fs::write(at.join("crates.txt"), "model:\n")?;
        fs::write(crate_at.join("src/lib.rt"), "// No code: only the definitions are held to account here.\n")?;
        for file in fs::read_dir(model.join("specs"))? {
            let file = file?;
            fs::copy(file.path(), crate_at.join("specs").join(file.file_name()))?;
        }
        let frame = Frame::read(&crate_at.join("specs"))?;
        Ok(Ground { at, frame })
    }

    /// Whether every theorem of the runs is proved, and what the prover says.
    fn check(&self, runs: &[Run], per_file: usize) -> io::Result<(bool, String)> {
        let proofs = self.at.join("crates/model/proofs");
        fs::remove_dir_all(&proofs)?;
        fs::create_dir_all(&proofs)?;
        let mut lib = String::new();
        for (i, part) in runs.chunks(per_file).enumerate() {
            fs::write(proofs.join(format!("Trial{i}.antt")), self.frame.file(part))?;
            lib += &format!("pub mod Trial{i}\n");
        }
        fs::write(proofs.join("Lib.antt"), lib)?;
        let out = Command::new("rt").arg("check").current_dir(self.at.join("crates/model")).output()?;
        let said = String::from_utf8_lossy(&out.stdout).into_owned() + &String::from_utf8_lossy(&out.stderr);
        let proved = out.status.success() && said.lines().any(|line| line.starts_with("logic=proved "));
        Ok((proved, said))
    }

    /// Shows the shortest run that the prover names, up to the first call that differs.
    fn blame(&self, runs: &[Run], said: &str) -> io::Result<()> {
        let Some(run) = runs.iter().filter(|run| names(said, run)).min_by_key(|run| run.calls.len()) else {
            println!("the prover names no run");
            return Ok(());
        };
        // The first `low` calls agree, the first `high` do not; or the opening differs, and both come to 0.
        let (mut low, mut high) = (0, run.calls.len());
        let (_, mut last) = self.check(&[run.cut(high)], 1)?;
        while low < high {
            let middle = (low + high) / 2;
            let (_, said) = self.check(&[run.cut(middle)], 1)?;
            // A fault can break the table of cases too, whatever the run.
            if names(&said, run) {
                (high, last) = (middle, said);
            } else {
                low = middle + 1;
            }
        }
        println!("run {}, as console lines with the plain store's answers; the last one differs:", run.name);
        let answer = run.refused.as_ref().map_or("ok".to_string(), refusal_text);
        println!("  {}  # {answer}", opening_text(&run.opening));
        for (call, reply) in run.calls.iter().zip(&run.replies).take(high) {
            println!("  {}  # {}", call_text(call), reply_text(reply));
        }
        for line in last.lines().filter(|line| line.contains("error") && names(line, run)) {
            println!("  {}", line.chars().take(1_000).collect::<String>());
        }
        Ok(())
    }
}

/// Whether the prover names a theorem of the run.
fn names(said: &str, run: &Run) -> bool {
    ["run", "creation", "journal"].iter().any(|what| said.contains(&format!("`{what}_{}`", run.name)))
}

fn main() -> io::Result<()> {
    let settings = Settings::read().unwrap_or_else(|fault| {
        eprintln!("cases: {fault}");
        exit(2);
    });
    let began = Instant::now();
    let mut runs: Vec<Run> = Vec::new();
    for seed in settings.from..settings.from + settings.seeds {
        runs.push(Run::random(seed, settings.calls));
        runs.extend((0..settings.loads).map(|place| Run::load(seed, place)));
        runs.extend((0..settings.loads).filter_map(|place| Run::recovery(seed, place, 2 * settings.calls)));
    }
    let mut refusals: BTreeMap<u8, u64> = BTreeMap::new();
    for run in &runs {
        let in_calls = run.replies.iter().filter_map(|reply| match reply {
            Reply::No(no) => Some(no),
            _ => None,
        });
        for no in run.refused.iter().chain(in_calls) {
            *refusals.entry(number(no)).or_default() += 1;
        }
    }
    let calls: usize = runs.iter().map(|run| run.calls.len()).sum();
    let refused = runs.iter().filter(|run| run.refused.is_some()).count();

    let ground = Ground::new(&settings.model)?;
    let (proved, said) = ground.check(&runs, settings.per_file)?;
    let count = runs.len();
    if proved {
        println!(
            "{count} runs agree ({refused} of them refused openings), {calls} calls, {:.1} s; refusals met: {refusals:?}",
            began.elapsed().as_secs_f64()
        );
    } else {
        let errors: Vec<&str> = said.lines().filter(|line| line.contains("error")).collect();
        println!(
            "{count} runs, {} theorems fail; first: {:.300}",
            errors.len(),
            errors.first().unwrap_or(&"no error line")
        );
        if !settings.quick {
            ground.blame(&runs, &said)?;
        }
    }
    if settings.keep {
        println!("kept: {}", ground.at.display());
    } else {
        fs::remove_dir_all(&ground.at)?;
    }
    exit(if proved { 0 } else { 1 });
}
