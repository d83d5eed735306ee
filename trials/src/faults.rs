//! Consoles with a fault put in: each must be found by some seed, and shown in few lines.

mod batches;

use crate::call::Call;
use crate::compare::{expected, Difference};
use crate::console::{lines, Console};
use crate::journal::HEAD;
use crate::language::{self, call_text, is_silent, key, parse, refusal_text, Asked, Which};
use crate::layout::{hall_length, Held, HALL_HEADER, HALL_SPARE};
use crate::script::script;
use crate::store::{Bytes, No, Store, DESKS_MAX, KEY_MAX, VALUE_MAX, WRITES_MAX};
use crate::trial::{blame, judge, Failure, Heard};
use std::sync::OnceLock;

const SEEDS: usize = 100;
const LINES: usize = 150;
/// So many of the seeds that find a fault are made short, if need be.
const TRIES: usize = 4;

/// The scripts of the seeds, each with what the plain store answers: all faults are looked for in the same ones.
static SCRIPTS: [OnceLock<(String, String)>; SEEDS] = [const { OnceLock::new() }; SEEDS];

fn difference(console: &impl Fn(&[u8]) -> Heard, seed: usize) -> Option<Difference> {
    let (script, answers) = SCRIPTS[seed].get_or_init(|| {
        let script = script(seed as u64, LINES);
        let answers = expected(script.as_bytes()).filter_map(|(_, answer)| answer);
        let answers = answers.map(|answer| answer + "\n").collect();
        (script, answers)
    });
    let heard = console(script.as_bytes());
    if heard.answers == answers.as_bytes() {
        return None;
    }
    judge(script.as_bytes(), &heard).err()
}

/// The plain store's console, but for what `fault` makes of a line.
fn found(most_lines: usize, fault: impl Fn(&mut Console, &str) -> String) {
    let console = |script: &[u8]| {
        let mut console = Console::new();
        let mut answers = String::new();
        for line in lines(script).map(String::from_utf8_lossy).filter(|line| !is_silent(line)) {
            if matches!(parse(&line), Some(Asked::Quit)) {
                break;
            }
            // A fault need not know how it was typed.
            answers += &fault(&mut console, &language::plain(&line));
            answers += "\n";
        }
        Heard { answers: answers.into_bytes(), fault: None }
    };
    let first = |seed| difference(&console, seed).map(|seen| (seed as u64, seen));
    let shown = (0..SEEDS).filter_map(first).take(TRIES).map(|(seed, seen)| blame(&console, seed, LINES, seen));
    let is_short = |failure: &Failure| {
        println!("seed {}:\n{}{}", failure.seed, failure.script, failure.difference);
        lines(failure.script.as_bytes()).count() <= most_lines
    };
    assert!(shown.into_iter().any(|failure| is_short(&failure)), "no seed finds it, or none in {most_lines} lines");
}

fn plain(console: &mut Console, line: &str) -> String {
    console.answer_bytes(line.as_bytes()).unwrap()
}

fn set(console: &mut Console, from: usize, bytes: &[u8]) {
    for (i, byte) in bytes.iter().enumerate() {
        plain(console, &format!("poke hall {} {byte}", from + i));
    }
}

#[test]
fn a_refusal_changes_a_byte() {
    found(5, |console, line| {
        let answer = plain(console, line);
        if answer == "no 5" {
            let byte = console.memory(Which::Hall)[700_000] ^ 1;
            set(console, 700_000, &[byte]);
        }
        answer
    });
}

#[test]
fn an_offset_is_four_too_high() {
    found(1, |console, line| {
        let answer = plain(console, line);
        match answer.strip_prefix("no 13 ") {
            Some(offset) => format!("no 13 {}", offset.parse::<u64>().unwrap() + 4),
            None => answer,
        }
    });
}

/// By the version's own number and not by its successor's: the open reader loses its seat.
#[test]
fn a_sweep_drops_one_too_many() {
    found(9, |console, line| {
        let answer = plain(console, line);
        let words: Vec<&str> = answer.split(' ').collect();
        let ["swept", cutoff, dropped] = words[..] else { return answer };
        let (cutoff, mut dropped): (u64, u64) = (cutoff.parse().unwrap(), dropped.parse().unwrap());
        console.meddle(|store| {
            let before = store.versions_held();
            for chain in store.keys.values_mut() {
                let newest = chain.last().unwrap().number;
                chain.retain(|version| version.number > cutoff || version.number == newest);
            }
            dropped += before - store.versions_held();
        });
        format!("swept {cutoff} {dropped}")
    });
}

/// The newest version at or below the cutoff stays, whatever it is: the key keeps its room.
#[test]
fn a_swept_deletion_stays() {
    found(9, |console, line| {
        let Held::Both(before) = console.held().clone() else { return plain(console, line) };
        let answer = plain(console, line);
        let words: Vec<&str> = answer.split(' ').collect();
        let ["swept", cutoff, dropped] = words[..] else { return answer };
        let (cutoff, mut dropped): (u64, u64) = (cutoff.parse().unwrap(), dropped.parse().unwrap());
        console.meddle(|store| {
            for (key, chain) in &before.keys {
                let newest = chain.iter().rev().find(|version| version.number <= cutoff);
                if let Some(gone) = newest.filter(|version| version.content.is_none()) {
                    store.keys.entry(key.clone()).or_default().insert(0, gone.clone());
                    dropped -= 1;
                }
            }
        });
        format!("swept {cutoff} {dropped}")
    });
}

/// What a sweep between readers makes of the store before it, as `thin` would have it.
fn thinned(console: &mut Console, line: &str, thin: impl Fn(&mut Store, u64)) -> String {
    let limit = line.strip_prefix("sweep2 ").and_then(|limit| limit.parse::<u64>().ok());
    let (Some(limit), Held::Both(before)) = (limit, console.held().clone()) else { return plain(console, line) };
    let mut dropped = 0;
    console.meddle(|store| {
        thin(store, limit);
        dropped = before.versions_held() - store.versions_held();
    });
    format!("swept2 {dropped}")
}

#[test]
fn a_sweep_between_readers_stops_at_the_least() {
    found(12, |console, line| {
        thinned(console, line, |store, limit| {
            store.sweep(limit);
            store.floor = store.floor.max(limit.min(store.counter));
        })
    });
}

#[test]
fn open_starts_hold_the_floor_of_a_sweep_between_readers() {
    found(5, |console, line| {
        thinned(console, line, |store, limit| {
            let least = store.desks.iter().flatten().map(|desk| desk.start).min();
            let floor = store.floor.max(limit.min(store.counter).min(least.unwrap_or(u64::MAX)));
            store.thin(limit);
            store.floor = floor;
        })
    });
}

/// A start just below a version is passed over.
#[test]
fn the_end_of_a_gap_is_not_looked_at() {
    found(9, |console, line| {
        thinned(console, line, |store, limit| {
            let numbers: Vec<u64> = store.keys.values().flatten().map(|version| version.number).collect();
            let desks = store.desks.clone();
            for desk in &mut store.desks {
                desk.take_if(|desk| numbers.contains(&(desk.start + 1)));
            }
            store.thin(limit);
            store.desks = desks;
        })
    });
}

/// A transaction that began before it does not meet it any more.
#[test]
fn a_deletion_goes_from_above_a_start() {
    found(6, |console, line| {
        thinned(console, line, |store, limit| {
            store.thin(limit);
            for chain in store.keys.values_mut() {
                if chain[0].content.is_none() && chain[0].number <= limit {
                    chain.remove(0);
                }
            }
            store.keys.retain(|_, chain| !chain.is_empty());
        })
    });
}

/// Only a sweep that drops something raises the floor.
#[test]
fn an_idle_sweep_leaves_the_floor() {
    found(4, |console, line| {
        let Held::Both(before) = console.held().clone() else { return plain(console, line) };
        let answer = plain(console, line);
        if answer.starts_with("swept ") && answer.ends_with(" 0") {
            console.meddle(|store| store.floor = before.floor);
        }
        answer
    });
}

/// The newest version, whatever number is asked.
#[test]
fn the_past_is_read_as_the_present() {
    found(20, |console, line| {
        let answer = plain(console, line);
        match (line.strip_prefix("readat "), answer.starts_with("hall ") || answer == "none") {
            (Some(asked), true) => plain(console, &format!("newest {}", asked.split(' ').nth(1).unwrap())),
            _ => answer,
        }
    });
}

/// By the counter and not by the key's own versions.
#[test]
fn any_commit_since_the_begin_clashes() {
    found(9, |console, line| {
        let Held::Both(before) = console.held().clone() else { return plain(console, line) };
        let answer = plain(console, line);
        match (line.strip_prefix("commit "), answer.starts_with("committed")) {
            (Some(start), true) if start.parse::<u64>().unwrap() < before.counter => "no 9 41 1".to_string(),
            _ => answer,
        }
    });
}

#[test]
fn only_the_first_clash_is_named() {
    found(12, |console, line| {
        let answer = plain(console, line);
        let words: Vec<&str> = answer.split(' ').collect();
        if answer.starts_with("no 9 ") {
            words[..4].join(" ")
        } else {
            answer
        }
    });
}

/// Each key has a newest number of its own.
#[test]
fn all_clashes_have_the_first_ones_number() {
    found(14, |console, line| {
        let answer = plain(console, line);
        let mut words: Vec<&str> = answer.split(' ').collect();
        if answer.starts_with("no 9 ") {
            let number = words[3];
            words.iter_mut().skip(3).step_by(2).for_each(|word| *word = number);
        }
        words.join(" ")
    });
}

/// Also those that no one else wrote.
#[test]
fn every_key_of_a_clashing_commit_is_named() {
    found(12, |console, line| {
        let Held::Both(before) = console.held().clone() else { return plain(console, line) };
        let answer = plain(console, line);
        let start = line.strip_prefix("commit ").and_then(|start| start.parse::<u64>().ok());
        let desk = before.desks.iter().flatten().find(|desk| Some(desk.start) == start);
        match (answer.starts_with("no 9 "), desk) {
            (true, Some(desk)) => {
                let newest = |key| before.keys.get(key).map_or(0, |chain| chain[chain.len() - 1].number);
                refusal_text(&No::Conflict(desk.writes.keys().map(|key| (key.clone(), newest(key))).collect()))
            }
            _ => answer,
        }
    });
}

#[test]
fn an_empty_value_is_read_as_a_deletion() {
    found(4, |console, line| plain(console, line).replace("own -", "none"));
}

/// From 32 on, as a byte that shows is often taken.
#[test]
fn a_space_passes_in_a_key() {
    found(4, |console, line| {
        let answer = plain(console, line);
        // A read's last word.
        let key = line.split(' ').next_back().and_then(key).unwrap_or_default();
        match answer.as_str() {
            "no 3" if key.contains(&b' ') && key.len() <= KEY_MAX => "none".to_string(),
            _ => answer,
        }
    });
}

/// Of a first key only the bytes can be wrong.
#[test]
fn a_loaded_key_is_not_looked_into() {
    found(2, |console, line| {
        let answer = plain(console, line);
        if answer == "no 14 24" {
            "ok".to_string()
        } else {
            answer
        }
    });
}

/// A load makes as many desks as there can be.
#[test]
fn the_number_of_desks_is_not_looked_at() {
    found(2, |console, line| {
        let answer = plain(console, line);
        if line.starts_with("load") && answer == "ok" {
            console.meddle(|store| {
                store.sizes.desks = DESKS_MAX;
                store.desks.resize(DESKS_MAX as usize, None);
            });
        }
        answer
    });
}

/// One desk more than were chosen.
#[test]
fn a_desk_too_many_is_taken() {
    found(4, |console, line| {
        let Held::Both(before) = console.held().clone() else { return plain(console, line) };
        match (plain(console, line).as_str(), before.desks.len()) {
            ("no 6", desks) if desks < DESKS_MAX as usize => format!("begun {} {desks}", before.counter + 1),
            (answer, _) => answer.to_string(),
        }
    });
}

#[test]
fn a_value_of_one_byte_too_many_passes() {
    found(4, |console, line| {
        let answer = plain(console, line);
        let value = line.split(' ').next_back().map_or(0, |word| word.len() / 2);
        if answer == "no 4" && value == VALUE_MAX + 1 {
            "no 5".to_string()
        } else {
            answer
        }
    });
}

/// The journal that a line replays.
fn journal_of(line: &str) -> Option<Bytes> {
    match parse(line)? {
        Asked::Call(Call::Replay { journal }) => Some(journal),
        _ => None,
    }
}

/// The console, but for what `fault` makes of a replay's answer, given the journal and the number in it.
fn found_in_replay(most_lines: usize, fault: impl Fn(&mut Console, Held, &[u8], &str, usize) -> String) {
    found(most_lines, |console, line| {
        let before = console.held().clone();
        let answer = plain(console, line);
        let number = answer.split(' ').next_back().and_then(|word| word.parse::<usize>().ok());
        match (journal_of(line), number) {
            (Some(journal), Some(number)) => fault(console, before, &journal, &answer, number),
            _ => answer,
        }
    });
}

#[test]
fn a_cut_is_taken_for_a_fault() {
    found_in_replay(2, |_, _, journal, answer, end| match answer.starts_with("replayed") && end < journal.len() {
        true => format!("no 14 {end}"),
        false => answer.to_string(),
    });
}

#[test]
fn a_fault_of_a_record_is_told_in_its_body() {
    found_in_replay(2, |_, _, _, answer, offset| match answer.starts_with("no 14 ") {
        true => format!("no 14 {}", offset + HEAD),
        false => answer.to_string(),
    });
}

/// The number or the count of the record that a replay stopped at.
fn stopped_at(journal: &[u8], answer: &str, offset: usize, from: usize, width: usize) -> Option<u64> {
    let bytes = journal.get(offset + HEAD + from..offset + HEAD + from + width)?;
    answer.starts_with("no 14 ").then(|| bytes.iter().rev().fold(0, |high, byte| high << 8 | *byte as u64))
}

#[test]
fn an_old_record_is_passed_over() {
    found_in_replay(4, |console, _, journal, answer, offset| {
        let Held::Both(store) = console.held() else { return answer.to_string() };
        match stopped_at(journal, answer, offset, 0, 8) {
            Some(number) if number <= store.counter => format!("replayed {}", journal.len()),
            _ => answer.to_string(),
        }
    });
}

#[test]
fn a_number_above_the_last_is_replayed() {
    found_in_replay(2, |_, _, journal, answer, offset| match stopped_at(journal, answer, offset, 0, 8) {
        Some(u64::MAX) => format!("replayed {}", journal.len()),
        _ => answer.to_string(),
    });
}

#[test]
fn a_record_of_seventeen_writes_is_replayed() {
    found_in_replay(2, |_, _, journal, answer, offset| match stopped_at(journal, answer, offset, 8, 4) {
        Some(count) if count == WRITES_MAX as u64 + 1 => format!("replayed {}", journal.len()),
        _ => answer.to_string(),
    });
}

#[test]
fn what_stands_before_a_fault_is_taken_back() {
    found_in_replay(3, |console, before, _, answer, offset| {
        if let (true, Held::Both(before)) = (answer.starts_with("no ") && offset > 0, before) {
            console.meddle(|store| *store = before);
        }
        answer.to_string()
    });
}

#[test]
fn the_counter_is_one_above_the_last_record() {
    found_in_replay(3, |console, _, _, answer, end| {
        if answer.starts_with("replayed") && end > 0 {
            console.meddle(|store| store.counter = store.counter.saturating_add(1).min(u64::MAX - 1));
        }
        answer.to_string()
    });
}

#[test]
fn a_replay_raises_the_floor() {
    found_in_replay(3, |console, _, _, answer, _| {
        if answer.starts_with("replayed") {
            console.meddle(|store| store.floor = store.counter);
        }
        answer.to_string()
    });
}

#[test]
fn a_record_without_room_is_passed_over() {
    found_in_replay(3, |_, _, journal, answer, _| match answer.starts_with("no 10 ") || answer.starts_with("no 11 ") {
        true => format!("replayed {}", journal.len()),
        false => answer.to_string(),
    });
}

#[test]
fn open_desks_stop_no_empty_replay() {
    found(3, |console, line| plain(console, line).replace("no 17", "replayed 0"));
}

/// The console, but for what `fault` makes of a commit's answer, given its start and the room for its record.
fn found_in_commit(most_lines: usize, fault: impl Fn(&mut Console, &str, u64, u64) -> String) {
    found(most_lines, |console, line| match parse(line) {
        Some(Asked::Call(Call::CommitTo { start, room })) => {
            let answer = plain(console, line);
            fault(console, &answer, start, room)
        }
        _ => plain(console, line),
    });
}

#[test]
fn a_short_output_closes_the_desk() {
    found_in_commit(5, |console, answer, start, _| {
        if answer == "no 12" {
            plain(console, &call_text(&Call::Abort { start }));
        }
        answer.to_string()
    });
}

#[test]
fn a_short_output_is_written_to() {
    found_in_commit(5, |console, answer, start, _| match answer {
        "no 12" => plain(console, &call_text(&Call::CommitTo { start, room: u64::MAX })),
        _ => answer.to_string(),
    });
}

#[test]
fn a_record_may_not_fill_its_output() {
    found_in_commit(4, |_, answer, _, room| {
        let record = answer.split(' ').nth(2).map_or(0, |hex| hex.len() as u64 / 2);
        match answer.starts_with("committed") && record == room {
            true => "no 12".to_string(),
            false => answer.to_string(),
        }
    });
}

#[test]
fn an_output_is_asked_for_nothing() {
    found_in_commit(
        3,
        |_, answer, _, room| if room == 0 { answer.replace("closed -", "no 12") } else { answer.into() },
    );
}

#[test]
fn an_output_is_looked_at_before_the_rooms() {
    found_in_commit(9, |_, answer, _, room| match (answer, room) {
        ("no 10" | "no 11", 0) => "no 12".to_string(),
        _ => answer.to_string(),
    });
}

#[test]
fn an_output_is_looked_at_before_a_conflict() {
    found_in_commit(9, |_, answer, _, room| match answer.starts_with("no 9 ") && room == 0 {
        true => "no 12".to_string(),
        false => answer.to_string(),
    });
}

#[test]
fn a_load_clears_too_much() {
    found(2, |console, line| {
        let answer = plain(console, line);
        if let (true, "ok", Held::Both(store)) = (line.starts_with("load"), &answer[..], console.held()) {
            let past = hall_length(store.sizes);
            set(console, past, &[0]);
        }
        answer
    });
}

#[test]
fn spare_bytes_of_the_header_are_not_looked_at() {
    found(3, |console, line| {
        let call = !["sum ", "peek ", "poke "].iter().any(|word| line.starts_with(word));
        if !call || *console.held() != Held::Nothing {
            return plain(console, line);
        }
        let spare = console.memory(Which::Hall)[HALL_SPARE..HALL_HEADER].to_vec();
        set(console, HALL_SPARE, &vec![0; spare.len()]);
        let answer = plain(console, line);
        if answer != "ok" {
            set(console, HALL_SPARE, &spare);
        }
        answer
    });
}
