//! Faults of a batch.

use super::{found, plain};
use crate::batch::{front, parse, split, Record, Space, Who, RECORDS_MAX};
use crate::call::{call, Call, Reply};
use crate::console::Console;
use crate::language::{self, call_text, reply_text, Asked};
use crate::layout::Held;
use crate::store::{Kind, No, Store};

fn right(console: &mut Console, batch: &[u8], space: Space) -> String {
    plain(console, &call_text(&Call::Batch { batch: batch.to_vec(), space }))
}

/// The console, but for what `fault` makes of a batch.
fn found_in_batch(most_lines: usize, fault: impl Fn(&mut Console, &[u8], Space) -> String) {
    found(most_lines, |console, line| match language::parse(line) {
        Some(Asked::Call(Call::Batch { batch, space })) => fault(console, &batch, space),
        _ => plain(console, line),
    });
}

/// The same of a batch that is accepted: `all` does its records, and answers each.
fn found_in_accepted(most_lines: usize, all: impl Fn(&mut Store, &[Record]) -> Vec<Reply>) {
    found_in_batch(most_lines, |console, batch, space| match (parse(batch), console.held()) {
        (Ok(records), Held::Both(_)) if space == Space::Full || records.is_empty() => {
            let mut replies = Vec::new();
            console.meddle(|store| replies = all(store, &records));
            reply_text(&Reply::Batched(replies))
        }
        _ => right(console, batch, space),
    });
}

/// The same where each record is done by itself, after the replies to those before it.
fn found_in_records(most_lines: usize, each: impl Fn(&mut Store, &Record, &[Reply]) -> Reply) {
    found_in_accepted(most_lines, |store, records| {
        let mut replies = Vec::new();
        for record in records {
            let reply = each(store, record, &replies);
            replies.push(reply);
        }
        replies
    });
}

/// The same where a batch is refused, given the offset and the refusal's number.
fn found_in_refused(most_lines: usize, fault: impl Fn(&mut Console, &[u8], usize, u8) -> Option<String>) {
    found_in_batch(most_lines, |console, batch, space| {
        let (_, offset, no) = split(batch);
        let sound = matches!(console.held(), Held::Both(_));
        let answer = no.filter(|_| sound).and_then(|no| fault(console, batch, offset, no));
        answer.unwrap_or_else(|| right(console, batch, space))
    });
}

/// The record's call where its place is another start.
fn by_start(store: &mut Store, record: &Record, start: u64) -> Reply {
    call(store, &record.clone().with_who(Who::Start(start)).call(&[]))
}

fn is_refused(reply: &Reply) -> bool {
    matches!(reply, Reply::No(_))
}

#[test]
fn a_place_is_taken_for_a_desk() {
    found_in_records(3, |store, record, replies| match record.who() {
        Some(Who::Place(place)) => {
            let desk = store.desks.get(place as usize).and_then(Option::as_ref);
            let start = desk.map_or(0, |desk| desk.start);
            by_start(store, record, start)
        }
        _ => call(store, &record.call(replies)),
    });
}

#[test]
fn a_place_counts_begins_alone() {
    found_in_records(3, |store, record, replies| match record.who() {
        Some(Who::Place(place)) => {
            let mut begun = replies.iter().filter_map(|reply| match reply {
                Reply::Begun { start, .. } => Some(*start),
                _ => None,
            });
            let start = begun.nth(place as usize).unwrap_or(0);
            by_start(store, record, start)
        }
        _ => call(store, &record.call(replies)),
    });
}

#[test]
fn a_place_is_one_byte() {
    found_in_records(3, |store, record, replies| match record.who() {
        Some(Who::Place(place)) => {
            let start = Who::Place(place & 255).start(replies);
            by_start(store, record, start)
        }
        _ => call(store, &record.call(replies)),
    });
}

/// What comes behind it is not done.
#[test]
fn a_refusal_stops_the_batch() {
    found_in_records(3, |store, record, replies| match replies.iter().find(|reply| is_refused(reply)) {
        Some(refusal) => refusal.clone(),
        None => call(store, &record.call(replies)),
    });
}

#[test]
fn a_sweep_in_a_batch_is_only_answered() {
    found_in_records(9, |store, record, replies| match record {
        Record::Sweep { .. } => call(&mut store.clone(), &record.call(replies)),
        _ => call(store, &record.call(replies)),
    });
}

#[test]
fn sweeps_wait_for_the_end_of_the_batch() {
    found_in_accepted(9, |store, records| {
        let is_sweep = |record: &Record| matches!(record, Record::Sweep { .. });
        let mut replies = Vec::new();
        for record in records {
            let reply = if is_sweep(record) { Reply::Done } else { call(store, &record.call(&replies)) };
            replies.push(reply);
        }
        for (place, record) in records.iter().enumerate().filter(|(_, record)| is_sweep(record)) {
            replies[place] = call(store, &record.call(&replies));
        }
        replies
    });
}

/// As if they had not been copied.
#[test]
fn reads_are_told_as_they_are_at_the_end() {
    found_in_accepted(6, |store, records| {
        let mut replies: Vec<Reply> = Vec::new();
        for record in records {
            replies.push(call(store, &record.call(&replies)));
        }
        for (place, record) in records.iter().enumerate() {
            if let Reply::Found { kind: Kind::Own | Kind::Hall, .. } = replies[place] {
                let now = call(store, &record.call(&replies));
                replies[place] = if is_refused(&now) { replies[place].clone() } else { now };
            }
        }
        replies
    });
}

#[test]
fn a_begin_that_was_refused_is_looked_at_before_the_key() {
    found_in_records(6, |store, record, replies| match record.who() {
        Some(who @ Who::Place(_)) if who.start(replies) == 0 => Reply::No(No::Plain(5)),
        _ => call(store, &record.call(replies)),
    });
}

/// It is no earlier begin then.
#[test]
fn a_begin_that_was_refused_makes_its_place_malformed() {
    found_in_batch(6, |console, batch, space| {
        let before = console.held().clone();
        let answer = right(console, batch, space);
        let (Ok(records), Held::Both(mut store), true) = (parse(batch), before, answer.starts_with("batch")) else {
            return answer;
        };
        let (mut replies, mut at) = (Vec::new(), 0);
        for record in &records {
            if record.who().is_some_and(|who| who != Who::Start(0) && who.start(&replies) == 0) {
                return format!("no 18 {at}");
            }
            replies.push(call(&mut store, &record.call(&replies)));
            at += record.bytes().len();
        }
        answer
    });
}

#[test]
fn a_conflict_in_a_batch_names_one_key() {
    found_in_records(12, |store, record, replies| match call(store, &record.call(replies)) {
        Reply::No(No::Conflict(keys)) => Reply::No(No::Conflict(keys[..1].to_vec())),
        reply => reply,
    });
}

/// A reserved kind behind a place that is no earlier begin, or behind a byte over 1.
#[test]
fn reserved_kinds_are_looked_for_first() {
    found_in_refused(2, |_, batch, offset, _| {
        let mut at = offset;
        while at < batch.len() {
            match front(&batch[at..]) {
                Ok((_, length)) => at += length,
                Err(19) => return Some(format!("no 19 {at}")),
                Err(_) => return None,
            }
        }
        None
    });
}

/// As the records are read, by what those before the fault need.
#[test]
fn the_space_is_looked_at_before_the_records() {
    found_in_refused(2, |_, _, offset, _| (offset > 0).then(|| "no 12".to_string()));
}

#[test]
fn the_space_is_looked_at_before_the_memories() {
    found_in_batch(1, |console, batch, space| {
        let answer = right(console, batch, space);
        match answer == "no 1" && space == Space::Short && space.room(batch) > 0 {
            true => "no 12".to_string(),
            false => answer,
        }
    });
}

#[test]
fn the_records_are_looked_at_before_the_memories() {
    found_in_batch(1, |console, batch, space| match (right(console, batch, space).as_str(), parse(batch)) {
        ("no 1", Err(no)) => language::refusal_text(&no),
        (answer, _) => answer.to_string(),
    });
}

#[test]
fn a_short_output_is_told_when_all_is_done() {
    found_in_batch(3, |console, batch, space| {
        let answer = right(console, batch, space);
        if answer == "no 12" {
            right(console, batch, Space::Full);
        }
        answer
    });
}

#[test]
fn answers_may_not_fill_their_space() {
    found_in_batch(2, |console, batch, space| match space.room(batch) {
        0 => right(console, batch, space),
        _ => right(console, batch, Space::Short),
    });
}

#[test]
fn an_empty_batch_asks_for_space() {
    found_in_batch(2, |console, batch, space| {
        let answer = right(console, batch, space);
        match answer == "batch 0" && space == Space::Short {
            true => "no 12".to_string(),
            false => answer,
        }
    });
}

#[test]
fn records_before_a_fault_are_done() {
    found_in_refused(3, |console, batch, offset, no| {
        right(console, &batch[..offset], Space::Full);
        Some(format!("no {no} {offset}"))
    });
}

#[test]
fn a_fault_of_a_batch_is_told_in_its_record() {
    found_in_refused(2, |_, _, offset, no| (no == 18).then(|| format!("no 18 {}", offset + 2)));
}

#[test]
fn a_lone_mark_is_a_cut() {
    found_in_refused(2, |console, batch, offset, _| {
        (batch[offset..] == [0x4c]).then(|| right(console, &batch[..offset], Space::Full))
    });
}

#[test]
fn a_length_past_the_end_is_3() {
    found_in_refused(2, |_, batch, offset, _| {
        let rest = &batch[offset..];
        let from = 3 + if rest.get(2)? == &0 { 8 } else { 2 };
        let asks = [17, 19].contains(&rest[1]) && rest[2] < 2 && rest.len() >= from + 4;
        asks.then(|| "batch 1 ; no 3".to_string())
    });
}

/// It counts as no open transaction, as a begin does that was refused.
#[test]
fn a_place_of_no_begin_is_5() {
    found_in_refused(2, |console, batch, offset, _| {
        let (record, length) = front(&batch[offset..]).ok()?;
        let record = record.with_who(Who::Start(0)).bytes();
        let now = [&batch[..offset], &record, &batch[offset + length..]].concat();
        Some(right(console, &now, Space::Full))
    });
}

#[test]
fn the_first_reserved_kind_is_malformed() {
    found_in_refused(2, |_, batch, offset, _| (batch.get(offset + 1) == Some(&23)).then(|| format!("no 18 {offset}")));
}

#[test]
fn the_kind_behind_the_last_reserved_one_is_reserved() {
    found_in_refused(2, |_, batch, offset, _| {
        (batch[offset..].starts_with(&[0x4c, 32])).then(|| format!("no 19 {offset}"))
    });
}

#[test]
fn a_record_too_many_is_done() {
    found_in_refused(2, |console, batch, offset, _| {
        let (records, ..) = split(batch);
        (records.len() == RECORDS_MAX).then(|| right(console, &batch[..offset], Space::Full))
    });
}

#[test]
fn a_record_too_many_may_be_reserved() {
    found_in_refused(2, |_, batch, offset, _| {
        let (records, ..) = split(batch);
        (records.len() == RECORDS_MAX && front(&batch[offset..]) == Err(19)).then(|| format!("no 19 {offset}"))
    });
}
