//! `hb journal`: the records of a journal, and where they end.

use crate::check::bytes_at;
use crate::words::Quoted;
use crate::Exit;
use hourbracken::journal::{Fault, Record, Records};
use hourbracken::Shown;
use std::io::{self, Write};

/// Where and why the records end before the journal does.
pub fn words(fault: &Fault) -> String {
    match fault.refusal() {
        Some(refusal) => format!("refused {} at {}: {fault}", refusal.number(), fault.offset),
        None => format!("cut at {}: {fault}", fault.offset),
    }
}

/// The whole records in one line: how many, their numbers, and how far they go.
fn summary(mut records: Records) -> String {
    let (mut count, mut first) = (0, 0);
    while let Some(Ok(record)) = records.next() {
        first = if count == 0 { record.number } else { first };
        count += 1;
    }
    let last = records.counter();
    let numbers = match count {
        0 => "0 records".to_owned(),
        1 => format!("1 record, number {last}"),
        _ => format!("{count} records, numbers {first} to {last}"),
    };
    format!("{numbers}, {} bytes", records.offset())
}

/// How wide the columns are.
#[derive(Clone, Copy)]
struct Widths {
    offset: usize,
    number: usize,
    key: usize,
}

impl Widths {
    fn of(records: Records) -> Widths {
        let mut widths = Widths { offset: "offset".len(), number: "number".len(), key: "key".len() };
        for record in records.map_while(Result::ok) {
            widths.offset = widths.offset.max(record.offset.to_string().len());
            widths.number = widths.number.max(record.number.to_string().len());
            widths.key = record.writes().map(|write| Shown(write.key).width()).fold(widths.key, usize::max);
        }
        widths
    }

    fn row(self, cells: [&str; 4], out: &mut dyn Write) -> io::Result<()> {
        let [at, commit, name, value] = cells;
        let Widths { offset, number, key } = self;
        writeln!(out, "{at:>offset$}  {commit:>number$}  {name:key$}  {value}")
    }
}

/// A line for each write; the first has the record's place and number.
fn rows(record: &Record, widths: Widths, out: &mut dyn Write) -> io::Result<()> {
    let mut head = (record.offset.to_string(), record.number.to_string());
    for write in record.writes() {
        let value = write.value.map_or("deleted".to_owned(), |value| Quoted(value).to_string());
        widths.row([&head.0, &head.1, &Shown(write.key).to_string(), &value], out)?;
        head = (String::new(), String::new());
    }
    Ok(())
}

/// Every record with its writes, and the verdict. The counter is that of the dump which the journal goes on from.
pub fn page(bytes: &[u8], counter: u64, name: &str, out: &mut dyn Write) -> io::Result<Exit> {
    let all = Records::after(bytes, counter);
    let widths = Widths::of(all.clone());
    widths.row(["offset", "number", "key", "value"], out)?;
    for record in all.clone() {
        match record {
            Ok(record) => rows(&record, widths, out)?,
            Err(fault) => {
                writeln!(out, "{name}: {}", words(&fault))?;
                bytes_at(bytes, fault.at, out)?;
                writeln!(out, "  before it: {}", summary(all))?;
                return Ok(Exit::No);
            }
        }
    }
    writeln!(out, "{name}: whole: {}", summary(all))?;
    Ok(Exit::Done)
}
