//! A journal's records, from docs/RULES.md, 11: the bytes that a commit writes, and the commit that bytes say.

use crate::store::{key_allowed, Bytes, Content, Writes, TOP, VALUE_MAX, WRITES_MAX};

pub const MARK: [u8; 2] = [0x4c, 0x01];
/// Mark and body length.
pub const HEAD: usize = 6;
/// The longest record, of sixteen of the longest writes.
pub const RECORD_MOST: u64 = 6 + 12 + 16 * (4 + 24 + 1 + 4 + 96);

/// What a commit with writes publishes.
#[derive(Clone, PartialEq, Eq, Debug)]
pub struct Commit {
    pub number: u64,
    pub writes: Writes,
}

/// What a journal begins with.
#[derive(Clone, PartialEq, Eq, Debug)]
pub enum Front<'a> {
    /// Nothing, or a mark, a length or a body of which a byte is missing.
    Cut,
    OtherMark,
    /// The body, which is all there.
    Body(&'a [u8]),
}

pub fn front(journal: &[u8]) -> Front<'_> {
    match journal.get(..2) {
        None => return Front::Cut,
        Some(mark) if mark != MARK => return Front::OtherMark,
        Some(_) => {}
    }
    let Some(length) = journal.get(2..HEAD) else { return Front::Cut };
    journal.get(HEAD..HEAD + number(length) as usize).map_or(Front::Cut, Front::Body)
}

/// Little-endian.
pub fn number(bytes: &[u8]) -> u64 {
    bytes.iter().rev().fold(0, |high, byte| high << 8 | *byte as u64)
}

/// The first bytes of what is left, and the rest; none if there are not so many.
pub fn take<'a>(left: &mut &'a [u8], length: u64) -> Option<&'a [u8]> {
    let (front, rest) = left.split_at_checked(usize::try_from(length).ok()?)?;
    *left = rest;
    Some(front)
}

fn take_content(left: &mut &[u8]) -> Option<Option<Bytes>> {
    match take(left, 1)? {
        [0] => Some(None),
        [1] => {
            let length = number(take(left, 4)?);
            (length <= VALUE_MAX as u64).then_some(())?;
            Some(Some(take(left, length)?.to_vec()))
        }
        _ => None,
    }
}

impl Commit {
    pub fn record(&self) -> Bytes {
        let mut body = self.number.to_le_bytes().to_vec();
        body.extend((self.writes.len() as u32).to_le_bytes());
        for (key, content) in &self.writes {
            body.extend((key.len() as u32).to_le_bytes());
            body.extend(key);
            match content {
                None => body.push(0),
                Some(value) => {
                    body.push(1);
                    body.extend((value.len() as u32).to_le_bytes());
                    body.extend(value);
                }
            }
        }
        [&MARK[..], &(body.len() as u32).to_le_bytes(), &body].concat()
    }

    /// The commit that a body says, after commits up to `counter`; none if it breaks a rule.
    pub fn read(body: &[u8], counter: u64) -> Option<Commit> {
        let left = &mut &*body;
        let issued = number(take(left, 8)?);
        (counter < issued && issued <= TOP).then_some(())?;
        let count = number(take(left, 4)?);
        (1..=WRITES_MAX as u64).contains(&count).then_some(())?;
        let mut writes = Writes::new();
        for _ in 0..count {
            let length = number(take(left, 4)?);
            let key = take(left, length)?;
            let content: Content = take_content(left)?;
            let ascends = writes.keys().next_back().is_none_or(|last| &last[..] < key);
            (key_allowed(key) && ascends).then_some(())?;
            writes.insert(key.to_vec(), content);
        }
        left.is_empty().then_some(Commit { number: issued, writes })
    }
}

/// The commits of a journal that is whole and lawful.
pub fn commits(mut journal: &[u8]) -> Vec<Commit> {
    let mut all = Vec::new();
    while let Front::Body(body) = front(journal) {
        all.push(Commit::read(body, 0).expect("each was a commit"));
        journal = &journal[HEAD + body.len()..];
    }
    all
}
