//! A line that is a batch, so that it can lose records.

use super::{Begun, Start};
use crate::batch::{front, Record, Space, Who};
use crate::call::Call;
use crate::language::{call_text, parse, Asked};
use crate::store::Bytes;
use std::collections::{HashMap, HashSet};

/// Batches of more records lose them by parts only.
const SINGLY: usize = 32;

/// A record, known by its place in the batch as it was first. So are the places that it names.
#[derive(Clone)]
struct Piece {
    first_place: usize,
    record: Record,
    begun: Option<Begun>,
}

#[derive(Clone)]
pub struct Batch {
    pieces: Vec<Piece>,
    /// From what is no record on.
    rest: Bytes,
    space: Space,
}

impl Batch {
    /// None if the line is not a batch, or is typed in another way.
    pub fn read(line: &str, starts: &[Start]) -> Option<Batch> {
        let Some(Asked::Call(Call::Batch { batch, space })) = parse(line) else { return None };
        let (mut pieces, mut rest) = (Vec::new(), &batch[..]);
        while let Ok((record, length)) = front(rest) {
            let begun = match record.who() {
                Some(Who::Start(start)) => Start::begun(starts, start),
                _ => None,
            };
            pieces.push(Piece { first_place: pieces.len(), record, begun });
            rest = &rest[length..];
        }
        let read = Batch { pieces, rest: rest.to_vec(), space };
        (read.call_text(Vec::new()) == line).then_some(read)
    }

    /// The line, by the starts that its transactions have now.
    pub fn text(&self, starts: &[Start]) -> String {
        let place_of: HashMap<usize, usize> = self.pieces.iter().map(|piece| piece.first_place).zip(0..).collect();
        let now = |piece: &Piece| match piece.record.who() {
            Some(Who::Place(first)) => place_of.get(&(first as usize)).map(|place| Who::Place(*place as u16)),
            Some(Who::Start(_)) => piece.begun.and_then(|begun| Start::now(starts, begun)).map(Who::Start),
            None => None,
        };
        self.call_text(self.pieces.iter().map(now).collect())
    }

    fn call_text(&self, whos: Vec<Option<Who>>) -> String {
        let whos = whos.into_iter().chain(std::iter::repeat(None));
        let records = self.pieces.iter().zip(whos).map(|(piece, who)| match who {
            Some(who) => piece.record.clone().with_who(who),
            None => piece.record.clone(),
        });
        let front: Bytes = records.flat_map(|record| record.bytes()).collect();
        call_text(&Call::Batch { batch: [front, self.rest.clone()].concat(), space: self.space })
    }

    /// What the record at this place is known by.
    pub fn first_place(&self, place: usize) -> usize {
        self.pieces.get(place).map_or(0, |piece| piece.first_place)
    }

    /// Without the records at these places, and those of transactions that began there.
    fn without(&self, from: usize, to: usize) -> Batch {
        let gone: HashSet<usize> = self.pieces[from..to].iter().map(|piece| piece.first_place).collect();
        let stays = |piece: &&Piece| {
            let of_gone = matches!(piece.record.who(), Some(Who::Place(first)) if gone.contains(&(first as usize)));
            !gone.contains(&piece.first_place) && !of_gone
        };
        Batch { pieces: self.pieces.iter().filter(stays).cloned().collect(), ..self.clone() }
    }

    /// As short a batch as can be had of which `still` holds; none if it is this one.
    pub fn shortened(&self, mut still: impl FnMut(&Batch) -> bool) -> Option<Batch> {
        let cut = |length| Batch { rest: self.rest[..length].to_vec(), ..self.clone() };
        let mut short = (0..self.rest.len().min(16)).map(cut).find(&mut still).unwrap_or(self.clone());
        let mut size = short.pieces.len();
        while size >= short.pieces.len().div_ceil(SINGLY).max(1) {
            let mut from = 0;
            while from < short.pieces.len() {
                let next = short.without(from, (from + size).min(short.pieces.len()));
                match still(&next) {
                    true => short = next,
                    false => from += size,
                }
            }
            size /= 2;
        }
        let shorter = short.pieces.len() < self.pieces.len() || short.rest.len() < self.rest.len();
        shorter.then_some(short)
    }
}
