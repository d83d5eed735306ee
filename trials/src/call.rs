//! Calls and replies as values, so that one random run can be written as console lines or as antt terms.

use crate::batch::{self, Space};
use crate::store::{Bytes, Committed, Kind, No, Sizes, Store};

#[derive(Clone, PartialEq, Eq, Debug)]
pub enum Opening {
    Make { sizes: Sizes },
    Load { dump: Bytes, sizes: Sizes },
}

#[derive(Clone, PartialEq, Eq, Debug)]
pub enum Call {
    Begin,
    Read {
        start: u64,
        key: Bytes,
    },
    /// The call for the bytes alone.
    Bytes {
        start: u64,
        key: Bytes,
    },
    Newest {
        key: Bytes,
    },
    AsOf {
        number: u64,
        key: Bytes,
    },
    Put {
        start: u64,
        key: Bytes,
        value: Bytes,
    },
    Delete {
        start: u64,
        key: Bytes,
    },
    Commit {
        start: u64,
    },
    /// A commit that writes its record to an output of `room` bytes.
    CommitTo {
        start: u64,
        room: u64,
    },
    Abort {
        start: u64,
    },
    Sweep {
        limit: u64,
    },
    /// The sweep between readers.
    Thin {
        limit: u64,
    },
    Counts,
    Dump {
        room: u64,
    },
    Replay {
        journal: Bytes,
    },
    Batch {
        batch: Bytes,
        space: Space,
    },
}

#[derive(Clone, PartialEq, Eq, Debug)]
pub enum Reply {
    No(No),
    Done,
    Begun {
        start: u64,
        desk: usize,
    },
    Found {
        kind: Kind,
        bytes: Bytes,
    },
    Bytes(Bytes),
    Committed(u64),
    Closed,
    /// Of a commit with a journal: the record, which is empty if it was closed without writes.
    Recorded {
        committed: Committed,
        record: Bytes,
    },
    Swept {
        cutoff: u64,
        dropped: u64,
    },
    Thinned {
        dropped: u64,
    },
    Counted {
        keys: u64,
        versions: u64,
        desks: u64,
    },
    Dumped(Bytes),
    /// Where the whole records end.
    Replayed(u64),
    /// An answer for each record.
    Batched(Vec<Reply>),
}

impl Opening {
    pub fn sizes(&self) -> Sizes {
        match self {
            Opening::Make { sizes } | Opening::Load { sizes, .. } => *sizes,
        }
    }
}

pub fn open(opening: &Opening) -> Result<Store, No> {
    match opening {
        Opening::Make { sizes } => Store::make(*sizes),
        Opening::Load { dump, sizes } => Store::load(dump, *sizes),
    }
}

pub fn call(store: &mut Store, call: &Call) -> Reply {
    let reply = match call {
        Call::Begin => store.begin().map(|(start, desk)| Reply::Begun { start, desk }),
        Call::Read { start, key } => {
            store.read_kind(*start, key).map(|kind| Reply::Found { kind, bytes: store.read_bytes(*start, key) })
        }
        Call::Bytes { start, key } => Ok(Reply::Bytes(store.read_bytes(*start, key))),
        Call::Newest { key } => {
            store.newest_kind(key).map(|kind| Reply::Found { kind, bytes: store.newest_bytes(key) })
        }
        Call::AsOf { number, key } => {
            store.as_of_kind(*number, key).map(|kind| Reply::Found { kind, bytes: store.as_of_bytes(*number, key) })
        }
        Call::Put { start, key, value } => store.put(*start, key, value).map(|()| Reply::Done),
        Call::Delete { start, key } => store.delete(*start, key).map(|()| Reply::Done),
        Call::Commit { start } => store.commit(*start).map(|committed| match committed {
            Committed::Number(number) => Reply::Committed(number),
            Committed::Closed => Reply::Closed,
        }),
        Call::CommitTo { start, room } => {
            store.commit_to(*start, *room).map(|(committed, record)| Reply::Recorded { committed, record })
        }
        Call::Abort { start } => store.abort(*start).map(|()| Reply::Done),
        Call::Sweep { limit } => {
            let (cutoff, dropped) = store.sweep(*limit);
            Ok(Reply::Swept { cutoff, dropped })
        }
        Call::Thin { limit } => Ok(Reply::Thinned { dropped: store.thin(*limit) }),
        Call::Counts => {
            let (keys, versions, desks) = store.counts();
            Ok(Reply::Counted { keys, versions, desks })
        }
        Call::Dump { room } => store.dump(*room).map(Reply::Dumped),
        Call::Replay { journal } => store.replay(journal).map(Reply::Replayed),
        Call::Batch { batch, space } => batch::run(store, batch, space.room(batch), self::call).map(Reply::Batched),
    };
    reply.unwrap_or_else(Reply::No)
}

/// The refusal's number.
pub fn number(no: &No) -> u8 {
    match no {
        No::Plain(number) => *number,
        No::Conflict(_) => 9,
        No::At { no, .. } => *no,
    }
}
