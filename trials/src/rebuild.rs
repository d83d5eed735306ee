//! What docs/RULES.md, 10.8 says of every run: a dump of some moment, loaded into ample rooms, with the journal since
//! replayed, has all that was committed since. It is held beside each console, and a run that breaks it ends there.

use crate::batch;
use crate::call::{call, Call, Reply};
use crate::journal::{commits, Commit};
use crate::rng::SplitMix64;
use crate::store::{Bytes, Committed, Content, No, Sizes, Store, Version, Writes, KEY_ROOMS_MAX, VERSION_ROOMS_MAX};
use std::collections::{BTreeMap, BTreeSet};

type Chains = BTreeMap<Bytes, Vec<Version>>;

/// What is known of the calls since a dump.
struct Since {
    dump: Bytes,
    counter: u64,
    /// Each key's versions in the dump, and those committed since, swept or not.
    history: Chains,
    journal: Bytes,
    /// Where each record ends in the journal, and its number.
    ends: Vec<(usize, u64)>,
    /// The largest cutoff.
    swept: u64,
    thinned: bool,
}

pub struct Watch {
    /// The moments of dump and check.
    rng: SplitMix64,
    since: Option<Since>,
    checks: u64,
}

impl Watch {
    pub fn new() -> Watch {
        Watch { rng: SplitMix64::new(0), since: None, checks: 0 }
    }

    /// The memories were changed by no call.
    pub fn forget(&mut self) {
        self.since = None;
    }

    /// The call on the store, as `call` makes it. A batch counts as its single calls.
    pub fn call(&mut self, store: &mut Store, next: &Call) -> Reply {
        let Call::Batch { batch, space } = next else { return self.single(store, next) };
        let replies = batch::run(store, batch, space.room(batch), |store, next| self.single(store, next));
        replies.map_or_else(Reply::No, Reply::Batched)
    }

    fn single(&mut self, store: &mut Store, next: &Call) -> Reply {
        if self.since.is_none() || self.rng.chance(1, 64) {
            self.since = Some(Since::new(store));
        }
        let writes = written(store, next);
        let reply = call(store, next);
        let since = self.since.as_mut().expect("it was there or has begun");
        let matters = since.follow(next, &reply, writes);
        if matters && self.rng.chance(1, 4) {
            since.check(store, &mut self.rng);
            self.checks += 1;
        }
        reply
    }
}

impl Default for Watch {
    fn default() -> Watch {
        Watch::new()
    }
}

/// What the call would commit.
pub fn written(store: &Store, next: &Call) -> Writes {
    let (Call::Commit { start: of } | Call::CommitTo { start: of, .. }) = next else { return Writes::new() };
    store.desks.iter().flatten().find(|desk| desk.start == *of).map(|desk| desk.writes.clone()).unwrap_or_default()
}

/// What a start sees of a key, and the number that its commit would clash with.
fn shown<'a>(chains: &'a Chains, key: &Bytes, start: u64) -> (Option<&'a Content>, Option<u64>) {
    let versions = chains.get(key).map_or(&[][..], |versions| versions);
    let seen = versions.iter().rev().find(|version| version.number <= start).map(|version| &version.content);
    let newest = versions.last().map(|version| version.number);
    (seen.filter(|content| content.is_some()), newest.filter(|number| *number > start))
}

impl Since {
    fn new(store: &Store) -> Since {
        Since {
            dump: store.dump(u64::MAX).expect("there is room"),
            counter: store.counter,
            history: store.keys.clone(),
            journal: Vec::new(),
            ends: Vec::new(),
            swept: 0,
            thinned: false,
        }
    }

    /// Whether the call has changed what is committed or swept.
    fn follow(&mut self, next: &Call, reply: &Reply, writes: Writes) -> bool {
        match (next, reply) {
            // What it would have written, had it been asked.
            (_, Reply::Committed(number)) => {
                let commit = Commit { number: *number, writes };
                self.add(commit.record(), commit);
            }
            (_, Reply::Recorded { committed: Committed::Number(number), record }) => {
                self.add(record.clone(), Commit { number: *number, writes });
            }
            (Call::Replay { journal }, Reply::Replayed(end) | Reply::No(No::At { offset: end, .. })) => {
                for commit in commits(&journal[..*end as usize]) {
                    self.add(commit.record(), commit);
                }
            }
            (_, Reply::Swept { cutoff, .. }) => self.swept = self.swept.max(*cutoff),
            (_, Reply::Thinned { .. }) => self.thinned = true,
            _ => return false,
        }
        true
    }

    fn add(&mut self, record: Bytes, commit: Commit) {
        self.journal.extend(record);
        self.ends.push((self.journal.len(), commit.number));
        for (key, content) in commit.writes {
            self.history.entry(key).or_default().push(Version { number: commit.number, content });
        }
    }

    fn rebuilt(&self, journal: &[u8]) -> (Store, Result<u64, No>) {
        let ample = Sizes::new(KEY_ROOMS_MAX, VERSION_ROOMS_MAX, 1);
        let mut store = Store::load(&self.dump, ample).expect("there is room");
        let answer = store.replay(journal);
        (store, answer)
    }

    fn check(&self, run: &Store, rng: &mut SplitMix64) {
        let (mut rebuilt, answer) = self.rebuilt(&self.journal);
        if let Err(No::At { no: 10 | 11, .. }) = answer {
            return;
        }
        assert_eq!(answer, Ok(self.journal.len() as u64), "a journal is not replayed whole");
        assert_eq!(rebuilt.keys, self.history, "a rebuilt store has another history");
        assert_eq!((rebuilt.counter, rebuilt.floor), (self.last().1, self.counter));
        self.check_shown(run, &rebuilt);
        self.check_cut(rng.below(self.journal.len() + 1));
        if !self.thinned {
            rebuilt.sweep(self.swept);
            assert_eq!(rebuilt.keys, run.keys, "a rebuilt store, swept as the run was, holds other versions");
        }
    }

    /// Where the records end, and the last one's number.
    fn last(&self) -> (usize, u64) {
        self.ends.last().copied().unwrap_or((0, self.counter))
    }

    /// Open starts, and whoever asks from the floor on, can't tell the two apart.
    fn check_shown(&self, run: &Store, rebuilt: &Store) {
        let open = run.desks.iter().flatten().map(|desk| desk.start);
        let starts: BTreeSet<u64> = open.chain([run.floor, run.counter]).collect();
        for (start, key) in starts.iter().flat_map(|start| rebuilt.keys.keys().map(move |key| (*start, key))) {
            assert_eq!(shown(&rebuilt.keys, key, start), shown(&run.keys, key, start), "{key:?} as of {start}");
        }
    }

    /// Cut after so many bytes, the records before the cut are done.
    fn check_cut(&self, length: usize) {
        let whole = self.ends.iter().rev().find(|(end, _)| *end <= length);
        let (end, counter) = whole.copied().unwrap_or((0, self.counter));
        let (store, answer) = self.rebuilt(&self.journal[..length]);
        assert_eq!((answer, store.counter), (Ok(end as u64), counter), "a journal cut after {length} bytes");
        let until = |chain: &[Version]| chain.iter().filter(|version| version.number <= counter).count();
        let held = |key| store.keys.get(key).map_or(&[][..], |chain| chain);
        assert!(
            self.history.iter().all(|(key, chain)| chain[..until(chain)] == *held(key)),
            "cut after {length} bytes"
        );
    }
}

#[cfg(test)]
mod tests {
    use super::*;
    use crate::call::open;
    use crate::random::Gen;

    /// Random runs with all kinds of calls; how often one was checked.
    fn watched(seeds: u64) -> u64 {
        let mut checks = 0;
        for seed in 0..seeds {
            let mut gen = Gen::new(seed);
            let Ok(mut store) = open(&gen.next_opening()) else { continue };
            let mut watch = Watch::new();
            (0..150).for_each(|_| drop(watch.call(&mut store, &gen.next_call())));
            checks += watch.checks;
        }
        checks
    }

    #[test]
    fn runs_are_rebuilt() {
        let checks = watched(300);
        println!("{checks} checks");
        assert!(checks > 800, "{checks}");
    }

    /// A1 put at 2 and 4 and swept, with the dump of before.
    fn swept_run() -> (Store, Since) {
        let mut store = Store::make(Sizes::new(4, 8, 2)).unwrap();
        let mut since = Since::new(&store);
        for start in [1, 3] {
            let calls = [
                Call::Begin,
                Call::Put { start, key: b"A1".to_vec(), value: vec![start as u8] },
                Call::CommitTo { start, room: 30 },
                Call::Sweep { limit: u64::MAX },
            ];
            for next in calls {
                let writes = written(&store, &next);
                let reply = call(&mut store, &next);
                since.follow(&next, &reply, writes);
            }
        }
        (store, since)
    }

    fn check((store, since): (Store, Since)) {
        (0..20).for_each(|seed| since.check(&store, &mut SplitMix64::new(seed)));
    }

    #[test]
    fn a_right_run() {
        let (store, since) = swept_run();
        assert_eq!((since.ends.clone(), since.swept), (vec![(30, 2), (60, 4)], 4));
        check((store, since));
    }

    #[test]
    #[should_panic(expected = "holds other versions")]
    fn a_version_too_few() {
        let (mut store, since) = swept_run();
        store.keys.clear();
        // Nobody asks below the counter.
        store.keys.insert(b"A1".to_vec(), vec![Version { number: 3, content: Some(vec![3]) }]);
        check((store, since));
    }

    #[test]
    #[should_panic(expected = "as of 4")]
    fn another_value() {
        let (mut store, since) = swept_run();
        store.keys.get_mut(&b"A1"[..]).unwrap()[0].content = None;
        check((store, since));
    }

    #[test]
    #[should_panic(expected = "another history")]
    fn a_record_of_another_write() {
        let (store, mut since) = swept_run();
        since.journal[59] ^= 1;
        check((store, since));
    }

    #[test]
    #[should_panic(expected = "not replayed whole")]
    fn a_record_of_another_number() {
        let (store, mut since) = swept_run();
        since.journal[36] = 2;
        check((store, since));
    }
}
