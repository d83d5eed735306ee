//! What `hb diff` says of a run's two dumps is what the independent store did between them.

use hb::diff::{changes, page, Change};
use hb::Exit;
use hourbracken::dump::Dump;
use std::collections::BTreeMap;
use trials::random::{Gen, Theme};
use trials::rng::SplitMix64;
use trials::store::{Content, Sizes, Store, Version};

type Held = BTreeMap<(Vec<u8>, u64), Content>;

fn held(store: &Store) -> Held {
    let of_key = |(key, versions): (&Vec<u8>, &Vec<Version>)| -> Vec<_> {
        versions.iter().map(|version| ((key.clone(), version.number), version.content.clone())).collect()
    };
    store.keys.iter().flat_map(of_key).collect()
}

/// The versions that only one of the two has, by key and number: a content for those that came, none for those that
/// went.
fn expected(before: &Held, after: &Held) -> BTreeMap<(Vec<u8>, u64), Option<Content>> {
    let came = after
        .iter()
        .filter(|(at, _)| !before.contains_key(*at))
        .map(|(at, content)| (at.clone(), Some(content.clone())));
    let went = before.keys().filter(|at| !after.contains_key(*at)).map(|at| (at.clone(), None));
    came.chain(went).collect()
}

fn told(before: &Dump, after: &Dump) -> BTreeMap<(Vec<u8>, u64), Option<Content>> {
    let all = changes(before, after).into_iter().map(|(key, change)| match change {
        Change::Committed { number, value } => ((key.to_vec(), number), Some(Some(value.to_vec()))),
        Change::Deleted { number } => ((key.to_vec(), number), Some(None)),
        Change::Swept { number } => ((key.to_vec(), number), None),
        Change::Rewritten { .. } => panic!("{change:?}"),
    });
    all.collect()
}

fn said(before: &Dump, after: &Dump) -> (String, Exit) {
    let mut out = Vec::new();
    let exit = page(before, after, &mut out).expect("written");
    (String::from_utf8(out).expect("text"), exit)
}

#[test]
fn runs() {
    let (mut came, mut went, mut same) = (0, 0, 0);
    for seed in 0..400 {
        let mut gen = Gen::about(Theme::Mixed, SplitMix64::new(seed));
        while gen.store.is_none() {
            gen.next_opening();
        }
        for _ in 0..60 {
            gen.next_call();
        }
        let earlier = gen.store.clone().expect("a store");
        for _ in 0..seed % 90 {
            gen.next_call();
        }
        let later = gen.store.clone().expect("a store");
        let (a, b) = (earlier.dump(u64::MAX).expect("dumped"), later.dump(u64::MAX).expect("dumped"));
        let (before, after) = (Dump::read(&a).expect("read"), Dump::read(&b).expect("read"));
        let expected = expected(&held(&earlier), &held(&later));
        assert_eq!(told(&before, &after), expected, "seed {seed}");
        let (page, exit) = said(&before, &after);
        assert_eq!(exit == Exit::Done, a == b, "{page}");
        assert!(!page.contains("not an earlier and a later"), "seed {seed}: {page}");
        came += expected.values().filter(|content| content.is_some()).count();
        went += expected.values().filter(|content| content.is_none()).count();
        same += usize::from(a == b);
    }
    assert!(came > 500 && went > 200 && same > 3, "{came} {went} {same}");
}

fn one(counter: u64, number: u64, content: Content) -> Vec<u8> {
    let mut store = Store::make(Sizes::new(1, 1, 1)).expect("made");
    store.counter = counter;
    store.keys.insert(b"A1".to_vec(), vec![Version { number, content }]);
    store.dump(u64::MAX).expect("dumped")
}

#[test]
fn dumps_of_two_stores() {
    let first = one(9, 5, Some(b"loop".to_vec()));
    for (second, why) in [
        (one(9, 5, Some(b"line".to_vec())), "A1 has another content under 5"),
        (one(9, 5, None), "A1 has another content under 5"),
        (one(8, 5, Some(b"loop".to_vec())), "the counter went back"),
        (one(12, 7, Some(b"loop".to_vec())), "A1 has 7 only after the counter stood at 9"),
        (one(12, 9, None), "A1 has 9 only after the counter stood at 9"),
    ] {
        let (before, after) = (Dump::read(&first).expect("read"), Dump::read(&second).expect("read"));
        let (page, exit) = said(&before, &after);
        assert!(exit == Exit::No && page.ends_with(&format!("dump of one store: {why}\n")), "{page}");
    }
}

#[test]
fn a_newest_version_is_not_swept() {
    let mut store = Store::make(Sizes::new(1, 2, 1)).expect("made");
    store.counter = 9;
    let versions = [2, 5].map(|number| Version { number, content: Some(b"loop".to_vec()) });
    let mut dump_of = |held: &[Version]| {
        store.keys.insert(b"A1".to_vec(), held.to_vec());
        store.dump(u64::MAX).expect("dumped")
    };
    let (both, older, newer) = (dump_of(&versions), dump_of(&versions[..1]), dump_of(&versions[1..]));
    let page = |second: &[u8]| said(&Dump::read(&both).expect("read"), &Dump::read(second).expect("read")).0;
    assert!(page(&older).ends_with("dump of one store: A1 has no 5 any more, and nothing newer\n"));
    assert!(page(&newer).ends_with("1 swept\n"));
}

#[test]
fn the_page() {
    let (first, second) = (one(9, 5, Some(b"loop".to_vec())), one(12, 11, Some(vec![0, 255])));
    let (before, after) = (Dump::read(&first).expect("read"), Dump::read(&second).expect("read"));
    let page = "counter 9 -> 12\nA1  swept       5\nA1  committed  11  0x00ff\n1 committed, 0 deleted, 1 swept\n";
    assert_eq!(said(&before, &after), (page.to_owned(), Exit::No));
    assert_eq!(said(&before, &before), ("the same: counter 9, 1 key, 1 version\n".to_owned(), Exit::Done));
}
