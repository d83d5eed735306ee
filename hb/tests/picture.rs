//! Pictures, parsed: they are well-formed, have one mark for each version, and name every key.

use hourbracken::dump::Dump;
use hourbracken::picture::Picture;
use hourbracken::{starts_in, Shown, Start};
use std::collections::BTreeMap;
use trials::call::Opening;
use trials::layout::desk_bytes;
use trials::random::{Gen, Theme};
use trials::rng::SplitMix64;
use trials::store::{Sizes, Store, Version, TOP};

/// A tag of the picture: its name, its attributes, the identity of the group around it, and the text right within it.
#[derive(Debug)]
struct Element {
    name: String,
    attributes: BTreeMap<String, String>,
    group: String,
    text: String,
}

/// Text without the signs that XML escapes; nothing if one of them stands bare.
fn plain(text: &str) -> Option<String> {
    let mut parts = text.split('&');
    let mut out = parts.next()?.to_owned();
    for part in parts {
        let (name, rest) = part.split_once(';')?;
        out.push(match name {
            "amp" => '&',
            "lt" => '<',
            "gt" => '>',
            "quot" => '"',
            "apos" => '\'',
            _ => return None,
        });
        out.push_str(rest);
    }
    let allowed = |c: char| c == '\n' || !(c.is_control() || c == '\u{fffe}' || c == '\u{ffff}');
    out.chars().all(allowed).then_some(out)
}

/// `name="value"`, one after the other, no name twice.
fn attributes(mut text: &str) -> Option<BTreeMap<String, String>> {
    let mut all = BTreeMap::new();
    while !text.is_empty() {
        let (name, rest) = text.strip_prefix(' ')?.trim_start().split_once("=\"")?;
        let (value, rest) = rest.split_once('"')?;
        let named = !name.is_empty() && name.bytes().all(|b| b.is_ascii_alphanumeric() || b"-:".contains(&b));
        if !named || all.insert(name.to_owned(), plain(value)?).is_some() {
            return None;
        }
        text = rest;
    }
    Some(all)
}

/// Every element of a document that is well-formed, in the order of their ends; else nothing.
fn parsed(svg: &str) -> Option<Vec<Element>> {
    let (mut open, mut closed): (Vec<Element>, Vec<Element>) = (Vec::new(), Vec::new());
    let mut pieces = svg.trim_end().split('<');
    if !pieces.next()?.is_empty() {
        return None;
    }
    for piece in pieces {
        if closed.last().is_some() && open.is_empty() {
            return None;
        }
        let (tag, text) = piece.split_once('>')?;
        if let Some(name) = tag.strip_prefix('/') {
            closed.push(open.pop().filter(|element| element.name == name)?);
        } else {
            let (tag, is_empty) = tag.strip_suffix('/').map_or((tag, false), |tag| (tag, true));
            let (name, rest) = tag.split_at(tag.find(' ').unwrap_or(tag.len()));
            let group = open.iter().rev().find_map(|element| element.attributes.get("id")).cloned().unwrap_or_default();
            let attributes = attributes(rest)?;
            let element = Element { name: name.to_owned(), attributes, group, text: String::new() };
            if is_empty { &mut closed } else { &mut open }.push(element);
        }
        match open.last_mut() {
            Some(element) => element.text.push_str(&plain(text)?),
            None if text.is_empty() => {}
            None => return None,
        }
    }
    (open.is_empty() && !closed.is_empty()).then_some(closed)
}

#[test]
fn the_parser_sees_what_is_not_well_formed() {
    assert_eq!(parsed("<svg a=\"1\"><g/><t>a &lt; b</t></svg>\n").map(|all| all.len()), Some(3));
    for wrong in [
        "",
        "x",
        "<svg>",
        "<svg></g>",
        "<svg><g></svg></g>",
        "<svg/><svg/>",
        "<svg>a & b</svg>",
        "<svg>&nbsp;</svg>",
        "<svg a=1/>",
        "<svg a=\"1\" a=\"2\"/>",
        "<svg a=\"1\"b=\"2\"/>",
        "<svg>\u{1}</svg>",
        "<svg></svg>x",
        "<svg",
    ] {
        assert!(parsed(wrong).is_none(), "{wrong}");
    }
}

/// The elements of that name within a group.
fn within<'e>(all: &'e [Element], group: &'e str, name: &'e str) -> impl Iterator<Item = &'e Element> {
    all.iter().filter(move |element| element.group == group && element.name == name)
}

/// A length, in pixels.
fn length(element: &Element, name: &str) -> f64 {
    element.attributes[name].parse().expect("a number")
}

/// Holds the picture to the store; answers its width and its height.
fn drawn(store: &Store, floor: Option<u64>, starts: &[u64], title: &str) -> (f64, f64) {
    let dump = store.dump(u64::MAX).expect("dumped");
    let dump = Dump::read(&dump).expect("read");
    let starts: Vec<Start> = starts.iter().map(|start| Start::from_number(*start)).collect();
    let picture = Picture::new(dump).title(title).starts(&starts);
    let svg = floor.map_or(picture, |floor| picture.floor(floor)).to_string();
    let all = parsed(&svg).unwrap_or_else(|| panic!("not well-formed: {svg}"));

    let newest = |version: &&Version, versions: &[Version]| Some(version.number) == versions.last().map(|v| v.number);
    let count = |is_newest: bool, is_deletion: bool| {
        let versions = store.keys.values().flat_map(|of_key| of_key.iter().map(move |version| (version, of_key)));
        let is = |(version, of_key): &(&Version, &Vec<Version>)| {
            newest(version, of_key) == is_newest && version.content.is_none() == is_deletion
        };
        versions.filter(is).count()
    };
    for (group, shape, is_newest, is_deletion, colour) in [
        ("newest-values", "circle", true, false, ("fill", "#d3202f")),
        ("newest-deletions", "path", true, true, ("stroke", "#d3202f")),
        ("older-values", "circle", false, false, ("fill", "#2459c9")),
        ("older-deletions", "path", false, true, ("stroke", "#2459c9")),
    ] {
        let marks: Vec<&Element> = within(&all, group, shape).collect();
        assert_eq!(marks.len(), count(is_newest, is_deletion), "{group}");
        assert!(marks.iter().all(|mark| mark.attributes[colour.0] == colour.1));
    }
    let keys: Vec<&str> = within(&all, "keys", "text").map(|element| element.text.trim()).collect();
    assert!(keys.iter().copied().eq(store.keys.keys().map(|key| Shown(key).to_string())), "{keys:?}");
    assert_eq!(within(&all, "now", "text").count(), store.keys.len());
    let said: Vec<&Element> = all.iter().filter(|element| element.text == title).collect();
    assert!(said.iter().any(|element| element.name == "text") && said.iter().any(|element| element.name == "title"));
    assert!(!all
        .iter()
        .any(|element| element.name == "script" || element.attributes.keys().any(|a| a.starts_with("on"))));
    let told = |word: &str| all.iter().filter(|e| e.name == "title" && e.text.starts_with(word)).count();
    let panels = all.iter().filter(|e| e.attributes.get("id").is_some_and(|id| id.starts_with("panel-"))).count();
    assert_eq!(told("floor "), floor.map_or(0, |_| panels));
    assert_eq!(told("start "), starts.len() * panels);

    let page = all.last().expect("the picture");
    let (width, height) = (length(page, "width"), length(page, "height"));
    for mark in within(&all, "newest-values", "circle").chain(within(&all, "older-values", "circle")) {
        let (x, y, r) = (length(mark, "cx"), length(mark, "cy"), length(mark, "r"));
        assert!(r >= 2.0 && x - r > 0.0 && y - r > 0.0 && x + r < width && y + r < height);
    }
    (width, height)
}

/// As many keys, each with a few versions.
fn hall(keys: usize) -> Store {
    let mut store = Store::make(Sizes::new(1_024, 65_536, 1)).expect("made");
    let mut rng = SplitMix64::new(keys as u64);
    store.counter = 4_000;
    for i in 0..keys {
        let (mut number, mut versions) = (0, Vec::new());
        for _ in 0..1 + rng.below(9) {
            number += 1 + rng.below(400) as u64;
            versions.push(Version { number, content: rng.chance(5, 6).then(|| b"direct".to_vec()) });
        }
        store.keys.insert(format!("{}{:03}", char::from(b'A' + (i / 100) as u8), i % 100).into_bytes(), versions);
    }
    store
}

#[test]
fn eight_keys_and_a_thousand() {
    assert!(drawn(&hall(8), Some(900), &[1_000, 3_900], "Kleine Zaal").0 < 1_400.0);
    for keys in [100, 300, 1_000] {
        // a sheet, and no strip
        let (width, height) = drawn(&hall(keys), Some(900), &[1_000, 3_900], "Grote Zaal");
        assert!((1.0..2.0).contains(&(width / height)), "{keys} keys: {width} x {height}");
    }
}

/// Key, number, and where the disc stands.
fn discs(all: &[Element]) -> Vec<(String, u64, f64, f64)> {
    let is_disc = |pair: &&[Element]| pair[0].name == "title" && pair[1].name == "circle";
    let disc = |pair: &[Element]| {
        let (key, rest) = pair[0].text.split_once(" at ")?;
        let number = rest.split_once(':')?.0.replace(',', "").parse().ok()?;
        Some((key.to_owned(), number, length(&pair[1], "cx"), length(&pair[1], "cy")))
    };
    all.windows(2).filter(is_disc).map(|pair| disc(pair).expect("a key and a number")).collect()
}

#[test]
fn marks_stand_at_their_key_and_number() {
    let dump = hall(8).dump(u64::MAX).expect("dumped");
    let all = parsed(&Picture::new(Dump::read(&dump).expect("read")).to_string()).expect("well-formed");
    let rows: BTreeMap<&str, f64> =
        within(&all, "keys", "text").map(|key| (key.text.trim(), length(key, "y"))).collect();
    let discs = discs(&all);
    let ends =
        |less: fn(u64, u64) -> bool| discs.iter().reduce(|a, b| if less(a.1, b.1) { a } else { b }).expect("some");
    let (first, last) = (ends(|a, b| a < b), ends(|a, b| a > b));
    for (key, number, x, y) in &discs {
        assert!((rows[key.as_str()] - y).abs() < 6.0, "{key}");
        let along = (number - first.1) as f64 / (last.1 - first.1) as f64;
        assert!((first.2 + along * (last.2 - first.2) - x).abs() < 0.3, "{number}");
    }
    let frame = within(&all, "panel-1", "rect").find(|rect| rect.attributes["fill"] == "none").expect("a frame");
    let (left, right) = (length(frame, "x"), length(frame, "x") + length(frame, "width"));
    assert!(discs.iter().all(|disc| disc.2 > left + 6.0 && disc.2 < right - 6.0));
}

#[test]
fn any_hall_any_title() {
    let title = "a <b> & \"c\" 'd' \u{e9}\u{1f4a1}";
    for seed in 0..300 {
        let theme = [Theme::Loads, Theme::LastNumbers, Theme::Mixed][seed as usize % 3];
        let mut gen = Gen::about(theme, SplitMix64::new(seed));
        let Opening::Load { dump, sizes } = gen.next_load() else { panic!("a load") };
        if let Ok(store) = Store::load(&dump, sizes) {
            drawn(&store, None, &[], title);
            drawn(&store, Some(store.counter), &[1, store.counter.max(2)], title);
        }
    }
}

#[test]
fn the_edges() {
    let mut store = Store::make(Sizes::new(2, 4, 1)).expect("made");
    drawn(&store, None, &[], "new");
    drawn(&store, Some(0), &[], "new");
    store.counter = TOP;
    let value = |number: u64| Version { number, content: Some(vec![b'x'; 96]) };
    store.keys.insert(vec![b'~'; 24], vec![value(1), Version { number: TOP, content: None }]);
    store.keys.insert(b"<&>".to_vec(), vec![value(TOP - 1), value(TOP)]);
    drawn(&store, Some(TOP), &[TOP - 9, 5], "late");
    drawn(&store, None, &(1..=64).collect::<Vec<u64>>(), "all desks");
}

/// Desk memory tells what is open, whichever desks are taken, and no memory is too short to be looked at.
#[test]
fn open_desks() {
    let mut store = Store::make(Sizes::new(2, 4, 64)).expect("made");
    let mut rng = SplitMix64::new(1);
    for _ in 0..300 {
        if store.begin().is_err() || rng.chance(1, 3) {
            let open: Vec<u64> = store.desks.iter().flatten().map(|desk| desk.start).collect();
            store.abort(rng.pick(&open)).expect("aborted");
        }
        let starts: Vec<Start> = store.desks.iter().flatten().map(|desk| Start::from_number(desk.start)).collect();
        let memory = desk_bytes(&store.desks);
        assert!(starts_in(&memory).eq(starts.iter().copied()));
        let dump = store.dump(u64::MAX).expect("dumped");
        let picture = Picture::new(Dump::read(&dump).expect("read"));
        assert_eq!(picture.desks(&memory).to_string(), picture.starts(&starts).to_string());
        let cut = rng.below(memory.len());
        assert!(starts_in(&memory[..cut]).count() <= starts.len());
    }
}

#[test]
fn a_title_that_xml_can_not_have() {
    let dump = Store::make(Sizes::new(1, 1, 1)).expect("made").dump(20).expect("dumped");
    let svg = Picture::new(Dump::read(&dump).expect("read")).title("a\u{0}\u{1b}[31m\u{ffff}b").to_string();
    assert!(parsed(&svg).is_some_and(|all| all.iter().any(|e| e.text == "a\u{fffd}\u{fffd}[31m\u{fffd}b")));
}
