//! A hall as a picture to hang on the wall: keys down, commit numbers across, each version a mark.
//!
//! A value is a disc, a deletion a cross; the newest of each key is red and the older ones are blue. A bar runs from a
//! value to the version that took its place. It is plain SVG without script, written piece by piece: nothing allocates.
//!
//! ```
//! use hourbracken::{dump::Dump, picture::Picture, Start};
//!
//! let bytes = b"DSEMVCC1\x03\0\0\0\0\0\0\0\x01\0\0\0\x02\0\0\0A1\x01\0\0\0\x02\0\0\0\0\0\0\0\x01\x01\0\0\0\x07";
//! let svg = Picture::new(Dump::read(bytes)?).title("Hall 3").starts(&[Start::from_number(1)]).to_string();
//! assert!(svg.starts_with("<svg ") && svg.contains("Hall 3"));
//! # Ok::<(), hourbracken::dump::Fault>(())
//! ```
//!
//! A store in use draws itself, with the transactions that are open:
//!
#![cfg_attr(feature = "archive", doc = "```")]
#![cfg_attr(not(feature = "archive"), doc = "```ignore")]
//! use hourbracken::{Refusal, Sizes, Store};
//!
//! let sizes = Sizes { key_rooms: 4, version_rooms: 8, desks: 2 };
//! let (mut hall, mut desk) = (vec![0; sizes.hall_len()], vec![0; sizes.desk_len()]);
//! let mut store = Store::make(&mut hall, &mut desk, sizes)?;
//! let open = store.begin()?.start;
//!
//! let mut room = vec![0; sizes.dump_len()];
//! let svg = store.picture(&mut room)?.title("Hall 3").to_string();
//! assert!(svg.contains(&format!("start {open}")));
//! # Ok::<(), Refusal>(())
//! ```

mod page;
mod scale;
mod text;

use crate::dump::{Dump, Entry, Version};
use crate::{starts_in, Shown, Start};
use core::fmt::{self, Write};
use page::{Page, Px, Survey};
use text::{Cut, Escaped, Grouped};

const INK: &str = "#1f2937";
const PALE_INK: &str = "#6b7280";
const LINE: &str = "#d6dae1";
const BAND: &str = "#f5f6f8";
const NEWEST: &str = "#d3202f";
const OLDER: &str = "#2459c9";
const FLOOR: &str = "#0f766e";
const START: &str = "#9a5b00";

/// Spaces within keys and values stay as they are.
const PRE: &str = "xml:space=\"preserve\"";
const DASHES: &str = " stroke-dasharray=\"6 3\"";

/// How far down the legend stands, on a page that is not enlarged.
const LEGEND: usize = 100;

/// Letters of equal width, for keys, numbers and values.
const MONO: &str = "'DejaVu Sans Mono', Menlo, Consolas, monospace";
const SANS: &str = "'Helvetica Neue', Helvetica, Arial, 'DejaVu Sans', sans-serif";

/// A picture of a dump; its `Display` is the SVG.
#[derive(Clone, Copy, Debug)]
#[must_use]
pub struct Picture<'p> {
    dump: Dump<'p>,
    title: &'p str,
    floor: Option<u64>,
    starts: &'p [Start],
    desk: &'p [u8],
}

impl<'p> Picture<'p> {
    /// Of this dump.
    pub const fn new(dump: Dump<'p>) -> Picture<'p> {
        Picture { dump, title: "Hall", floor: None, starts: &[], desk: &[] }
    }

    /// What stands above it.
    pub const fn title(self, title: &'p str) -> Picture<'p> {
        Picture { title, ..self }
    }

    /// The floor, which a dump does not tell: below it versions may be gone.
    pub const fn floor(self, floor: u64) -> Picture<'p> {
        Picture { floor: Some(floor), ..self }
    }

    /// The open transactions, each a line.
    pub const fn starts(self, starts: &'p [Start]) -> Picture<'p> {
        Picture { starts, ..self }
    }

    /// Those that are open in a desk memory, each a line too.
    pub const fn desks(self, desk: &'p [u8]) -> Picture<'p> {
        Picture { desk, ..self }
    }

    fn open(&self) -> impl Iterator<Item = Start> + Clone + 'p {
        self.starts.iter().copied().chain(starts_in(self.desk))
    }
}

/// Which marks a layer has.
#[derive(Clone, Copy, PartialEq, Eq)]
struct Layer {
    newest: bool,
    deletions: bool,
}

impl Layer {
    const fn colour(self) -> &'static str {
        if self.newest {
            NEWEST
        } else {
            OLDER
        }
    }

    const fn name(self) -> &'static str {
        match (self.newest, self.deletions) {
            (true, true) => "newest-deletions",
            (true, false) => "newest-values",
            (false, true) => "older-deletions",
            (false, false) => "older-values",
        }
    }

    /// The key's versions that belong to it.
    fn of<'d>(self, entry: &Entry<'d>) -> impl Iterator<Item = Version<'d>> {
        let last = entry.versions().len() - 1;
        let of_layer = move |(i, version): &(usize, Version<'d>)| {
            (*i == last) == self.newest && version.value.is_none() == self.deletions
        };
        entry.versions().enumerate().filter(of_layer).map(|(_, version)| version)
    }
}

const LAYERS: [Layer; 4] = [
    Layer { newest: false, deletions: false },
    Layer { newest: false, deletions: true },
    Layer { newest: true, deletions: false },
    Layer { newest: true, deletions: true },
];

impl fmt::Display for Picture<'_> {
    fn fmt(&self, f: &mut fmt::Formatter<'_>) -> fmt::Result {
        let survey = Survey::of(&self.dump);
        let page = Page::of(&survey, &self.dump, self.floor, &self.open());
        let (width, height) = (page.width(), page.height());
        writeln!(
            f,
            "<svg xmlns=\"http://www.w3.org/2000/svg\" width=\"{width}\" height=\"{height}\" \
             viewBox=\"0 0 {width} {height}\" role=\"img\" font-family=\"{SANS}\" fill=\"{INK}\">"
        )?;
        write!(f, "<title>")?;
        write!(Escaped(f), "{}", self.title)?;
        writeln!(f, "</title>\n<rect width=\"{width}\" height=\"{height}\" fill=\"#ffffff\"/>")?;
        self.heading(f, &page, &survey)?;
        self.legend(f, &page)?;
        for panel in 0..page.panels {
            self.ground(f, &page, panel)?;
        }
        self.bars(f, &page)?;
        for panel in 0..page.panels {
            self.lines(f, &page, panel)?;
            self.numbers(f, &page, panel)?;
        }
        for layer in LAYERS {
            self.marks(f, &page, layer)?;
        }
        self.keys(f, &page)?;
        self.values(f, &page)?;
        writeln!(f, "</svg>")
    }
}

impl Picture<'_> {
    fn heading(&self, f: &mut fmt::Formatter<'_>, page: &Page, survey: &Survey) -> fmt::Result {
        let x = page.across(0);
        write!(f, "<text x=\"{x}\" y=\"{}\" font-size=\"{}\" font-weight=\"700\">", page.big(44), page.big(28))?;
        write!(Escaped(f), "{}", self.title)?;
        write!(f, "</text>\n<text x=\"{x}\" y=\"{}\" font-size=\"{}\" ", page.big(68), page.big(14))?;
        writeln!(
            f,
            "fill=\"{PALE_INK}\">counter {} · keys {}, with a value now {} · versions {}, deletions {}</text>",
            Grouped(self.dump.counter()),
            Grouped(self.dump.keys() as u64),
            Grouped(survey.in_use as u64),
            Grouped(self.dump.versions() as u64),
            Grouped(survey.deletions as u64),
        )
    }

    fn legend(&self, f: &mut fmt::Formatter<'_>, page: &Page) -> fmt::Result {
        let mut x = 6;
        writeln!(f, "<g id=\"legend\" font-size=\"{}\">", page.big(13))?;
        for layer in [LAYERS[2], LAYERS[3], LAYERS[0], LAYERS[1]] {
            let words = match (layer.newest, layer.deletions) {
                (true, false) => "newest value",
                (true, true) => "newest deletion",
                (false, false) => "older value",
                (false, true) => "older deletion",
            };
            mark(f, layer, page.across(x), page.big(LEGEND), page.big(5))?;
            writeln!(f, "/>")?;
            x = label(f, page, x + 13, words)?;
        }
        for (colour, from) in [(OLDER, x - 4), (NEWEST, x + 12)] {
            bar(f, colour, page.big(6))?;
            let (from, to, y) = (page.across(from), page.across(from + 16), page.big(LEGEND));
            writeln!(f, "><path d=\"M{from} {y}H{to}\"/></g>")?;
        }
        x = label(f, page, x + 36, "time that a value held")?;
        if self.floor.is_some() {
            upright(f, page, x, FLOOR, DASHES)?;
            x = label(f, page, x + 10, "floor")?;
        }
        if self.open().next().is_some() {
            upright(f, page, x, START, "")?;
            label(f, page, x + 10, "open start")?;
        }
        writeln!(f, "</g>")
    }

    /// A panel's ground: bands of rows and the scale's lines.
    fn ground(&self, f: &mut fmt::Formatter<'_>, page: &Page, panel: usize) -> fmt::Result {
        let (left, top, bottom) = (page.left(panel), page.top(), page.bottom(panel));
        let (wide, high) = (page.plot, bottom - top);
        writeln!(f, "<g id=\"panel-{}\">", panel + 1)?;
        for band in (0..page.rows_in(panel)).step_by(2 * page.band) {
            let rows = page.band.min(page.rows_in(panel) - band);
            let (y, high) = (top + page.row * band, page.row * rows);
            let (x, wide) = (page.panel_left(panel), page.panel_width());
            writeln!(f, "<rect x=\"{x}\" y=\"{y}\" width=\"{wide}\" height=\"{high}\" fill=\"{BAND}\"/>")?;
        }
        for number in page.scale.ticks() {
            let x = left + page.scale.place(number);
            writeln!(f, "<path d=\"M{x} {top}V{bottom}\" stroke=\"{LINE}\" stroke-width=\".8\"/>")?;
        }
        write!(f, "<rect x=\"{left}\" y=\"{top}\" width=\"{wide}\" height=\"{high}\" ")?;
        writeln!(f, "fill=\"none\" stroke=\"{LINE}\"/>\n</g>")
    }

    /// The floor and the open starts, over a panel. Words of starts slant to the right and those of the floor stand to
    /// its left, since after a sweep the floor is often the oldest start. A start next to another has no words.
    fn lines(&self, f: &mut fmt::Formatter<'_>, page: &Page, panel: usize) -> fmt::Result {
        let (left, top, bottom) = (page.left(panel), page.top(), page.bottom(panel));
        let (above, words) = (top - page.small * 2, top - page.small * 7 / 3);
        writeln!(f, "<g font-family=\"{MONO}\" font-size=\"{}\">", page.small)?;
        if let Some(floor) = self.floor {
            let (x, told) = (left + page.scale.place(floor), Grouped(floor));
            let (wide, high, end) = (x - left, bottom - top, x - page.small / 2);
            write!(f, "<rect x=\"{left}\" y=\"{top}\" width=\"{wide}\" height=\"{high}\" ")?;
            writeln!(f, "fill=\"{FLOOR}\" fill-opacity=\".06\"/>")?;
            write!(f, "<path d=\"M{x} {above}V{bottom}\" stroke=\"{FLOOR}\" stroke-width=\"3.5\"{DASHES}>")?;
            writeln!(f, "<title>floor {told}</title></path>")?;
            writeln!(f, "<text x=\"{end}\" y=\"{words}\" fill=\"{FLOOR}\" text-anchor=\"end\">floor {told}</text>")?;
        }
        let mut last = None;
        for start in page::ascending(self.open()) {
            let (x, told) = (left + page.scale.place(start.number()), Grouped(start.number()));
            write!(f, "<path d=\"M{x} {above}V{bottom}\" stroke=\"{START}\" stroke-width=\"1.5\">")?;
            writeln!(f, "<title>start {told}</title></path>")?;
            if last.map_or(true, |last| x - last >= page.small * 6 / 5) {
                write!(f, "<text x=\"{x}\" y=\"{words}\" fill=\"{START}\" transform=\"rotate(-45 {x} {words})\">")?;
                writeln!(f, "start {told}</text>")?;
                last = Some(x);
            }
        }
        writeln!(f, "</g>")
    }

    /// The scale's numbers above and below a panel, with a rim so that a line does not cross them out.
    fn numbers(&self, f: &mut fmt::Formatter<'_>, page: &Page, panel: usize) -> fmt::Result {
        let (left, top, bottom) = (page.left(panel), page.top(), page.bottom(panel));
        write!(
            f,
            "<g font-family=\"{MONO}\" font-size=\"{}\" fill=\"{PALE_INK}\" text-anchor=\"middle\" ",
            page.small
        )?;
        writeln!(f, "stroke=\"#ffffff\" stroke-width=\"4\" stroke-linejoin=\"round\" paint-order=\"stroke\">")?;
        for number in page.scale.ticks() {
            let x = left + page.scale.place(number);
            for y in [top - page.small / 2, bottom + page.small * 3 / 2] {
                writeln!(f, "<text x=\"{x}\" y=\"{y}\">{}</text>", Grouped(number))?;
            }
        }
        writeln!(f, "</g>")
    }

    /// From each value to the version after it, or to the counter.
    fn bars(&self, f: &mut fmt::Formatter<'_>, page: &Page) -> fmt::Result {
        for newest in [false, true] {
            let layer = Layer { newest, deletions: false };
            bar(f, layer.colour(), page.mark)?;
            f.write_str(">\n")?;
            for (i, entry) in self.dump.entries().enumerate().filter(|(_, entry)| layer.of(entry).next().is_some()) {
                f.write_str("<path d=\"")?;
                let ends = entry.versions().skip(1).map(|version| version.number).chain([self.dump.counter()]);
                let last = entry.versions().len() - 1;
                for (at, (version, end)) in entry.versions().zip(ends).enumerate() {
                    if version.value.is_some() && (at == last) == newest {
                        write!(f, "M{} {}H{}", page.x(i, version.number), page.y(i), page.x(i, end))?;
                    }
                }
                f.write_str("\"/>\n")?;
            }
            writeln!(f, "</g>")?;
        }
        Ok(())
    }

    fn marks(&self, f: &mut fmt::Formatter<'_>, page: &Page, layer: Layer) -> fmt::Result {
        writeln!(f, "<g id=\"{}\">", layer.name())?;
        for (i, entry) in self.dump.entries().enumerate() {
            for version in layer.of(&entry) {
                mark(f, layer, page.x(i, version.number), page.y(i), page.mark)?;
                f.write_str("><title>")?;
                write!(Escaped(f), "{} at {}: ", Shown(entry.key), Grouped(version.number))?;
                match version.value {
                    None => f.write_str("deleted")?,
                    Some([]) => f.write_str("an empty value")?,
                    Some(value) => write!(Escaped(f), "{}", Shown(value))?,
                }
                writeln!(f, "</title></{}>", if layer.deletions { "path" } else { "circle" })?;
            }
        }
        writeln!(f, "</g>")
    }

    fn keys(&self, f: &mut fmt::Formatter<'_>, page: &Page) -> fmt::Result {
        writeln!(f, "<g id=\"keys\" {PRE} font-family=\"{MONO}\" font-size=\"{}\" text-anchor=\"end\">", page.font)?;
        for (i, entry) in self.dump.entries().enumerate() {
            let (x, y) = (page.left(page.panel_of(i)) - page.font * 2 / 3, page.y(i) + page.font * 7 / 20);
            write!(f, "<text x=\"{x}\" y=\"{y}\">")?;
            write!(Escaped(f), "{}", Shown(entry.key))?;
            writeln!(f, "</text>")?;
        }
        writeln!(f, "</g>")
    }

    /// What each key holds now.
    fn values(&self, f: &mut fmt::Formatter<'_>, page: &Page) -> fmt::Result {
        writeln!(f, "<g id=\"now\" {PRE} font-family=\"{MONO}\" font-size=\"{}\" fill=\"{NEWEST}\">", page.font)?;
        for (i, entry) in self.dump.entries().enumerate() {
            let (x, y) = (page.left(page.panel_of(i)) + page.plot + page.font * 2 / 3, page.y(i) + page.font * 7 / 20);
            match entry.versions().last().and_then(|version| version.value) {
                None => write!(f, "<text x=\"{x}\" y=\"{y}\" fill=\"{PALE_INK}\" font-style=\"italic\">deleted")?,
                Some([]) => write!(f, "<text x=\"{x}\" y=\"{y}\" fill=\"{PALE_INK}\" font-style=\"italic\">empty")?,
                Some(value) => {
                    write!(f, "<text x=\"{x}\" y=\"{y}\">")?;
                    write!(Escaped(f), "{}", Cut(Shown(value), page::VALUE_WIDTH))?;
                }
            }
            writeln!(f, "</text>")?;
        }
        writeln!(f, "</g>")
    }
}

/// A mark, up to the end of its tag.
fn mark(f: &mut fmt::Formatter<'_>, layer: Layer, x: Px, y: Px, r: Px) -> fmt::Result {
    let colour = layer.colour();
    if !layer.deletions {
        write!(f, "<circle cx=\"{x}\" cy=\"{y}\" r=\"{r}\" fill=\"{colour}\"")?;
        // a rim keeps marks that touch apart; small ones would be all rim
        return f.write_str(if r < Px(30) { "" } else { " stroke=\"#ffffff\" stroke-width=\".8\"" });
    }
    let (left, top, side, wide) = (x - r, y - r, r * 2, r / 2);
    write!(f, "<path d=\"M{left} {top}l{side} {side}m0 -{side}l-{side} {side}\" ")?;
    write!(f, "fill=\"none\" stroke=\"{colour}\" stroke-width=\"{wide}\"")
}

/// The group that bars stand in, up to the end of its tag.
fn bar(f: &mut fmt::Formatter<'_>, colour: &str, wide: Px) -> fmt::Result {
    write!(f, "<g fill=\"none\" stroke=\"{colour}\" stroke-opacity=\".28\" stroke-width=\"{wide}\"")
}

/// Words of the legend; answers where the next item goes.
fn label(f: &mut fmt::Formatter<'_>, page: &Page, x: usize, words: &str) -> Result<usize, fmt::Error> {
    writeln!(f, "<text x=\"{}\" y=\"{}\">{words}</text>", page.across(x), page.big(LEGEND + 5))?;
    Ok(x + words.len() * 7 + 24)
}

/// An upright line of the legend.
fn upright(f: &mut fmt::Formatter<'_>, page: &Page, x: usize, colour: &str, dashes: &str) -> fmt::Result {
    let (x, top, bottom, wide) = (page.across(x), page.big(LEGEND - 9), page.big(LEGEND + 9), page.big(2));
    writeln!(f, "<path d=\"M{x} {top}V{bottom}\" stroke=\"{colour}\" stroke-width=\"{wide}\"{dashes}/>")
}
