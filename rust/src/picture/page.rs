//! Where everything stands on the page.

use super::scale::Scale;
use super::text::Grouped;
use crate::dump::Dump;
use crate::{Shown, Start};
use core::fmt;
use core::ops::{Add, Div, Mul, Sub};

/// A length in tenths of a pixel. None is below zero.
#[derive(Clone, Copy, PartialEq, Eq, PartialOrd, Ord, Debug)]
pub struct Px(pub usize);

const fn px(whole: usize) -> Px {
    Px(whole * 10)
}

impl Add for Px {
    type Output = Px;
    fn add(self, other: Px) -> Px {
        Px(self.0 + other.0)
    }
}

impl Sub for Px {
    type Output = Px;
    fn sub(self, other: Px) -> Px {
        Px(self.0.saturating_sub(other.0))
    }
}

impl Mul<usize> for Px {
    type Output = Px;
    fn mul(self, by: usize) -> Px {
        Px(self.0 * by)
    }
}

impl Div<usize> for Px {
    type Output = Px;
    fn div(self, by: usize) -> Px {
        Px(self.0 / by)
    }
}

impl fmt::Display for Px {
    fn fmt(&self, f: &mut fmt::Formatter<'_>) -> fmt::Result {
        match self.0 % 10 {
            0 => write!(f, "{}", self.0 / 10),
            tenth => write!(f, "{}.{tenth}", self.0 / 10),
        }
    }
}

/// Characters that a value is shown in at the most.
pub const VALUE_WIDTH: usize = 18;

/// What the page has to have room for.
pub struct Survey {
    pub lowest: Option<u64>,
    pub deletions: usize,
    /// Keys whose newest version is a value.
    pub in_use: usize,
    /// Versions of the key that has the most.
    most: usize,
    key_width: usize,
    value_width: usize,
}

impl Survey {
    pub fn of(dump: &Dump) -> Survey {
        let mut survey = Survey { lowest: None, deletions: 0, in_use: 0, most: 0, key_width: 3, value_width: 7 };
        for entry in dump.entries() {
            let first = entry.versions().next().map(|version| version.number);
            survey.lowest = survey.lowest.into_iter().chain(first).min();
            survey.deletions += entry.versions().filter(|version| version.value.is_none()).count();
            survey.most = survey.most.max(entry.versions().len());
            survey.key_width = survey.key_width.max(Shown(entry.key).width());
            if let Some(value) = entry.versions().last().and_then(|version| version.value) {
                survey.in_use += 1;
                survey.value_width = survey.value_width.max(Shown(value).width().min(VALUE_WIDTH));
            }
        }
        survey
    }
}

/// Starts from the lowest to the highest, each once.
pub fn ascending(starts: impl Iterator<Item = Start> + Clone) -> impl Iterator<Item = Start> {
    let above = move |last: Option<Start>| starts.clone().filter(|start| Some(*start) > last).min();
    core::iter::successors(above(None), move |last| above(Some(*last)))
}

/// A quotient, rounded up.
const fn up(whole: usize, by: usize) -> usize {
    whole / by + (whole % by != 0) as usize
}

pub struct Page {
    pub row: Px,
    pub font: Px,
    pub small: Px,
    /// A mark's radius.
    pub mark: Px,
    /// Rows that are tinted, and as many that are not.
    pub band: usize,
    pub plot: Px,
    pub panels: usize,
    pub scale: Scale,
    keys: usize,
    /// Rows of a panel that is full.
    rows: usize,
    before: Px,
    after: Px,
    lane: Px,
}

const MARGIN: Px = px(40);
/// The heading and the legend, on a page of up to this width.
const HEAD: usize = 120;
const WIDTH: usize = 1_600;

impl Page {
    pub fn of(
        survey: &Survey,
        dump: &Dump,
        floor: Option<u64>,
        starts: &(impl Iterator<Item = Start> + Clone),
    ) -> Page {
        // rows shrink where there are many, so that a poster still has them all
        let (row, font, mark, plot, band) = match dump.keys() {
            0..=40 => (px(30), px(14), px(6), px(840), 1),
            41..=160 => (px(18), px(11), px(4), px(680), 1),
            _ => (px(13), px(9), Px(32), px(560), 5),
        };
        // rows that are full of versions get a longer scale
        let plot = plot.max(px(4) * survey.most).min(plot * 4);
        let small = font - font / 7;
        let extra = || starts.clone().map(Start::number).chain(floor);
        let high = extra().chain([dump.counter()]).max().unwrap_or(0);
        let low = extra().chain(survey.lowest).min().unwrap_or(0);
        let letter = |size: Px, count: usize| size * (count * 62) / 100;
        let lane =
            if extra().next().is_some() { small * 2 + letter(small, Grouped(high).width() + 6) * 3 / 4 } else { px(0) };
        // marks of the fullest row would stand this far apart if evenly spread
        let apart = plot / survey.most.max(1);
        let mut page = Page {
            row,
            font,
            small,
            mark: mark.min(apart.max(px(2))),
            band,
            plot,
            panels: 1,
            scale: Scale::of(low, high, plot, mark * 2, letter(small, 1)),
            keys: dump.keys(),
            rows: dump.keys().max(1),
            before: letter(font, survey.key_width) + font,
            after: letter(font, survey.value_width) + font,
            lane,
        };
        page.split();
        page
    }

    /// As many panels as bring the page next to the shape of a landscape sheet.
    fn split(&mut self) {
        let off = |page: &Page| {
            // a sheet is 1,414 wide where it is 1,000 high
            let (wide, high) = (page.width().0 * 1_000, page.height().0 * 1_414);
            wide.max(high) * 1_000 / wide.min(high).max(1)
        };
        let keys = self.keys.max(1);
        let with = |page: &Page, panels: usize| {
            let rows = up(keys, panels);
            Page { panels: up(keys, rows), rows, ..*page }
        };
        let one = with(self, 1);
        if one.width() > one.height() {
            return;
        }
        if let Some(best) = (1..=12).map(|panels| with(self, panels)).min_by_key(off) {
            *self = best;
        }
    }

    pub fn panel_width(&self) -> Px {
        self.before + self.plot + self.after
    }

    pub fn width(&self) -> Px {
        self.panel_width() * self.panels + MARGIN * (self.panels + 1)
    }

    pub fn height(&self) -> Px {
        self.top() + self.row * self.rows + self.small * 2 + MARGIN
    }

    /// A place across the heading, from the margin.
    pub fn across(&self, length: usize) -> Px {
        MARGIN + self.big(length)
    }

    /// A length of the heading, which grows with the page.
    pub fn big(&self, length: usize) -> Px {
        px(length).max(self.width() * length / WIDTH)
    }

    pub fn top(&self) -> Px {
        self.big(HEAD) + self.lane + self.small * 2
    }

    pub fn bottom(&self, panel: usize) -> Px {
        self.top() + self.row * self.rows_in(panel).max(1)
    }

    pub fn rows_in(&self, panel: usize) -> usize {
        self.rows.min(self.keys.saturating_sub(panel * self.rows))
    }

    pub fn panel_left(&self, panel: usize) -> Px {
        MARGIN + (self.panel_width() + MARGIN) * panel
    }

    /// Where a panel's plot begins.
    pub fn left(&self, panel: usize) -> Px {
        self.panel_left(panel) + self.before
    }

    /// The panel that has a key.
    pub const fn panel_of(&self, key: usize) -> usize {
        key / self.rows
    }

    pub fn x(&self, key: usize, number: u64) -> Px {
        self.left(self.panel_of(key)) + self.scale.place(number)
    }

    pub fn y(&self, key: usize) -> Px {
        self.top() + self.row * (key % self.rows) + self.row / 2
    }
}
