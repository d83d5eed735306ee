//! From numbers to places across.

use super::page::Px;
use super::text::Grouped;

/// Numbers from `low` to `high`, on so many tenths of a pixel.
#[derive(Clone, Copy)]
pub struct Scale {
    low: u64,
    high: u64,
    inset: Px,
    span: Px,
    step: u64,
}

/// A stretch of fewer numbers than this is drawn as if it had so many.
const LEAST: u64 = 8;

impl Scale {
    /// A scale that has both numbers on it. It begins at zero unless that would leave the most of it empty.
    pub fn of(lowest: u64, high: u64, width: Px, inset: Px, letter: Px) -> Scale {
        let high = high.max(lowest).max(LEAST);
        let spread = (high - lowest).max(LEAST);
        let low = if lowest <= high / 3 { 0 } else { high.saturating_sub(spread).saturating_sub(spread / 30) };
        let apart = letter * (Grouped(high).width() + 3);
        let most = ((width.0 / apart.0.max(1)) as u64).max(1);
        Scale { low, high, inset, span: width - inset * 2, step: nice((high - low) / most + 1) }
    }

    /// Where a number stands, from the left edge.
    pub fn place(&self, number: u64) -> Px {
        let along = u128::from(number.clamp(self.low, self.high) - self.low) * self.span.0 as u128;
        self.inset + Px((along / u128::from(self.high - self.low)) as usize)
    }

    /// Round numbers, evenly apart.
    pub fn ticks(&self) -> impl Iterator<Item = u64> {
        let (step, high) = (self.step, self.high);
        let first = self.low.checked_add((step - self.low % step) % step);
        core::iter::successors(first, move |last| last.checked_add(step)).take_while(move |tick| *tick <= high)
    }
}

/// The least of 1, 2, 5, 10, 20, 50 and so on that is not below.
fn nice(least: u64) -> u64 {
    let mut power = 1u64;
    loop {
        for digit in [1, 2, 5] {
            match power.checked_mul(digit) {
                Some(step) if step >= least => return step,
                Some(_) => {}
                None => return u64::MAX,
            }
        }
        power = match power.checked_mul(10) {
            Some(power) => power,
            None => return u64::MAX,
        };
    }
}
