//! Text within a picture.

use crate::Shown;
use core::fmt::{self, Write};

/// Writes on, with the signs of XML escaped and characters that it can't have replaced.
pub struct Escaped<'a, 'b>(pub &'a mut fmt::Formatter<'b>);

impl Write for Escaped<'_, '_> {
    fn write_str(&mut self, text: &str) -> fmt::Result {
        text.chars().try_for_each(|c| match c {
            '&' => self.0.write_str("&amp;"),
            '<' => self.0.write_str("&lt;"),
            '>' => self.0.write_str("&gt;"),
            '"' => self.0.write_str("&quot;"),
            '\'' => self.0.write_str("&apos;"),
            '\u{fffe}' | '\u{ffff}' => self.0.write_char('\u{fffd}'),
            _ if c.is_control() => self.0.write_char('\u{fffd}'),
            _ => self.0.write_char(c),
        })
    }
}

/// A number with a comma between thousands.
pub struct Grouped(pub u64);

impl Grouped {
    /// How many characters it takes.
    pub const fn width(&self) -> usize {
        let digits = match self.0.checked_ilog10() {
            Some(log) => log as usize + 1,
            None => 1,
        };
        digits + (digits - 1) / 3
    }
}

impl fmt::Display for Grouped {
    fn fmt(&self, f: &mut fmt::Formatter<'_>) -> fmt::Result {
        if self.0 < 1_000 {
            return write!(f, "{}", self.0);
        }
        write!(f, "{},{:03}", Grouped(self.0 / 1_000), self.0 % 1_000)
    }
}

/// At most so many characters; an ellipsis stands for the rest.
pub struct Cut<'b>(pub Shown<'b>, pub usize);

struct Room<'a, 'b> {
    out: &'a mut fmt::Formatter<'b>,
    left: usize,
}

impl Write for Room<'_, '_> {
    fn write_str(&mut self, text: &str) -> fmt::Result {
        for c in text.chars().take(self.left) {
            self.out.write_char(c)?;
            self.left -= 1;
        }
        Ok(())
    }
}

impl fmt::Display for Cut<'_> {
    fn fmt(&self, f: &mut fmt::Formatter<'_>) -> fmt::Result {
        if self.0.width() <= self.1 {
            return write!(f, "{}", self.0);
        }
        write!(Room { out: f, left: self.1 - 1 }, "{}", self.0)?;
        f.write_char('…')
    }
}
