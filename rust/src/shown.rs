//! Bytes for people.

use core::fmt::{self, Write as _};

/// A key or a value as people read it: as text where every byte prints, else in hexadecimal behind `0x`.
///
/// Text that would pass for hexadecimal, or that begins or ends with a space, is shown in hexadecimal too. So no two
/// are shown alike.
///
/// ```
/// use hourbracken::Shown;
///
/// assert_eq!(Shown(b"A1").to_string(), "A1");
/// assert_eq!(Shown(b"A1\0").to_string(), "0x413100");
/// assert_eq!(Shown(b"0x41").to_string(), "0x30783431");
/// ```
#[derive(Clone, Copy, PartialEq, Eq, PartialOrd, Ord, Hash)]
pub struct Shown<'b>(pub &'b [u8]);

impl<'b> Shown<'b> {
    /// The text, if it is shown as text.
    #[must_use]
    pub fn text(self) -> Option<&'b str> {
        let prints = self.0.iter().all(|byte| (b' '..=b'~').contains(byte));
        let plain = !self.0.starts_with(b" ") && !self.0.ends_with(b" ") && !self.0.starts_with(b"0x");
        core::str::from_utf8(self.0).ok().filter(|_| prints && plain)
    }

    /// How many characters it is shown in.
    #[must_use]
    pub fn width(self) -> usize {
        self.text().map_or(2 + 2 * self.0.len(), str::len)
    }
}

impl fmt::Display for Shown<'_> {
    fn fmt(&self, f: &mut fmt::Formatter<'_>) -> fmt::Result {
        if let Some(text) = self.text() {
            return f.write_str(text);
        }
        f.write_str("0x")?;
        self.0.iter().try_for_each(|byte| write!(f, "{byte:02x}"))
    }
}

impl fmt::Debug for Shown<'_> {
    fn fmt(&self, f: &mut fmt::Formatter<'_>) -> fmt::Result {
        f.write_str("b\"")?;
        write!(f, "{}", self.0.escape_ascii())?;
        f.write_char('"')
    }
}

/// A number of things, and the word for one.
pub(crate) struct Many(pub u64, pub &'static str);

impl fmt::Display for Many {
    fn fmt(&self, f: &mut fmt::Formatter<'_>) -> fmt::Result {
        write!(f, "{} {}{}", self.0, self.1, if self.0 == 1 { "" } else { "s" })
    }
}
