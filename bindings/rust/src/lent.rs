//! What the entries are lent: books and readings as they are stored, edits, and buffers for results.
//!
//! `oracle` and `tools/bench` have this file too, by its path, so it names no other module.

/// A book or a reading as it is stored: a tape of records and a byte buffer with text, normalized
/// text and strings. It may be anything; each entry checks it.
#[derive(Debug, Clone, Copy, PartialEq, Eq, Hash)]
pub struct Stored<'a> {
    /// The records.
    pub tape: &'a [u8],
    /// Text, normalized text, strings.
    pub bytes: &'a [u8],
}

impl<'a> Stored<'a> {
    /// From its two parts.
    #[must_use]
    pub const fn new(tape: &'a [u8], bytes: &'a [u8]) -> Self {
        Self { tape, bytes }
    }
}

/// An edit: the bytes of the text from `start` up to `end` become the replacement.
#[derive(Debug, Clone, Copy, PartialEq, Eq, Hash)]
pub struct Edit<'a> {
    /// The first byte that is replaced.
    pub start: u32,
    /// The byte behind the last.
    pub end: u32,
    /// What stands there then. It need not be UTF-8: number 2 says so.
    pub replacement: &'a [u8],
}

impl<'a> Edit<'a> {
    /// Puts `replacement`, a string or bytes, in place of `start..end`.
    #[must_use]
    pub fn new(start: u32, end: u32, replacement: &'a (impl AsRef<[u8]> + ?Sized)) -> Self {
        Self { start, end, replacement: replacement.as_ref() }
    }
}

/// An edit with the reading of its region: a correction.
#[derive(Debug, Clone, Copy, PartialEq, Eq, Hash)]
pub struct Correction<'a> {
    /// The edit.
    pub edit: Edit<'a>,
    /// The parser's output for the new text of the region.
    pub reading: Stored<'a>,
}

impl<'a> Correction<'a> {
    /// From its two parts.
    #[must_use]
    pub fn new(edit: Edit<'a>, reading: impl Into<Stored<'a>>) -> Self {
        Self { edit, reading: reading.into() }
    }
}

/// Two buffers that are lent for a result. They are written whole: the result and zeros behind it,
/// or zeros after a refusal.
#[derive(Debug)]
pub struct Room<'a> {
    /// For the tape.
    pub tape: &'a mut [u8],
    /// For the byte buffer.
    pub bytes: &'a mut [u8],
}

impl<'a> Room<'a> {
    /// From its two buffers.
    #[must_use]
    pub fn new(tape: &'a mut [u8], bytes: &'a mut [u8]) -> Self {
        Self { tape, bytes }
    }
}

/// Something for each of the four merges of two corrections in both orders.
#[derive(Debug, Clone, Copy, PartialEq, Eq, Hash, Default)]
pub struct Orders<T> {
    /// The earlier-lying correction, on the first book.
    pub earlier_first: T,
    /// The later-lying one, moved by the change in length, on that result.
    pub later_second: T,
    /// The later-lying correction, on the first book.
    pub later_first: T,
    /// The earlier-lying one, on that result.
    pub earlier_second: T,
}

impl<T> Orders<T> {
    /// Each of the four, changed.
    pub fn map<U>(self, mut f: impl FnMut(T) -> U) -> Orders<U> {
        Orders {
            earlier_first: f(self.earlier_first),
            later_second: f(self.later_second),
            later_first: f(self.later_first),
            earlier_second: f(self.earlier_second),
        }
    }

    /// Each of the four with its partner.
    pub fn zip<U>(self, other: Orders<U>) -> Orders<(T, U)> {
        Orders {
            earlier_first: (self.earlier_first, other.earlier_first),
            later_second: (self.later_second, other.later_second),
            later_first: (self.later_first, other.later_first),
            earlier_second: (self.earlier_second, other.earlier_second),
        }
    }

    /// The four, borrowed.
    pub const fn as_ref(&self) -> Orders<&T> {
        Orders {
            earlier_first: &self.earlier_first,
            later_second: &self.later_second,
            later_first: &self.later_first,
            earlier_second: &self.earlier_second,
        }
    }

    /// The four, borrowed to be written.
    pub const fn as_mut(&mut self) -> Orders<&mut T> {
        Orders {
            earlier_first: &mut self.earlier_first,
            later_second: &mut self.later_second,
            later_first: &mut self.later_first,
            earlier_second: &mut self.earlier_second,
        }
    }
}

impl<T, E> Orders<Result<T, E>> {
    /// All four, or the first refusal in the order in which the calls are made.
    ///
    /// # Errors
    ///
    /// The first refusal among the four.
    pub fn all(self) -> Result<Orders<T>, E> {
        Ok(Orders {
            earlier_first: self.earlier_first?,
            later_second: self.later_second?,
            later_first: self.later_first?,
            earlier_second: self.earlier_second?,
        })
    }
}
