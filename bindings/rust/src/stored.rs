//! Books in memory of their own, and what the entries answer.

use std::fmt;

use crate::lent::{Edit, Stored};
use crate::room;
use crate::syntax::Span;

/// A [`Stored`] in memory of its own: what a merge, a copy or a [`BookBuilder`](crate::BookBuilder)
/// gives.
#[derive(Debug, Clone, PartialEq, Eq, Hash, Default)]
pub struct StoredBook {
    /// The records.
    pub tape: Vec<u8>,
    /// Text, normalized text, strings.
    pub bytes: Vec<u8>,
}

impl StoredBook {
    /// Borrows both parts.
    #[must_use]
    pub fn as_stored(&self) -> Stored<'_> {
        Stored::new(&self.tape, &self.bytes)
    }
}

impl<'a> From<&'a StoredBook> for Stored<'a> {
    fn from(book: &'a StoredBook) -> Self {
        book.as_stored()
    }
}

impl From<Stored<'_>> for StoredBook {
    fn from(stored: Stored<'_>) -> Self {
        Self { tape: stored.tape.to_vec(), bytes: stored.bytes.to_vec() }
    }
}

impl Edit<'_> {
    /// The bytes that are replaced.
    #[must_use]
    pub const fn span(&self) -> Span {
        Span::new(self.start, self.end)
    }
}

/// How many bytes of the two result buffers a book takes.
#[derive(Debug, Clone, Copy, PartialEq, Eq, Hash, Default)]
pub struct Lengths {
    /// Of the tape.
    pub tape: usize,
    /// Of the byte buffer.
    pub bytes: usize,
}

/// The counts of the string interner, all 0 where the merge added no layer. `calls` is the sum of
/// cache hits, table hits and allocs.
///
/// # The ceiling on probing
///
/// Proved for every merge (`merged_ceiling` in crates/incremental/specs/Ceiling.antt):
/// [`probe_steps`](Self::probe_steps) is at most [`calls`](Self::calls) × m, m being how many
/// distinct strings of at most 64 bytes are among those that the reading's nodes name, and 0 if m
/// is 0. m is at most 3583 (`merged_most`), so [`Estimate::calls`] × 3583 bounds the probes before
/// the merge, where the estimate is not over. All seven counts hang on the reading alone
/// (`merged_counts`).
#[derive(Debug, Clone, Copy, PartialEq, Eq, Hash, Default)]
pub struct InternStats {
    /// How many strings the reading's nodes name, each as often as it is named.
    pub calls: u64,
    /// Calls with the string of the call before.
    pub cache_hits: u64,
    /// Calls with a string that stood in the table.
    pub table_hits: u64,
    /// New strings.
    pub allocs: u64,
    /// New strings of more than 64 bytes, which go past the table.
    pub long_bypass: u64,
    /// How often the table was doubled.
    pub resizes: u64,
    /// How many slots of the table were looked at; those of entries that move when it grows are
    /// not counted.
    pub probe_steps: u64,
}

/// What a merge would cost, from [`estimate`](crate::estimate).
///
/// Where [`calls`](Self::calls), [`contents`](Self::contents) or [`segments`](Self::segments) are
/// above [`MAX_POOL`](crate::MAX_POOL), all three are [`OVER`](Self::OVER); `reread` and
/// `byte_length` are exact all the same.
#[derive(Debug, Clone, Copy, PartialEq, Eq, Hash, Default)]
pub struct Estimate {
    /// How many nodes the reading has: what is charged.
    pub reread: u32,
    /// How often the interner would be called. Every call counts, whether it finds its string or
    /// not; a missing optional string is none.
    pub calls: u32,
    /// How many contents the merge would add, each time that one is named.
    pub contents: u32,
    /// How many segments the merge would add, each time that one is named.
    pub segments: u32,
    /// How long the result's byte buffer would be without the new layer's strings: both new texts
    /// and the strings of the old layers. The reading's own strings are not in it.
    pub byte_length: usize,
}

impl Estimate {
    /// What the three counts are where one of them is above [`MAX_POOL`](crate::MAX_POOL).
    pub const OVER: u32 = 1_048_576;

    /// Are the three counts given as [`OVER`](Self::OVER)? Contents or segments that are over
    /// refuse the merge with 18; calls alone do not.
    #[must_use]
    pub const fn is_over(&self) -> bool {
        self.calls == Self::OVER
    }

    /// Result buffers that are certainly long enough for the merge, of the book and the reading
    /// that were priced: with them and [`WORK_WORDS`](crate::WORK_WORDS) words,
    /// [`raw::merge`](crate::raw::merge) answers 18 only where no room would be enough.
    ///
    /// Each is exact in some cases, and else an upper bound:
    ///
    /// - `tape`, where the reading has no nodes, or every call of the interner gives a new string;
    ///   and where no old node, pair, container or diagnostic lies in the region. A string that is
    ///   found again has no record, but 5 bytes of room here; a dropped record is no longer there,
    ///   but keeps its room.
    /// - `bytes`, where each string of the reading that has up to 64 bytes is named by a node and
    ///   is unlike the others, and no longer one is named twice in a row. A short string is stored
    ///   once, however often it is named; a longer one each time that the call before was for
    ///   another.
    ///
    /// Where the counts [are over](Self::is_over), `tape` has room for as many contents and
    /// segments as a book may have. This function is not proved; the counts that it starts from are.
    #[must_use]
    pub fn room<'a, 'b>(
        &self,
        book: impl Into<Stored<'a>>,
        reading: impl Into<Stored<'b>>,
    ) -> Lengths {
        room::priced(self, book.into(), reading.into())
    }
}

/// The price as a line, in the words of [`Merged`]'s.
impl fmt::Display for Estimate {
    fn fmt(&self, f: &mut fmt::Formatter<'_>) -> fmt::Result {
        let Self { reread, calls, contents, segments, byte_length } = self;
        write!(
            f,
            "reread {reread} calls {calls} contents {contents} segments {segments} bytes {byte_length}"
        )
    }
}

/// What a merge answers; `B` is the merged book, or the lengths of it in the buffers that were
/// lent.
#[derive(Debug, Clone, Copy, PartialEq, Eq, Hash, Default)]
pub struct Merged<B = StoredBook> {
    /// The merged book.
    pub book: B,
    /// The passage that was reread, in offsets of the old text.
    pub region: Span,
    /// How many old nodes were kept.
    pub reused: u32,
    /// How many nodes the reading has: what is charged.
    pub reread: u32,
    /// The interner's counts.
    pub stats: InternStats,
}

impl<B> Merged<B> {
    /// The same with another book.
    pub(crate) fn with<C>(self, book: C) -> Merged<C> {
        Merged {
            book,
            region: self.region,
            reused: self.reused,
            reread: self.reread,
            stats: self.stats,
        }
    }
}

/// The line of the program `merge`: document 01, P5.
impl<B> fmt::Display for Merged<B> {
    fn fmt(&self, f: &mut fmt::Formatter<'_>) -> fmt::Result {
        let Span { start, end } = self.region;
        let InternStats { calls, probe_steps, .. } = self.stats;
        write!(
            f,
            "region {start} {end} reused {} reread {} calls {calls} probes {probe_steps}",
            self.reused, self.reread
        )
    }
}
