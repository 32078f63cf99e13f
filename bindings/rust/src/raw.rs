//! The entries as they are: on buffers that the caller lends, with answers in numbers. Nothing here
//! allocates.
//!
//! Each function is one call of the proved archive and a conversion of its answer. The functions of
//! the crate's root do the same with memory of their own, and answer with strings and records.

use std::ops::Range;

use crate::ffi;
use crate::lent::{Correction, Edit, Orders, Room, Stored};
use crate::refusal::Refusal;
use crate::stored::{Estimate, InternStats, Lengths, Merged};
use crate::syntax::{ContentRange, SegRange, Span, StrId};

/// Is it a book: numbers 1 to 7?
///
/// # Errors
///
/// The first of the numbers 1 to 7 whose condition holds.
pub fn check_book(book: Stored<'_>) -> Result<(), Refusal> {
    Refusal::of_answer(ffi::check_book(book))
}

/// Is it a reading: numbers 1 to 7, with exactly one layer?
///
/// # Errors
///
/// The first of the numbers 1 to 7 whose condition holds.
pub fn check_reading(reading: Stored<'_>) -> Result<(), Refusal> {
    Refusal::of_answer(ffi::check_reading(reading))
}

/// `diagnostics_allow_incremental` of a book: has it no diagnostic of a kind from `UnclosedBracket`
/// on? The merge does not ask it; a caller may.
///
/// # Errors
///
/// 1 to 7 where it is not a book.
pub fn diagnostics_allow_incremental(book: Stored<'_>) -> Result<bool, Refusal> {
    let answer = ffi::diagnostics_allow_incremental(book);
    Refusal::of_answer(answer.number).map(|()| answer.allowed)
}

/// The place in the list of the node whose span has the offset in it, if there is one.
///
/// # Errors
///
/// 1 to 7 where it is not a book.
pub fn node_at_source(book: Stored<'_>, offset: u32) -> Result<Option<usize>, Refusal> {
    let answer = ffi::node_at_source(book, offset);
    Refusal::of_answer(answer.number).map(|()| answer.found.then_some(answer.node))
}

/// Where the string stands in the byte buffer, if there is one of that number.
///
/// # Errors
///
/// 1 to 7 where it is not a book.
pub fn lookup_str(book: Stored<'_>, id: StrId) -> Result<Option<Range<usize>>, Refusal> {
    let answer = ffi::lookup_str(book, id.0);
    Refusal::of_answer(answer.number).map(|()| answer.found.then_some(answer.start..answer.end))
}

/// Records that stand one behind the other in a tape.
#[derive(Debug, Clone, Copy, PartialEq, Eq, Hash)]
pub struct Run {
    /// Where the first stands. Of an empty run it says nothing.
    pub place: usize,
    /// How many they are.
    pub count: u32,
}

fn run(answer: &ffi::RangeAnswer) -> Result<Option<Run>, Refusal> {
    let run = Run { place: answer.place, count: answer.count };
    Refusal::of_answer(answer.number).map(|()| answer.found.then_some(run))
}

/// Where the contents of a range stand in the tape, if there is such a range.
///
/// # Errors
///
/// 1 to 7 where it is not a book.
pub fn lookup_contents(book: Stored<'_>, range: ContentRange) -> Result<Option<Run>, Refusal> {
    run(&ffi::lookup_contents(book, range.start, range.len))
}

/// Where the segments of a range stand in the tape, if there is such a range.
///
/// # Errors
///
/// 1 to 7 where it is not a book.
pub fn lookup_segments(book: Stored<'_>, range: SegRange) -> Result<Option<Run>, Refusal> {
    run(&ffi::lookup_segments(book, range.start, range.len))
}

/// Copies a book. Both buffers are written whole: the copy and zeros behind it, or zeros after a
/// refusal.
///
/// # Errors
///
/// 1 to 7 where it is not a book, 18 where a buffer is too short.
pub fn copy_book(book: Stored<'_>, room: Room<'_>) -> Result<Lengths, Refusal> {
    taken(&ffi::copy_book(book, room))
}

fn taken(answer: &ffi::CopyAnswer) -> Result<Lengths, Refusal> {
    Refusal::of_answer(answer.number).map(|()| Lengths { tape: answer.tape, bytes: answer.bytes })
}

/// Flattens a book: see [`flatten_book`](crate::flatten_book). Both buffers are written whole: the
/// flat book and zeros behind it, or zeros after a refusal. `work` are
/// [`WORK_WORDS`](crate::WORK_WORDS) words or more, and come back as zeros; one more for each string
/// makes it faster for a book that has many.
///
/// Buffers as long as the book are enough where no content, no segment and no string of more than
/// 64 bytes is named twice. Certainly enough, with that many words: the old tape's
/// length + 49300940, and the old bytes' length + 3583 times the longest string, or the old bytes'
/// length alone where no string has more than 64 bytes. 18 in such buffers stays 18 in longer ones.
///
/// # Errors
///
/// 1 to 7 where it is not a book; 18 where a buffer is too short, words are too few, or the flat
/// layer would have more than 3583 strings or more contents or segments than
/// [`MAX_POOL`](crate::MAX_POOL).
pub fn flatten_book(
    book: Stored<'_>,
    room: Room<'_>,
    work: &mut [u32],
) -> Result<Lengths, Refusal> {
    taken(&ffi::flatten_book(book, room, work))
}

/// The region of an edit, in offsets of the old text: what has to be read again. It ends behind a
/// blank line that is still there in the new text, or at the text's end. The words may be any
/// number, also none; more make it faster. They come back as zeros.
///
/// # Errors
///
/// A number 1 to 11.
pub fn choose_region(book: Stored<'_>, edit: Edit<'_>, words: &mut [u32]) -> Result<Span, Refusal> {
    let answer = ffi::choose_region(book, edit, words);
    Refusal::of_answer(answer.number).map(|()| Span::new(answer.start, answer.end))
}

/// What [`merge`] would cost, without a result: see [`estimate`](crate::estimate). No result buffer
/// is lent, and there is no 18. `work` may be any number of words, also none; with
/// [`WORK_WORDS`](crate::WORK_WORDS), or two for each node of a large book, numbers 10 and 15 are
/// faster. They come back as zeros.
///
/// # Errors
///
/// A number 1 to 17, exactly where [`merge`] gives it.
pub fn estimate(
    book: Stored<'_>,
    edit: Edit<'_>,
    reading: Stored<'_>,
    work: &mut [u32],
) -> Result<Estimate, Refusal> {
    let answer = ffi::estimate(book, edit, reading, work);
    Refusal::of_answer(answer.number).map(|()| Estimate {
        reread: answer.reread,
        calls: answer.calls,
        contents: answer.contents,
        segments: answer.segments,
        byte_length: answer.bytes,
    })
}

fn merged(answer: &ffi::MergeAnswer) -> Result<Merged<Lengths>, Refusal> {
    Refusal::of_answer(answer.number)?;
    Ok(Merged {
        book: Lengths { tape: answer.tape, bytes: answer.bytes },
        region: Span::new(answer.start, answer.end),
        reused: answer.reused,
        reread: answer.reread,
        stats: InternStats {
            calls: answer.calls,
            cache_hits: answer.cache_hits,
            table_hits: answer.table_hits,
            allocs: answer.allocs,
            long_bypass: answer.long_bypass,
            resizes: answer.resizes,
            probe_steps: answer.probe_steps,
        },
    })
}

/// Merges the reading of an edit's region into a book. The two result buffers are written whole:
/// the merged book and zeros behind it, or zeros after a refusal. `work` are
/// [`WORK_WORDS`](crate::WORK_WORDS) words or more, and come back as zeros.
///
/// # Errors
///
/// A number 1 to 18.
pub fn merge(
    book: Stored<'_>,
    edit: Edit<'_>,
    reading: Stored<'_>,
    room: Room<'_>,
    work: &mut [u32],
) -> Result<Merged<Lengths>, Refusal> {
    merged(&ffi::merge(book, edit, reading, room, work))
}

/// As [`merge`], for a desk: where it is accepted, the desk's total in the ledger has grown by
/// [`reread`](Merged::reread), and all others stay. After any refusal the ledger is as it was, and
/// the result buffers and the words are zeros, also after 20. A reading without nodes never meets
/// 20.
///
/// # Errors
///
/// 19 before all else, where the desk is above 63 or the ledger has not exactly
/// [`DESKS`](crate::DESKS) totals; then a number 1 to 18, as [`merge`]; then 20, where the total
/// would pass 4294967295.
pub fn merge_for_desk(
    desk: u32,
    ledger: &mut [u32],
    book: Stored<'_>,
    edit: Edit<'_>,
    reading: Stored<'_>,
    room: Room<'_>,
    work: &mut [u32],
) -> Result<Merged<Lengths>, Refusal> {
    merged(&ffi::merge_for_desk(desk, ledger, book, edit, reading, room, work))
}

/// Merges two corrections, of which the one called earlier lies before the other, in both orders:
/// four merges, all of which are made whatever they answer. After a refused first merge its book is
/// empty, and the second is refused with 1.
///
/// Where all four are accepted and the two regions are separate, the two final books are equal, the
/// sums of `reread` too, and each reference into the first book keeps its meaning.
pub fn merge_both_orders(
    book: Stored<'_>,
    earlier: Correction<'_>,
    later: Correction<'_>,
    rooms: Orders<Room<'_>>,
    work: &mut [u32],
) -> Orders<Result<Merged<Lengths>, Refusal>> {
    let answer = ffi::merge_both_orders(book, earlier, later, rooms, work);
    Orders {
        earlier_first: merged(&answer.earlier_first),
        later_second: merged(&answer.later_second),
        later_first: merged(&answer.later_first),
        earlier_second: merged(&answer.earlier_second),
    }
}
