//! The entries with memory of their own.

use crate::ledger::Ledger;
use crate::lent::{Correction, Edit, Orders, Room, Stored};
use crate::raw;
use crate::record::Record;
use crate::records::Records;
use crate::refusal::Refusal;
use crate::room;
use crate::stored::{Estimate, Lengths, Merged, StoredBook};
use crate::syntax::{Content, ContentRange, SegRange, Segment, Span, StrId, WORK_WORDS};

/// Is it a book? Numbers 1 to 7 of document 01; 0 of the archive is `Ok`.
///
/// # Errors
///
/// The first of the numbers 1 to 7 whose condition holds.
pub fn check_book<'a>(book: impl Into<Stored<'a>>) -> Result<(), Refusal> {
    raw::check_book(book.into())
}

/// Is it a reading? As [`check_book`], and it has exactly one layer.
///
/// # Errors
///
/// The first of the numbers 1 to 7 whose condition holds.
pub fn check_reading<'a>(reading: impl Into<Stored<'a>>) -> Result<(), Refusal> {
    raw::check_reading(reading.into())
}

/// `diagnostics_allow_incremental`: has the book no diagnostic of kind `UnclosedBracket`,
/// `UnmatchedClose` or `Other`?
///
/// [`merge`] does not ask this; a caller that wants to parse the whole text in that case asks it
/// first.
///
/// # Errors
///
/// 1 to 7 where it is not a book.
pub fn diagnostics_allow_incremental<'a>(book: impl Into<Stored<'a>>) -> Result<bool, Refusal> {
    raw::diagnostics_allow_incremental(book.into())
}

/// The place in [`Book::nodes`](crate::Book::nodes) of the node whose span has this offset of the
/// text in it, if there is one.
///
/// # Errors
///
/// 1 to 7 where it is not a book.
pub fn node_at_source<'a>(
    book: impl Into<Stored<'a>>,
    offset: u32,
) -> Result<Option<usize>, Refusal> {
    raw::node_at_source(book.into(), offset)
}

/// The string of this number, if there is one. A [`Book`](crate::Book) gives many strings after one
/// check.
///
/// # Errors
///
/// 1 to 7 where it is not a book.
pub fn lookup_str<'a>(book: impl Into<Stored<'a>>, id: StrId) -> Result<Option<&'a str>, Refusal> {
    let book = book.into();
    let place = raw::lookup_str(book, id)?;
    // The contract of `lookup_str` gives the bytes of a string of the book, and number 2 that they
    // are UTF-8.
    Ok(place.and_then(|place| str::from_utf8(book.bytes.get(place)?).ok()))
}

/// Records of the tape, from the place that the archive says.
fn records<R: Record>(book: Stored<'_>, run: raw::Run) -> Records<'_, R> {
    // The contracts of `lookup_contents` and `lookup_segments` give that so many records stand
    // there; of an empty run the place says nothing.
    let len = (run.count as usize).saturating_mul(R::SIZE);
    let end = run.place.saturating_add(len);
    Records::new(book.tape.get(run.place..end).unwrap_or_default())
}

/// The contents of a range, if there is such a range.
///
/// # Errors
///
/// 1 to 7 where it is not a book.
pub fn lookup_contents<'a>(
    book: impl Into<Stored<'a>>,
    range: ContentRange,
) -> Result<Option<Records<'a, Content>>, Refusal> {
    let book = book.into();
    Ok(raw::lookup_contents(book, range)?.map(|run| records(book, run)))
}

/// The segments of a range, if there is such a range.
///
/// # Errors
///
/// 1 to 7 where it is not a book.
pub fn lookup_segments<'a>(
    book: impl Into<Stored<'a>>,
    range: SegRange,
) -> Result<Option<Records<'a, Segment>>, Refusal> {
    let book = book.into();
    Ok(raw::lookup_segments(book, range)?.map(|run| records(book, run)))
}

/// A buffer of zeros, or number 18 where there is no memory for it.
fn zeros<T: Copy + Default>(len: usize) -> Result<Vec<T>, Refusal> {
    let mut buffer = Vec::new();
    buffer.try_reserve_exact(len).map_err(|_| Refusal::NoRoom)?;
    buffer.resize(len, T::default());
    Ok(buffer)
}

fn buffers(room: Lengths) -> Result<StoredBook, Refusal> {
    Ok(StoredBook { tape: zeros(room.tape)?, bytes: zeros(room.bytes)? })
}

fn lent(buffers: &mut StoredBook) -> Room<'_> {
    Room::new(&mut buffers.tape, &mut buffers.bytes)
}

fn lengths(book: Stored<'_>) -> Lengths {
    Lengths { tape: book.tape.len(), bytes: book.bytes.len() }
}

/// What the answer says of the buffers.
fn cut(buffers: StoredBook, answer: Merged<Lengths>) -> Merged {
    answer.with(cut_to(buffers, answer.book))
}

fn cut_to(mut buffers: StoredBook, taken: Lengths) -> StoredBook {
    buffers.tape.truncate(taken.tape);
    buffers.bytes.truncate(taken.bytes);
    buffers
}

/// A copy of a book: the same bytes, once they are checked.
///
/// # Errors
///
/// 1 to 7 where it is not a book, 18 where there is no memory for the copy.
pub fn copy_book<'a>(book: impl Into<Stored<'a>>) -> Result<StoredBook, Refusal> {
    let book = book.into();
    let mut copy = buffers(lengths(book))?;
    raw::copy_book(book, lent(&mut copy))?;
    Ok(copy)
}

/// The book with one layer, in memory of its own (wish 6 of document 02).
///
/// Each merge of a reading with nodes adds a layer, and a book of 32 layers refuses the next with
/// 17. So a long day goes: merge until 17, flatten, go on. The trees of the nodes are grafted in
/// order into one fresh layer, and what no node names is gone; a book without nodes keeps one empty
/// layer.
///
/// - Texts, spans, lists in their order and trees are equal before and after
///   ([`Book::shows_the_same`](crate::Book::shows_the_same)). Ids are not: each [`StrId`],
///   [`ContentRange`] and [`SegRange`] given out before ends here (an old id may show another string
///   in the flat book), and those of the flat book hold until it is flattened in turn.
/// - Two books that show the same are the same bytes once they are flat: so are those that the
///   same two corrections made in either order. A flat book flattened again is itself.
/// - Nothing is reread, and no desk is charged.
///
/// ```
/// use aozora_incremental::{
///     Book, BookBuilder, Edit, Node, NodeRef, Refusal, flatten_book, merge,
/// };
///
/// let mut book = BookBuilder::new().text("aa\n\nbb\n\ncc").build()?;
/// for letter in ["x", "y"].into_iter().cycle().take(40) {
///     let mut reading = BookBuilder::new(); // a parser writes this
///     let mark = reading.string(letter);
///     reading.node(letter, NodeRef::Inline(Node::Kaeriten { mark })).text("b\n\n");
///     let (edit, reading) = (Edit::new(4, 5, letter), reading.build_reading()?);
///     let merged = match merge(&book, edit, &reading) {
///         Err(Refusal::LayersFull) => {
///             book = flatten_book(&book)?; // references end
///             merge(&book, edit, &reading)?
///         }
///         answer => answer?,
///     };
///     book = merged.book;
/// }
/// assert_eq!(Book::new(&book)?.layers().len(), 10);
/// # assert_eq!(Book::new(&book)?.text(), "aa\n\nyb\n\ncc");
/// # Ok::<(), Refusal>(())
/// ```
///
/// The result buffers grow to what is certainly enough. A book can name a run many times, and the
/// flat book has it once for each time; where it comes from a stranger, [`raw::flatten_book`] takes
/// your buffers, which bounds the memory.
///
/// # Errors
///
/// 1 to 7 where it is not a book. 18 where the flat layer would have more than 3583 strings or more
/// contents or segments than [`MAX_POOL`](crate::MAX_POOL): then parse the whole text. Corrections
/// whose readings have no nodes are still merged, and may take enough away. Equal strings of up to
/// 64 bytes are one; a longer one is stored again each time that it is named, unless directly
/// behind itself. 18 also where there is no memory.
pub fn flatten_book<'a>(book: impl Into<Stored<'a>>) -> Result<StoredBook, Refusal> {
    let book = book.into();
    let mut work = zeros(flat_work_words(book)).or_else(|_| zeros(WORK_WORDS))?;
    let mut into = |room| {
        let mut flat = buffers(room)?;
        let taken = raw::flatten_book(book, lent(&mut flat), &mut work)?;
        Ok(cut_to(flat, taken))
    };
    let first = lengths(book);
    match into(first) {
        // 18 comes behind 1 to 7, so the book is accepted.
        Err(Refusal::NoRoom) => {
            let enough = room::flat(book).ok_or(Refusal::NoRoom)?;
            // The first buffers were long enough, so 18 is of a limit.
            if smaller(first, enough) == enough {
                return Err(Refusal::NoRoom);
            }
            into(enough)
        }
        answer => answer,
    }
}

/// One more word for each string makes a flattening faster: a string's record has 5 bytes.
fn flat_work_words(book: Stored<'_>) -> usize {
    WORK_WORDS.saturating_add(book.tape.len() / 5)
}

/// The region of an edit, in offsets of the old text: the passage that has to be read again with
/// the edit in it. [`Book::source`](crate::Book::source) or the text's bytes between its ends, with
/// the edit applied, is what the reading has to be of. It ends behind a blank line that is still
/// there in the new text, or at the text's end.
///
/// # Errors
///
/// A number 1 to 11; from 9 on the whole text has to be parsed, or nothing is to do.
pub fn choose_region<'a>(book: impl Into<Stored<'a>>, edit: Edit<'_>) -> Result<Span, Refusal> {
    let book = book.into();
    raw::choose_region(book, edit, &mut zeros(work_words(book))?)
}

/// What [`merge`] would cost, without merging: the price that is quoted for a large reading first
/// (wish 2 of document 02).
///
/// It is refused with n exactly where the merge is refused with n of 1 to 17, whatever room the
/// merge has. Where it is given, the merge is refused with 18 or these are its numbers; every count
/// that is not given as [over](Estimate::OVER) is what grafting would make, also where 18 would
/// refuse the merge. It takes the time of the merge up to number 17 and one walk over what would be
/// grafted, which ends where contents or segments are over: a small reading can stand for 2^33
/// items, and no more than some two million are walked.
///
/// ```
/// use aozora_incremental::{BookBuilder, Edit, Refusal, estimate, merge_within};
///
/// let old = BookBuilder::new().text("aa\n\nbb\n\ncc").build()?;
/// let reading = BookBuilder::new().text("xb\n\n").build_reading()?;
/// let edit = Edit::new(4, 5, "x");
///
/// let price = estimate(&old, edit, &reading)?;
/// assert_eq!((price.reread, price.byte_length), (0, 20));
/// let merged = merge_within(&old, edit, &reading, price.room(&old, &reading))?;
/// assert_eq!(merged.reread, price.reread);
/// # Ok::<(), Refusal>(())
/// ```
///
/// # Errors
///
/// A number 1 to 17.
pub fn estimate<'a, 'b>(
    book: impl Into<Stored<'a>>,
    edit: Edit<'_>,
    reading: impl Into<Stored<'b>>,
) -> Result<Estimate, Refusal> {
    let book = book.into();
    // Without words it answers the same, only slower.
    let mut work = zeros(work_words(book)).unwrap_or_default();
    raw::estimate(book, edit, reading.into(), &mut work)
}

/// Result buffers of any length.
const NO_LIMIT: Lengths = Lengths { tape: usize::MAX, bytes: usize::MAX };

/// Merges the reading of an edit's region into a book: the corrected book, in memory of its own.
///
/// The result buffers grow to what the result needs: number 18 is left for a book that passes a
/// limit, for a new layer of more than 3583 strings, and for a machine without memory. A small
/// reading can stand for a large result; where it comes from a stranger, [`merge_within`] bounds
/// the memory.
///
/// [`Diagnostic`](crate::Diagnostic) says how those of no width are carried, and what to do where
/// one of them refuses the merge.
///
/// # Errors
///
/// A number 1 to 18: [`Refusal`] says what each means.
pub fn merge<'a, 'b>(
    book: impl Into<Stored<'a>>,
    edit: Edit<'_>,
    reading: impl Into<Stored<'b>>,
) -> Result<Merged, Refusal> {
    merge_within(book, edit, reading, NO_LIMIT)
}

/// As [`merge`], with result buffers of at most so many bytes: a longer result is refused with 18.
///
/// # Errors
///
/// A number 1 to 18: [`Refusal`] says what each means.
pub fn merge_within<'a, 'b>(
    book: impl Into<Stored<'a>>,
    edit: Edit<'_>,
    reading: impl Into<Stored<'b>>,
    limit: Lengths,
) -> Result<Merged, Refusal> {
    let (book, reading) = (book.into(), reading.into());
    with_room(book, edit, reading, limit, |room, work| raw::merge(book, edit, reading, room, work))
}

/// As [`merge`], for a desk, 0 to 63: where it is accepted, the desk's total in the ledger has
/// grown by [`reread`](Merged::reread), and all others stay; a refused merge adds to none (wish 4
/// of document 02).
///
/// For every list of such merges from a [new](Ledger::new) ledger, each total is the sum of its own
/// accepted rereads, and all together are the sum of all: `ran_totals` in
/// crates/desk/proofs/Ran.antt.
///
/// [`raw::merge_for_desk`] takes your buffers, which bounds the memory as [`merge_within`] does.
///
/// ```
/// use aozora_incremental::{BookBuilder, Edit, Ledger, Node, NodeRef, Refusal, merge_for_desk};
///
/// let old = BookBuilder::new().text("aa\n\nbb\n\ncc").build()?;
/// let mut reading = BookBuilder::new();
/// let (base, read) = (reading.plain("x"), reading.plain("b"));
/// reading.node("xb", NodeRef::Inline(Node::Ruby { base, reading: read })).text("\n\n");
/// let reading = reading.build_reading()?;
/// let edit = Edit::new(4, 5, "x");
///
/// let mut ledger = Ledger::new();
/// let merged = merge_for_desk(&mut ledger, 7, &old, edit, &reading)?;
/// assert_eq!(ledger.total(7), Some(merged.reread));
/// let refused = merge_for_desk(&mut ledger, 64, &old, edit, &reading);
/// assert_eq!(refused, Err(Refusal::DeskOrLedger));
/// assert_eq!(ledger.to_string(), "desk  7 reread 1\nsum     reread 1");
/// # Ok::<(), Refusal>(())
/// ```
///
/// # Errors
///
/// 19 where the desk is above 63, before all else; a number 1 to 18, as [`merge`]; then 20, where
/// the desk's total would pass 4294967295: the correction is not made, so print the ledger, begin a
/// new one, and call again. A reading without nodes never meets 20.
pub fn merge_for_desk<'a, 'b>(
    ledger: &mut Ledger,
    desk: u32,
    book: impl Into<Stored<'a>>,
    edit: Edit<'_>,
    reading: impl Into<Stored<'b>>,
) -> Result<Merged, Refusal> {
    let (book, reading) = (book.into(), reading.into());
    with_room(book, edit, reading, NO_LIMIT, |room, work| {
        raw::merge_for_desk(desk, &mut ledger.totals, book, edit, reading, room, work)
    })
}

/// Calls a merge with the room that most need, and after an 18, which charges no desk, with what is
/// certainly enough.
fn with_room(
    book: Stored<'_>,
    edit: Edit<'_>,
    reading: Stored<'_>,
    limit: Lengths,
    mut call: impl FnMut(Room<'_>, &mut [u32]) -> Result<Merged<Lengths>, Refusal>,
) -> Result<Merged, Refusal> {
    let mut work = zeros(work_words(book))?;
    let mut into = |room| {
        let mut out = buffers(smaller(limit, room))?;
        let answer = call(lent(&mut out), &mut work)?;
        Ok(cut(out, answer))
    };
    match into(room::first(lengths(book), edit, reading)) {
        // 18 comes behind 1 to 17, so both tapes are accepted. A reading may name an item many
        // times, and each time is stored.
        Err(Refusal::NoRoom) => into(room::enough(book, edit, reading).ok_or(Refusal::NoRoom)?),
        answer => answer,
    }
}

/// More words than a merge has to be lent make numbers 10 and 15 faster for a book of many nodes: two
/// for each, whose record has 49 bytes.
fn work_words(book: Stored<'_>) -> usize {
    WORK_WORDS.max(book.tape.len() / 24)
}

/// Merges two corrections in both orders: four books. The one called earlier lies before the other.
///
/// All four merges are made, whatever they answer; after a refused first merge the second is
/// refused with 1. Where all four are accepted and the two regions are separate, it is proved that
/// the final books are equal with strings in place of ids
/// ([`Book::shows_the_same`](crate::Book::shows_the_same)), that the sums of `reread` are equal,
/// and that each reference into the first book keeps its meaning. The buffers grow as those of
/// [`merge`]; [`raw::merge_both_orders`] takes yours.
pub fn merge_both_orders<'a>(
    book: impl Into<Stored<'a>>,
    earlier: Correction<'_>,
    later: Correction<'_>,
) -> Orders<Result<Merged, Refusal>> {
    let book = book.into();
    let first = |book, c: Correction<'_>| room::first(book, c.edit, c.reading);
    let mut rooms = Orders {
        earlier_first: first(lengths(book), earlier),
        later_second: first(first(lengths(book), earlier), later),
        later_first: first(lengths(book), later),
        earlier_second: first(first(lengths(book), later), earlier),
    };
    loop {
        let answers = both_orders_into(book, earlier, later, rooms);
        let wanted = wanted_rooms(book, earlier, later, &answers, rooms);
        if wanted == rooms {
            return answers;
        }
        rooms = wanted;
    }
}

fn both_orders_into(
    book: Stored<'_>,
    earlier: Correction<'_>,
    later: Correction<'_>,
    rooms: Orders<Lengths>,
) -> Orders<Result<Merged, Refusal>> {
    let (Ok(mut out), Ok(mut work)) = (rooms.map(buffers).all(), zeros(work_words(book))) else {
        return rooms.map(|_| Err(Refusal::NoRoom));
    };
    let answers = raw::merge_both_orders(book, earlier, later, out.as_mut().map(lent), &mut work);
    answers.zip(out).map(|(answer, out)| Ok(cut(out, answer?)))
}

fn accepted(answer: &Result<Merged, Refusal>) -> Option<Stored<'_>> {
    answer.as_ref().ok().map(|merged| merged.book.as_stored())
}

/// The rooms of the merges that were refused with 18, as large as they have to be; the others as
/// they are. Each grows at most once.
fn wanted_rooms(
    book: Stored<'_>,
    earlier: Correction<'_>,
    later: Correction<'_>,
    answers: &Orders<Result<Merged, Refusal>>,
    rooms: Orders<Lengths>,
) -> Orders<Lengths> {
    let wanted = |old: Option<Stored<'_>>,
                  c: Correction<'_>,
                  answer: &Result<Merged, Refusal>,
                  room: Lengths| match (old, answer) {
        (Some(old), Err(Refusal::NoRoom)) => {
            room::enough(old, c.edit, c.reading).map_or(room, |enough| larger(room, enough))
        }
        _ => room,
    };
    Orders {
        earlier_first: wanted(Some(book), earlier, &answers.earlier_first, rooms.earlier_first),
        later_second: wanted(
            accepted(&answers.earlier_first),
            later,
            &answers.later_second,
            rooms.later_second,
        ),
        later_first: wanted(Some(book), later, &answers.later_first, rooms.later_first),
        earlier_second: wanted(
            accepted(&answers.later_first),
            earlier,
            &answers.earlier_second,
            rooms.earlier_second,
        ),
    }
}

fn smaller(a: Lengths, b: Lengths) -> Lengths {
    Lengths { tape: a.tape.min(b.tape), bytes: a.bytes.min(b.bytes) }
}

fn larger(a: Lengths, b: Lengths) -> Lengths {
    Lengths { tape: a.tape.max(b.tape), bytes: a.bytes.max(b.bytes) }
}
