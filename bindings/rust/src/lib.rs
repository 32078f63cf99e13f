//! Merges a corrected passage into the cached parse of a book in Aozora notation.
//!
//! A *book* is a cached parse, a *reading* is a parser's output for one passage. Whoever corrects a
//! book asks [`choose_region`] which passage has to be read again, parses that passage, and gives
//! the reading to [`merge`]. The corrected book is what comes out; how many nodes were reread is on
//! the answer. [`estimate`] tells the price of a merge before it is made. A house with many desks
//! has its invoice split: [`merge_for_desk`] charges the desk in a [`Ledger`]. A book of 32 layers
//! takes no more readings with nodes, so a long day goes: merge until 17, [`flatten_book`], go on.
//!
//! This is P5 of document 01, "aa⏎⏎bb⏎⏎cc" with one letter of the middle passage corrected:
//!
//! ```
//! use aozora_incremental::{Book, BookBuilder, Edit, Node, NodeRef, Refusal, choose_region, merge};
//!
//! let old = BookBuilder::new().text("aa\n\nbb\n\ncc").build()?;
//! let edit = Edit::new(4, 5, "x");
//! let region = choose_region(&old, edit)?; // 4..8, "bb\n\n", which becomes "xb\n\n"
//!
//! let mut reading = BookBuilder::new(); // a parser writes this
//! let (base, read) = (reading.plain("x"), reading.plain("b"));
//! reading.node("xb", NodeRef::Inline(Node::Ruby { base, reading: read })).text("\n\n");
//!
//! let merged = merge(&old, edit, &reading.build_reading()?)?;
//! assert_eq!(merged.to_string(), "region 4 8 reused 0 reread 1 calls 2 probes 2");
//! assert_eq!(Book::new(&merged.book)?.text(), "aa\n\nxb\n\ncc");
//! # assert_eq!((region.start, region.end), (4, 8));
//! # Ok::<(), Refusal>(())
//! ```
//!
//! # What is promised
//!
//! The fourteen entries of [`raw`] are those of a static library that was proved, for every input,
//! to do what documents 01 and 02 say:
//!
//! 1. **An answer, always.** Any bytes and numbers give a result or one [`Refusal`], under its
//!    stated condition. After a refusal every lent buffer is zeros, and a ledger is as it was.
//! 2. **The right answer.** Results equal the definitions of both documents: region, nodes kept and
//!    reread, counts, every byte of the merged book, and every total of a ledger.
//! 3. **Either way round.** Two corrections of separate passages may come in either order: the same
//!    passages are reread, the final books are equal with strings in place of ids, the sums of
//!    reread nodes are equal, and every reference given out for the first book still shows what it
//!    showed, until the book is flattened. [`merge_both_orders`] makes the four merges;
//!    [docs/PROMISE.md](../../../../docs/PROMISE.md) says on one page what is claimed and what not.
//! 4. **A ceiling on probing.** The probes that a merge returns are at most its calls of the
//!    interner × the number of distinct strings of at most 64 bytes among them: [`InternStats`].
//! 5. **An invoice by desk.** For every list of merges for desks from a new [`Ledger`], each total is
//!    the sum of the rereads of its own accepted merges, and all totals together are the rereads of
//!    the list: [`merge_for_desk`].
//! 6. **A flat book.** [`flatten_book`] gives a book of one layer that shows what the book showed and
//!    keeps nothing else. Two books that show the same are the same bytes once they are flat. Where
//!    the nodes name more than 3583 different strings it is refused, with 18.
//!
//! Not promised: that the reading is what a parser of the whole text would give (the parser is not
//! here); anything of time; the compiler's back end, the machine and the C library.
//!
//! # What this crate adds, and that is not proved
//!
//! - the declarations of the entries, one private module with the crate's only `unsafe` code; its
//!   tests compare them with bindings/c/aozora.h and with crates/exports and crates/answers;
//! - memory: how large the result buffers of [`merge`], [`merge_for_desk`], [`merge_both_orders`]
//!   and [`flatten_book`] have to be, and [`Estimate::room`]. Too small a guess would give number
//!   18, never a wrong book or a charge;
//! - [`Ledger`], which adds up the totals and prints them as an invoice;
//! - [`BookBuilder`] and [`Book`], which write and read tapes. What [`BookBuilder::build`] gives
//!   was accepted by the proved check, and a [`Book`] is made only of what was accepted; that the
//!   fields of a record are the right ones rests on tests: every kind is written, read and written
//!   again, and the stored cases of the repository are replayed;
//! - [`Tree`] and [`Book::shows_the_same`], which show ids as strings and ranges as lists.
//!
//! No function panics, on any input; where there is no memory for a result, the answer is number
//! 18.
//!
//! # Memory
//!
//! The functions here allocate what they need; [`merge_within`] takes a limit. Those of [`raw`] do
//! the same on buffers that the caller lends, and allocate nothing.
//!
//! # Building
//!
//! The archive is `libexports.a`: `rt lib` in the repository's folder crates/exports writes it to
//! crates/exports/out. `AOZORA_ARCHIVE_DIR` names another folder. It is for x86-64 Linux,
//! on processors from x86-64-v2 on.

#![deny(missing_docs)]
#![deny(unsafe_code)]
#![deny(
    clippy::unwrap_used,
    clippy::expect_used,
    clippy::panic,
    clippy::unreachable,
    clippy::todo,
    clippy::indexing_slicing
)]

mod book;
mod builder;
mod calls;
#[allow(unsafe_code, clippy::needless_pass_by_value)]
mod ffi;
mod ledger;
mod lent;
pub mod raw;
mod record;
mod records;
mod refusal;
mod room;
mod stored;
mod syntax;
mod tree;

pub use book::{Book, Layer};
pub use builder::BookBuilder;
pub use calls::{
    check_book, check_reading, choose_region, copy_book, diagnostics_allow_incremental, estimate,
    flatten_book, lookup_contents, lookup_segments, lookup_str, merge, merge_both_orders,
    merge_for_desk, merge_within, node_at_source,
};
pub use ledger::{DESKS, Ledger};
pub use lent::{Correction, Edit, Orders, Room, Stored};
pub use records::Records;
pub use refusal::{NotARefusal, Refusal};
pub use stored::{Estimate, InternStats, Lengths, Merged, StoredBook};
pub use syntax::{
    ContainerPair, Content, ContentRange, Diagnostic, DiagnosticKind, Directive, DirectiveKind,
    ForwardOrigin, ForwardPayload, Gaiji, GaijiCanonical, Illustration, MAX_LAYERS, MAX_LEVEL,
    MAX_LIST, MAX_NEW_STRINGS, MAX_POOL, MAX_TEXT, NO_STRING, NORMALIZED_SENTINEL_BYTE_LEN, Node,
    NodeKind, NodeRef, NormalizedOffset, PairKind, PairLink, Plain, SegRange, Segment, SegmentItem,
    SourceNode, Span, StrId, WORK_WORDS,
};
pub use tree::{MAX_TREE_ITEMS, TooLarge, Tree, TreeContent, TreeItem, TreeNode, TreeSegment};
