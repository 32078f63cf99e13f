//! The limits of number 3 by size: what is as large as a book may be is accepted, one more is not;
//! and number 18 where a merged book would pass them.
#![allow(missing_docs, clippy::pedantic)]

mod common;

use aozora_incremental::*;
use common::{plain, ruby_reading};

/// Three passages, so that a correction of the second has a region. What fills the book comes behind.
const PASSAGES: &str = "aa\n\nbb\n\ncc";

fn correction() -> Edit<'static> {
    Edit::new(4, 5, "x")
}

fn page_break() -> NodeRef {
    NodeRef::Inline(Node::PageBreak)
}

fn diagnostic(start: u32) -> Diagnostic {
    let span = Span::new(start, start + 1);
    Diagnostic { kind: DiagnosticKind::Other, code_rank: 0, span, plain: 0 }
}

fn pair() -> PairLink {
    PairLink { kind: PairKind::Bracket, open: Span::new(0, 1), close: Span::new(1, 2) }
}

fn container() -> ContainerPair {
    ContainerPair { plain: 0, open: NormalizedOffset(0), close: NormalizedOffset(1) }
}

/// A book over the three passages with so many of each.
fn full(what: &str, n: usize) -> StoredBook {
    let mut b = BookBuilder::new();
    b.text(PASSAGES);
    match what {
        "strings" => (0..n).for_each(|_| _ = b.string("")),
        "contents" => {
            let s = b.string("");
            b.contents(&vec![Content::Plain(s); n]);
        }
        "segments" => {
            let s = b.string("");
            b.segments(&vec![Segment::text(s); n]);
        }
        "nodes" => (0..n).for_each(|_| _ = b.node("a", page_break())),
        "pairs" => (0..n).for_each(|_| _ = b.pair(pair())),
        "containers" => (0..n).for_each(|_| _ = b.container(container())),
        "diagnostics" => (0..n).for_each(|_| _ = b.diagnostic(diagnostic(0))),
        "layers" => (1..n).for_each(|_| _ = b.layer()),
        _ => _ = b.text(&"a".repeat(n - PASSAGES.len())),
    }
    b.stored().unwrap()
}

/// The length of a list, or of the text.
const LIMITS: [(&str, usize); 9] = [
    ("strings", MAX_POOL),
    ("contents", MAX_POOL),
    ("segments", MAX_POOL),
    ("nodes", MAX_LIST),
    ("pairs", MAX_LIST),
    ("containers", MAX_LIST),
    ("diagnostics", MAX_LIST),
    ("layers", MAX_LAYERS),
    ("text", MAX_TEXT),
];

#[test]
fn as_large_as_a_book_may_be() {
    for (what, most) in LIMITS {
        let book = full(what, most);
        assert_eq!(check_book(&book), Ok(()), "{what}");
        let rebuilt = BookBuilder::from_book(&Book::new(&book).unwrap()).stored().unwrap();
        assert!(rebuilt == book && copy_book(&book).unwrap() == book, "{what}");
        // flat, what no node names is gone, and all else is there
        let named_by_none = ["strings", "contents", "segments", "layers"].contains(&what);
        let flat = if named_by_none { plain(PASSAGES) } else { book };
        assert!(flatten_book(&full(what, most)).unwrap() == flat, "{what}");
        assert_eq!(check_book(&full(what, most + 1)), Err(Refusal::OverLimit), "{what}");
    }
}

/// A normalized text as long as it may be, of a shorter text: nodes whose images are longer.
fn long_normalized(more: usize) -> StoredBook {
    let mut b = BookBuilder::new();
    b.text(PASSAGES);
    for _ in 0..1000 {
        b.node("a", NodeRef::BlockLeaf(Node::PageBreak));
    }
    b.text(&"a".repeat(MAX_TEXT - b.normalized_len() + more));
    b.stored().unwrap()
}

#[test]
fn normalized_texts() {
    assert_eq!(check_book(&long_normalized(0)), Ok(()));
    assert_eq!(check_book(&long_normalized(1)), Err(Refusal::OverLimit));
    // the corrected passage is as long as before, and its image one byte longer
    let old = long_normalized(0);
    assert_eq!(merge(&old, correction(), &ruby_reading()), Err(Refusal::NoRoom));
    assert_eq!(merge(&old, correction(), &plain("xb\n\n")).unwrap().region, Span::new(4, 8));
}

#[test]
fn new_texts() {
    let old = full("text", MAX_TEXT);
    assert_eq!(choose_region(&old, correction()), Ok(Span::new(4, 8)));
    assert_eq!(choose_region(&old, Edit::new(4, 5, "xx")), Err(Refusal::OverLimit));
    let merged = merge(&old, correction(), &plain("xb\n\n")).unwrap();
    assert_eq!(Book::new(&merged.book).unwrap().text().len(), MAX_TEXT);
}

/// One more of what the old book has as many as it may, from the reading.
#[test]
fn merged_books() {
    let mut reading = BookBuilder::new();
    let s = reading.string("s");
    let run = reading.segments(&[Segment::text(s)]);
    let content = reading.contents(&[Content::Segments(run)]);
    reading.node("x", NodeRef::Inline(Node::AngleQuote { content })).text("b\n\n");
    reading.pair(pair()).container(container()).diagnostic(diagnostic(0));
    let reading = reading.build_reading().unwrap();
    for (what, most) in LIMITS.into_iter().filter(|l| !["layers", "text"].contains(&l.0)) {
        let answer = merge(&full(what, most), correction(), &reading);
        assert_eq!(answer.map(|_| ()), Err(Refusal::NoRoom), "{what}");
        let merged = merge(&full(what, most - 1), correction(), &reading).unwrap();
        assert_eq!(check_book(&merged.book), Ok(()), "{what}");
    }
    let answer = merge(&full("layers", MAX_LAYERS), correction(), &reading);
    assert_eq!(answer.map(|_| ()), Err(Refusal::LayersFull));
    assert!(merge(&full("layers", MAX_LAYERS - 1), correction(), &reading).is_ok());
}
