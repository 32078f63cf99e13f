//! Document 02, wish 5: diagnostics of no width, marks between two characters or at an end of the
//! text.
#![allow(missing_docs, clippy::pedantic)]

mod common;

use aozora_incremental::*;
use common::{ABC, Lent, desk_agrees, plain, price_agrees};

/// It ends behind a newline, so text that is added to it has an empty region.
const ENDED: &str = "aa\n\nbb\n";

/// The mark at a place; `plain` tells it from others.
fn mark(at: u32, plain: u32) -> Diagnostic {
    wide(at, at, plain)
}

fn wide(start: u32, end: u32, plain: u32) -> Diagnostic {
    let (kind, span) = (DiagnosticKind::Other, Span::new(start, end));
    Diagnostic { kind, code_rank: 0, span, plain }
}

/// A text with these diagnostics.
fn builder(text: &str, diagnostics: &[Diagnostic]) -> BookBuilder {
    let mut b = BookBuilder::new();
    b.text(text);
    diagnostics.iter().for_each(|d| _ = b.diagnostic(*d));
    b
}

fn with(text: &str, diagnostics: &[Diagnostic]) -> StoredBook {
    builder(text, diagnostics).build().unwrap()
}

/// A mark at each place of a text, told by its place.
fn marks_everywhere(text: &str) -> StoredBook {
    let all: Vec<Diagnostic> = (0..=text.len() as u32).map(|at| mark(at, at)).collect();
    with(text, &all)
}

/// The merge, and beside it its price and the merge for a desk.
fn merged(old: &StoredBook, edit: Edit<'_>, reading: &StoredBook) -> Result<Merged, Refusal> {
    let (old, reading) = (old.as_stored(), reading.as_stored());
    let merged = price_agrees(old, edit, reading);
    desk_agrees(old, edit, reading, &merged);
    merged
}

/// The plain words and places of the merged diagnostics.
fn told(merged: &Merged) -> Vec<(u32, u32, u32)> {
    let book = Book::new(&merged.book).unwrap();
    book.diagnostics().map(|d| (d.plain, d.span.start, d.span.end)).collect()
}

#[test]
fn well_formed() {
    for text in ["", "a", ABC, ENDED, "人\n"] {
        let len = text.len() as u32;
        for kind in DiagnosticKind::ALL {
            for at in 0..=len {
                let d = Diagnostic { kind: *kind, ..mark(at, 7) };
                let stored = with(text, &[d]);
                assert_eq!((check_book(&stored), check_reading(&stored)), (Ok(()), Ok(())));
                let book = Book::new(&stored).unwrap();
                assert!(book.diagnostics().eq([d]));
                assert_eq!(book.source_bytes(d.span), Some(&b""[..]));
                let allowed = *kind < DiagnosticKind::UnclosedBracket;
                assert_eq!(diagnostics_allow_incremental(&stored), Ok(allowed));
                assert_eq!(BookBuilder::from_book(&book).build().unwrap(), stored);
                assert_eq!(copy_book(&stored).unwrap(), stored);
            }
        }
        let past = [(len, len + 1), (len + 1, len + 1), (u32::MAX, u32::MAX)];
        for (start, end) in [(1, 0), (len + 1, len), (u32::MAX, 0)].into_iter().chain(past) {
            let b = builder(text, &[wide(start, end, 0)]);
            assert_eq!((b.build(), b.build_reading()), (Err(Refusal::Place), Err(Refusal::Place)));
        }
    }
}

/// Nodes and both parts of a pair still have a width.
#[test]
fn only_diagnostics() {
    let accepted = |open: (u32, u32), close: (u32, u32)| {
        let mut b = builder("abc", &[mark(1, 0), mark(3, 0)]);
        b.pair(PairLink {
            kind: PairKind::Quote,
            open: Span::new(open.0, open.1),
            close: Span::new(close.0, close.1),
        });
        check_book(&b.stored().unwrap())
    };
    assert_eq!(accepted((0, 1), (2, 3)), Ok(()));
    assert_eq!(accepted((0, 0), (2, 3)), Err(Refusal::Place));
    assert_eq!(accepted((0, 1), (3, 3)), Err(Refusal::Place));
    let mut b = builder("abc", &[mark(1, 0)]);
    assert_eq!(b.node("", NodeRef::Inline(Node::Line)).build(), Err(Refusal::Place));
}

/// Up to the region's start they stay, from its end on they move, and in between they are dropped.
#[test]
fn carried() {
    let old = marks_everywhere(ABC);
    let cases = [
        (Edit::new(0, 1, "xyz"), "xyza\n\n", Span::new(0, 4)),
        (Edit::new(4, 5, "xyz"), "xyzb\n\n", Span::new(4, 8)),
        (Edit::new(9, 10, ""), "c", Span::new(8, 10)),
    ];
    for (edit, reading, region) in cases {
        let merged = merged(&old, edit, &plain(reading)).unwrap();
        assert_eq!(merged.region, region);
        let behind = |at| at + reading.len() as u32 - region.len();
        let before = (0..=region.start).map(|at| (at, at, at));
        let kept = before.chain((region.end..=10).map(|at| (at, behind(at), behind(at))));
        assert_eq!(told(&merged), kept.collect::<Vec<_>>());
    }
}

/// A reading has marks anywhere from 0 to its length. One at an end of the region stands beside
/// the old book's.
#[test]
fn of_the_reading() {
    let edit = Edit::new(4, 5, "x");
    let reading = with("xb\n\n", &[mark(0, 3), mark(1, 4), mark(4, 5)]);
    let alone = merged(&plain(ABC), edit, &reading).unwrap();
    assert_eq!(told(&alone), [(3, 4, 4), (4, 5, 5), (5, 8, 8)]);
    let old = with(ABC, &[mark(4, 1), mark(5, 9), mark(8, 2)]);
    let both = merged(&old, edit, &reading).unwrap();
    assert_eq!(told(&both), [(1, 4, 4), (3, 4, 4), (4, 5, 5), (5, 8, 8), (2, 8, 8)]);
}

/// Equal keys: old ones before the region, the reading's, old ones behind. They meet where a
/// passage is taken away.
#[test]
fn in_order() {
    let edit = Edit::new(4, 6, "");
    let old = with("aa\n\nbb", &[mark(4, 1), mark(5, 9), mark(6, 2), mark(4, 3), mark(6, 4)]);
    let reading = with("", &[mark(0, 5), mark(0, 6)]);
    let equal = merged(&old, edit, &reading).unwrap();
    assert_eq!(told(&equal), [1, 3, 5, 6, 2, 4].map(|plain| (plain, 4, 4)));

    // by code rank, and before what starts there and has a width
    let ranked = |at, rank| Diagnostic { code_rank: rank, ..mark(at, rank) };
    let old = with("aa\n\nbb", &[ranked(4, 9), ranked(6, 1)]);
    let sorted = merged(&old, edit, &with("", &[ranked(0, 5)])).unwrap();
    assert_eq!(told(&sorted), [1, 5, 9].map(|plain| (plain, 4, 4)));
    let edit = Edit::new(4, 5, "x");
    let sorted = merged(&old, edit, &with("xb", &[wide(0, 1, 7), ranked(0, 12)])).unwrap();
    assert_eq!(told(&sorted), [(9, 4, 4), (12, 4, 4), (7, 4, 5), (1, 6, 6)]);
}

/// Text at the end of one that ends in a newline: nothing tells on which side of it a mark there belongs.
#[test]
fn at_an_empty_region() {
    let edit = Edit::new(7, 7, "cc");
    let mut b = BookBuilder::new();
    let mark_of_c = b.string("m");
    b.node("c", NodeRef::Inline(Node::Kaeriten { mark: mark_of_c })).text("c");
    let readings = [plain("cc"), with("cc", &[mark(0, 1), mark(2, 2)]), b.build().unwrap()];
    for (kind, reading) in DiagnosticKind::ALL.iter().flat_map(|k| readings.iter().map(|r| (*k, r)))
    {
        let old = with(ENDED, &[mark(0, 0), Diagnostic { kind, ..mark(7, 0) }]);
        assert_eq!(choose_region(&old, edit), Ok(Span::new(7, 7)));
        assert_eq!(merged(&old, edit, reading), Err(Refusal::Unclosed));
        assert_eq!(estimate(&old, edit, reading), Err(Refusal::Unclosed));
        let mut ledger = Ledger::from([9; DESKS]);
        assert_eq!(
            merge_for_desk(&mut ledger, 3, &old, edit, reading),
            Err(Refusal::Unclosed),
            "{kind:?}"
        );
        assert_eq!(ledger, Ledger::from([9; DESKS]));
    }

    // anywhere else, or with a width, it lies on one side
    for d in [mark(0, 1), mark(4, 1), mark(6, 1), wide(6, 7, 1), wide(0, 7, 1)] {
        let merged = merged(&with(ENDED, &[d]), edit, &readings[0]).unwrap();
        assert_eq!(told(&merged), [(1, d.span.start, d.span.end)]);
    }
    let of_the_reading = merged(&plain(ENDED), edit, &readings[1]).unwrap();
    assert_eq!(told(&of_the_reading), [(1, 7, 7), (2, 9, 9)]);
}

/// 14 for a mark comes behind 12 and 13, and before 15, 17 and 18.
#[test]
fn the_order_of_the_numbers() {
    let inline = NodeRef::Inline;
    let old = |at: Option<u32>, layers: usize| {
        let mut b = BookBuilder::new();
        let ruby = Node::Ruby { base: b.plain("a"), reading: b.plain("r") };
        (1..layers).for_each(|_| _ = b.layer());
        b.node("a", inline(ruby)).text("a\n\nbb\n");
        at.into_iter().for_each(|at| _ = b.diagnostic(mark(at, 0)));
        b.build().unwrap()
    };
    let reading = |node: fn(&mut BookBuilder) -> NodeRef| {
        let mut b = BookBuilder::new();
        let node = node(&mut b);
        b.node("c", node).text("c").build().unwrap()
    };
    let format = |b: &mut BookBuilder| {
        let (origin, payload) = (ForwardOrigin::Referenced, ForwardPayload::None);
        NodeRef::Inline(Node::Format { target: b.plain("a"), origin, payload })
    };
    let (open, line) = (
        reading(|_| NodeRef::BlockOpen { inline: false }),
        reading(|_| NodeRef::Inline(Node::Line)),
    );
    let number = |at, layers, reading: &StoredBook| {
        let answer = merged(&old(at, layers), Edit::new(7, 7, "cc"), reading);
        answer.map_or_else(Refusal::number, |_| 0)
    };
    let bracket = Diagnostic { kind: DiagnosticKind::UnclosedBracket, ..mark(1, 0) };
    for (elsewhere, there, layers, reading) in [
        (12, 12, 1, plain("c")),
        (13, 13, 1, open),
        (14, 14, 1, with("cc", &[bracket])),
        (15, 14, 1, reading(format)),
        (17, 14, 32, line),
        (0, 14, 32, plain("cc")),
    ] {
        assert_eq!(number(None, layers, &reading), elsewhere);
        assert_eq!(number(Some(6), layers, &reading), elsewhere);
        assert_eq!(number(Some(7), layers, &reading), there);
    }
    let (old, reading) = (old(Some(7), 1), plain("cc"));
    let mut lent = Lent::new(Lengths::default(), 0);
    let answer = lent.merge(old.as_stored(), Edit::new(7, 7, "cc"), reading.as_stored());
    assert_eq!(answer, Err(Refusal::Unclosed));
}

/// What to do then: with the last newline in the edit, the mark stays at the text's end.
#[test]
fn with_the_last_newline() {
    let old = with(ENDED, &[mark(0, 1), mark(5, 2), mark(7, 3)]);
    assert_eq!(merged(&old, Edit::new(7, 7, "cc"), &plain("cc")), Err(Refusal::Unclosed));
    let reading = with("bb\ncc", &[mark(3, 4)]);
    let with_newline = merged(&old, Edit::new(6, 7, "\ncc"), &reading).unwrap();
    assert_eq!(with_newline.region, Span::new(4, 7));
    assert_eq!(Book::new(&with_newline.book).unwrap().text(), "aa\n\nbb\ncc");
    assert_eq!(told(&with_newline), [(1, 0, 0), (4, 7, 7), (3, 9, 9)]);

    // then the region may be the whole text
    let old = with("aa\n", &[mark(3, 1)]);
    assert_eq!(merged(&old, Edit::new(3, 3, "x"), &plain("x")), Err(Refusal::Unclosed));
    assert_eq!(merged(&old, Edit::new(2, 3, "\nx"), &plain("aa\nx")), Err(Refusal::WholeText));
    // without a newline at the end no region is empty
    let old = with("aa\n\nbb", &[mark(6, 1)]);
    let added = merged(&old, Edit::new(6, 6, "x"), &plain("bbx")).unwrap();
    assert_eq!(told(&added), [(1, 7, 7)]);
}

#[test]
fn both_orders() {
    let old = marks_everywhere(ABC);
    let first = with("xyza\n\n", &[mark(0, 20), mark(2, 21), mark(6, 22)]);
    let earlier = Correction::new(Edit::new(0, 1, "xyz"), &first);
    let middle = with("yb\n\n", &[mark(0, 23), mark(4, 24)]);
    let last = with("", &[mark(0, 25)]);
    for (later, place) in [
        (Correction::new(Edit::new(4, 5, "y"), &middle), Span::new(4, 8)),
        (Correction::new(Edit::new(8, 10, ""), &last), Span::new(8, 10)),
    ] {
        let orders = merge_both_orders(&old, earlier, later).all().unwrap();
        assert_eq!(
            (orders.earlier_second.region, orders.later_first.region),
            (Span::new(0, 4), place)
        );
        let (one, other) = (
            Book::new(&orders.later_second.book).unwrap(),
            Book::new(&orders.earlier_second.book).unwrap(),
        );
        assert_eq!(one.shows_the_same(&other, MAX_TREE_ITEMS), Ok(true));
        assert_eq!(told(&orders.later_second), told(&orders.earlier_second));
    }
}

/// docs/PROMISE.md: the earlier correction leaves a mark at its end, which refuses the later one
/// where it comes second.
#[test]
fn left_at_the_end() {
    let old = plain("aa\n\nbb\n\n");
    let (first, last) = (with("xb\n\n", &[mark(4, 1)]), plain("cc"));
    let orders = merge_both_orders(
        &old,
        Correction::new(Edit::new(4, 5, "x"), &first),
        Correction::new(Edit::new(8, 8, "cc"), &last),
    );
    assert_eq!(orders.later_second, Err(Refusal::Unclosed));
    let Orders { earlier_first, later_first, earlier_second, .. } = orders;
    assert_eq!(told(&earlier_first.unwrap()), [(1, 8, 8)]);
    assert_eq!(told(&later_first.unwrap()), []);
    assert_eq!(told(&earlier_second.unwrap()), [(1, 8, 8)]);
}
