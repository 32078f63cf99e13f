//! The worked examples of document 01, and demand 3 on a pair.
#![allow(missing_docs, clippy::pedantic)]

mod common;

use aozora_incremental::*;
use common::{ABC, Parts, file, plain, price_agrees, ruby_reading};

fn region(text: &str, start: u32, end: u32, replacement: &str) -> Result<Span, Refusal> {
    choose_region(&plain(text), Edit::new(start, end, replacement))
}

#[test]
fn p4() {
    assert_eq!(region(ABC, 4, 5, "x"), Ok(Span::new(4, 8)));
}

#[test]
fn p5() {
    let (old, reading) = (plain(ABC), ruby_reading());
    let price = estimate(&old, Edit::new(4, 5, "x"), &reading).unwrap();
    assert_eq!(price.to_string(), "reread 1 calls 2 contents 2 segments 0 bytes 21");
    let merged = merge(&old, Edit::new(4, 5, "x"), &reading).unwrap();
    assert_eq!(merged.to_string(), "region 4 8 reused 0 reread 1 calls 2 probes 2");
    let stats = InternStats { calls: 2, allocs: 2, probe_steps: 2, ..InternStats::default() };
    assert_eq!(
        (merged.region, merged.reused, merged.reread, merged.stats),
        (Span::new(4, 8), 0, 1, stats)
    );
    assert_eq!((merged.book.tape.len(), merged.book.bytes.len()), (91, 23));

    let book = Book::new(&merged.book).unwrap();
    assert_eq!((book.text(), book.normalized()), ("aa\n\nxb\n\ncc", "aa\n\n\u{E001}\n\ncc"));
    assert_eq!(book.layers().len(), 2);
    let node = book.nodes().next().unwrap();
    assert_eq!(
        (book.source(node.source_span), node.normalized_offset),
        (Some("xb"), NormalizedOffset(4))
    );
    let tree = book.tree(&node).unwrap().unwrap();
    assert_eq!(
        tree.node,
        Node::Ruby { base: vec![Content::Plain("x")], reading: vec![Content::Plain("b")] }
    );
    assert_eq!(tree.to_string(), "Ruby\n  base:\n    \"x\"\n  reading:\n    \"b\"");
}

/// Document 02, wish 7: probes are at most calls × m. Of nine strings that begin at one slot of the
/// 256 the k-th costs k probes, when it is new and when it is found again: the ninth costs m. One
/// string costs as many probes as calls; strings of more than 64 bytes cost none.
#[test]
fn probes_at_the_ceiling() {
    // slot 100; slot 250, from which the last three lie round the table's end
    let inside = ["kiga", "koru", "hutu", "mini", "muku", "yawo", "yume", "gota", "papa"];
    let round = ["kohu", "sayo", "suki", "soke", "nita", "habi", "hunu", "yuge", "dasi"];
    let [short, long, other] = [("a", 64), ("a", 65), ("b", 65)].map(|(s, n)| s.repeat(n));
    let table: [(Vec<&str>, u64); 6] = [
        ([inside, inside].concat(), 90),
        ([round, round].concat(), 90),
        (vec!["x"], 1),
        (vec![&short], 1),
        (vec![&long], 0),
        (vec![&long, &other, &long, &other], 0),
    ];
    for (calls, probes) in table {
        let (old, mut b) = (plain("aa\n\nb"), BookBuilder::new());
        for string in &calls {
            let mark = b.string(string);
            b.node("x", NodeRef::Inline(Node::Kaeriten { mark }));
        }
        let (reading, text) = (b.build_reading().unwrap(), "x".repeat(calls.len()));
        let edit = Edit::new(4, 5, &text);
        let merged = price_agrees(old.as_stored(), edit, reading.as_stored()).unwrap();
        let counts = (merged.stats.calls, merged.stats.probe_steps);
        assert_eq!(counts, (calls.len() as u64, probes), "{calls:?}");
    }
}

/// crates/merge/stdin is P5 as the program takes it: the builder writes the same bytes.
#[test]
fn p5_is_written_as_it_is_stored() {
    let input = file("crates/merge/stdin");
    let mut parts = Parts(&input);
    let lengths = [(); 7].map(|()| parts.word());
    assert_eq!((lengths[2], lengths[3]), (4, 5));
    let mut part = |i: usize| parts.take(lengths[i] as usize);
    let (tape, bytes, replacement, reading_tape, reading_bytes) =
        (part(0), part(1), part(4), part(5), part(6));
    assert_eq!(plain(ABC).as_stored(), Stored::new(tape, bytes));
    assert_eq!(ruby_reading().as_stored(), Stored::new(reading_tape, reading_bytes));
    assert_eq!(replacement, b"x");
}

#[test]
fn p6_to_p10() {
    assert_eq!(region("aa\n\nbb", 5, 5, "x"), Ok(Span::new(4, 6)));
    assert_eq!(region("aa\n\nbb", 3, 3, "\n"), Ok(Span::new(0, 4)));
    assert_eq!(region("aa\n", 3, 3, "x"), Ok(Span::new(3, 3)));
    assert_eq!(region("", 0, 0, "a"), Err(Refusal::WholeText));
    assert_eq!(region("abc", 0, 1, "x"), Err(Refusal::WholeText));
}

#[test]
fn p6_to_p8_merged() {
    for (text, start, end, replacement, reading, answer) in [
        ("aa\n\nbb", 5, 5, "x", "bxb", "region 4 6 reused 0 reread 0 calls 0 probes 0"),
        ("aa\n\nbb", 3, 3, "\n", "aa\n\n\n", "region 0 4 reused 0 reread 0 calls 0 probes 0"),
        ("aa\n", 3, 3, "x", "x", "region 3 3 reused 0 reread 0 calls 0 probes 0"),
    ] {
        let merged =
            merge(&plain(text), Edit::new(start, end, replacement), &plain(reading)).unwrap();
        assert_eq!(merged.to_string(), answer);
        let mut new = text.to_owned();
        new.replace_range(start as usize..end as usize, replacement);
        assert_eq!(Book::new(&merged.book).unwrap().text(), new);
    }
}

/// The first passage longer by two, the third shorter by one; a layer each.
struct Pair {
    old: StoredBook,
    first: StoredBook,
    last: StoredBook,
}

impl Pair {
    fn new() -> Self {
        let mut b = BookBuilder::new();
        let text = b.plain("r");
        b.text("aa\n\nb").node("b", NodeRef::Inline(Node::Heading { text })).text("\n\n");
        b.node("c", NodeRef::BlockLeaf(Node::PageBreak)).text("c");
        let old = b.build().unwrap();

        let mut b = BookBuilder::new();
        let (note, base) = (b.plain("é"), b.plain("q"));
        b.text("x").node("é", NodeRef::Inline(Node::MarginNote { base, note })).text("a\n\n");
        let first = b.build_reading().unwrap();

        let mut b = BookBuilder::new();
        b.string("q");
        let content = b.plain("q");
        b.node("c", NodeRef::Inline(Node::AngleQuote { content }));
        let last = b.build_reading().unwrap();
        Self { old, first, last }
    }

    fn corrections(&self) -> (Correction<'_>, Correction<'_>) {
        (
            Correction::new(Edit::new(0, 1, "xé"), &self.first),
            Correction::new(Edit::new(8, 10, "c"), &self.last),
        )
    }
}

#[test]
fn both_orders() {
    let pair = Pair::new();
    let (earlier, later) = pair.corrections();
    let orders = merge_both_orders(&pair.old, earlier, later).all().unwrap();
    let Orders { earlier_first, later_second, later_first, earlier_second } = orders.as_ref();

    assert_eq!((earlier_first.region, earlier_second.region), (Span::new(0, 4), Span::new(0, 4)));
    assert_eq!((later_first.region, later_second.region), (Span::new(8, 10), Span::new(10, 12)));
    assert_eq!(
        earlier_first.reread + later_second.reread,
        later_first.reread + earlier_second.reread
    );
    assert_eq!(earlier_first.reread + later_second.reread, 2);

    let (one, other) =
        (Book::new(&later_second.book).unwrap(), Book::new(&earlier_second.book).unwrap());
    assert_eq!(one.shows_the_same(&other, MAX_TREE_ITEMS), Ok(true));
    assert_ne!(later_second.book, earlier_second.book, "the layers are numbered otherwise");
    let before = Book::new(&pair.old).unwrap();
    assert_eq!(one.shows_the_same(&before, MAX_TREE_ITEMS), Ok(false));
    for book in [&one, &other] {
        assert_eq!(book.resolve_str(StrId(0)), before.resolve_str(StrId(0)));
        let range = ContentRange { start: 0, len: 1 };
        assert_eq!(book.content_range_as_plain(range), before.content_range_as_plain(range));
    }
}

/// The four merges are those that `merge` makes one by one.
#[test]
fn both_orders_are_four_merges() {
    let pair = Pair::new();
    let (earlier, later) = pair.corrections();
    let orders = merge_both_orders(&pair.old, earlier, later).all().unwrap();
    let moved = Edit { start: later.edit.start + 2, end: later.edit.end + 2, ..later.edit };
    let one = |book: &StoredBook, edit, c: Correction<'_>| merge(book, edit, c.reading).unwrap();
    let earlier_first = one(&pair.old, earlier.edit, earlier);
    let later_first = one(&pair.old, later.edit, later);
    assert_eq!(orders.later_second, one(&earlier_first.book, moved, later));
    assert_eq!(orders.earlier_second, one(&later_first.book, earlier.edit, earlier));
    assert_eq!((orders.earlier_first, orders.later_first), (earlier_first, later_first));
}

/// docs/PROMISE.md, "a text's end that was only safe as the end": accepted in one order, refused
/// with 12 in the other.
#[test]
fn refused_in_one_order_only() {
    let old = plain("aa\n\nbb\n");
    let (first, last) = (plain("yb\n"), plain("x"));
    let orders = merge_both_orders(
        &old,
        Correction::new(Edit::new(4, 5, "y"), &first),
        Correction::new(Edit::new(7, 7, "x"), &last),
    );
    assert_eq!(orders.earlier_second.as_ref().unwrap_err(), &Refusal::OtherText);
    assert!(orders.later_second.is_ok());
    assert!(orders.all().is_err());
}

/// Document 02, wish 1: a region does not end at a blank line that the edit takes away.
#[test]
fn blank_lines_that_survive() {
    assert_eq!(region("aa\n\nbb", 2, 3, "x"), Err(Refusal::WholeText));
    assert_eq!(region(ABC, 2, 3, "x"), Ok(Span::new(0, 8)));
    assert_eq!(region(ABC, 2, 3, "x\n"), Ok(Span::new(0, 4)));

    let old = plain(ABC);
    let edit = Edit::new(2, 3, "x");
    assert_eq!(merge(&old, edit, &plain("aax\n")), Err(Refusal::OtherText));
    let (joined, last) = (plain("aax\nbb\n\n"), plain("yc"));
    let orders = merge_both_orders(
        &old,
        Correction::new(edit, &joined),
        Correction::new(Edit::new(8, 9, "y"), &last),
    )
    .all()
    .unwrap();
    assert_eq!(orders.earlier_first.region, Span::new(0, 8));
    assert_eq!(Book::new(&orders.later_second.book).unwrap().text(), "aax\nbb\n\nyc");
    assert_eq!(orders.later_second.book, orders.earlier_second.book);
}

/// What a book shows is its strings and lists, not its ids.
#[test]
fn shows_the_same() {
    // one Ruby with this base and reading, behind so many strings and contents that nothing names
    let book = |unused: usize, base: &[&str], reading: &str, plain: Plain, inner: Plain| {
        let mut b = BookBuilder::new();
        for _ in 0..unused {
            b.plain("unused");
        }
        let ids: Vec<StrId> = base.iter().map(|s| b.string(s)).collect();
        let segment = |&s: &StrId| Segment::text(s).with_plain(inner);
        let run = b.segments(&ids.iter().map(segment).collect::<Vec<_>>());
        let base = b.contents(&[Content::Segments(run)]);
        let node = NodeRef::Inline(Node::Ruby { base, reading: b.plain(reading) });
        b.text("a").node_with_plain("b", node, plain).build().unwrap()
    };
    let one = book(0, &["x", "y"], "r", [1, 2], [3, 4]);
    let same = |other: &StoredBook| {
        Book::new(&one).unwrap().shows_the_same(&Book::new(other).unwrap(), 100)
    };
    assert_eq!(same(&one), Ok(true));
    assert_eq!(same(&book(3, &["x", "y"], "r", [1, 2], [3, 4])), Ok(true));
    for other in [
        book(0, &["x", "y"], "s", [1, 2], [3, 4]),
        book(0, &["x", "z"], "r", [1, 2], [3, 4]),
        book(0, &["xy"], "r", [1, 2], [3, 4]),
        book(0, &["x", "y", ""], "r", [1, 2], [3, 4]),
        book(0, &["x", "y"], "r", [1, 3], [3, 4]),
        book(0, &["x", "y"], "r", [1, 2], [3, 5]),
    ] {
        assert_eq!(same(&other), Ok(false));
    }
}
