//! Damaged and random inputs: never a crash, and what is accepted is read whole.
#![allow(missing_docs, clippy::pedantic)]

mod common;

use aozora_incremental::*;
use common::{
    ABC, Random, desk_agrees, diagnostic, flat_agrees, lavish, plain, price_agrees, random_book,
    read_all, rounds, ruby_reading,
};

/// A small book with a record of each kind.
fn small() -> StoredBook {
    let mut b = BookBuilder::new();
    let s = b.string("é");
    let run = b.segments(&[Segment::text(s)]);
    let base = b.contents(&[Content::Segments(run), Content::Plain(s)]);
    let node = b.node_segment(Node::AngleQuote { content: base });
    b.segments(&[node]);
    b.text("a\n\n").node("b", NodeRef::Inline(Node::Ruby { base, reading: base })).text("c\n\n");
    b.node(
        "d",
        NodeRef::BlockLeaf(Node::Illustration(Illustration {
            file: s,
            number: None,
            dimensions: Some(s),
            caption: Some(Content::Segments(run)),
            description: None,
        })),
    );
    b.pair(PairLink { kind: PairKind::Quote, open: Span::new(0, 1), close: Span::new(1, 2) });
    b.container(ContainerPair { plain: 5, open: NormalizedOffset(0), close: NormalizedOffset(3) });
    b.diagnostic(Diagnostic {
        kind: DiagnosticKind::UnresolvedGaiji,
        code_rank: 9,
        span: Span::new(0, 2),
        plain: 6,
    });
    let end = b.text_len() as u32;
    b.diagnostic(Diagnostic {
        kind: DiagnosticKind::Other,
        code_rank: 8,
        span: Span::new(end, end),
        plain: 7,
    });
    b.layer();
    b.plain("x");
    b.build().unwrap()
}

/// Asks all entries, and reads and rebuilds what is accepted.
fn ask(stored: Stored<'_>, r: &mut Random) -> Result<(), Refusal> {
    let number = check_book(stored);
    let edit = Edit::new(3, 4, "x");
    let later = number.is_ok();
    assert_eq!(diagnostics_allow_incremental(stored).map(|_| ()), number);
    assert_eq!(node_at_source(stored, 3).map(|_| ()), number);
    assert_eq!(lookup_str(stored, StrId(0)).map(|_| ()), number);
    assert_eq!(lookup_contents(stored, ContentRange { start: 0, len: 1 }).map(|_| ()), number);
    assert_eq!(lookup_segments(stored, SegRange { start: 0, len: 1 }).map(|_| ()), number);
    assert_eq!(copy_book(stored).map(|_| ()), number);
    assert_eq!(flatten_book(stored).map(|_| ()), number);
    if later {
        flat_agrees(stored);
    }
    match choose_region(stored, edit) {
        Err(refusal) if !later => assert_eq!(Err(refusal), number),
        region => assert!(
            later && region.is_ok_and(|r| r.start <= r.end)
                || region.is_err_and(|e| e.number() > 7)
        ),
    }
    let (old, reading) = (plain(ABC), plain("x"));
    for (book, edit, reading) in
        [(stored, edit, reading.as_stored()), (old.as_stored(), Edit::new(4, 5, "x"), stored)]
    {
        let (merged, mut ledger) = (merge(book, edit, reading), Ledger::new());
        assert_eq!(merge_for_desk(&mut ledger, 63, book, edit, reading), merged);
        assert_eq!(ledger.total(63), Some(merged.as_ref().map_or(0, |merged| merged.reread)));
        if let Ok(merged) = merged {
            read_all(&Book::new(&merged.book).unwrap(), r);
        }
    }
    assert_eq!(read(stored, r), number);
    number
}

/// Reads and rebuilds what is accepted.
fn read(stored: Stored<'_>, r: &mut Random) -> Result<(), Refusal> {
    let book = Book::new(stored)?;
    read_all(&book, r);
    assert_eq!(BookBuilder::from_book(&book).build().unwrap().as_stored(), stored);
    Ok(())
}

/// Each byte of the tape and of the byte buffer, changed to each other value; all entries are asked
/// for some of these values.
#[test]
fn each_byte_changed() {
    let r = &mut Random::new(7);
    for book in [small(), ruby_reading()] {
        assert_eq!(ask(book.as_stored(), r), Ok(()));
        let (mut accepted, mut refused) = (0, [0; 21]);
        for place in 0..book.tape.len() + book.bytes.len() {
            let mut changed = book.clone();
            for value in 0..=255 {
                let byte = match place.checked_sub(book.tape.len()) {
                    None => &mut changed.tape[place],
                    Some(place) => &mut changed.bytes[place],
                };
                *byte = value;
                let answer = if value < 12 || value % 25 == 0 {
                    ask(changed.as_stored(), r)
                } else {
                    read(changed.as_stored(), r)
                };
                match answer {
                    Ok(()) => accepted += 1,
                    Err(refusal) => refused[refusal.number() as usize] += 1,
                }
            }
        }
        assert!(accepted > 1000);
        assert!([1, 2, 4, 6].iter().all(|&n| refused[n] > 0), "{refused:?}");
    }
}

/// Cut at each place, or with one byte more.
#[test]
fn each_length() {
    let (r, book) = (&mut Random::new(3), small());
    for len in 0..book.tape.len() {
        assert_eq!(ask(Stored::new(&book.tape[..len], &book.bytes), r), Err(Refusal::Layout));
    }
    for len in 0..book.bytes.len() {
        assert_eq!(ask(Stored::new(&book.tape, &book.bytes[..len]), r), Err(Refusal::Layout));
    }
    let longer = |part: &[u8]| [part, b"\0"].concat();
    assert_eq!(ask(Stored::new(&longer(&book.tape), &book.bytes), r), Err(Refusal::Layout));
    assert_eq!(ask(Stored::new(&book.tape, &longer(&book.bytes)), r), Err(Refusal::Layout));
}

#[test]
fn random_bytes() {
    let r = &mut Random::new(11);
    for _ in 0..rounds(20_000) {
        let (mut tape, bytes) = (r.bytes(120), r.bytes(40));
        if let Some(first) = tape.first_mut() {
            *first = r.pick(&[1, 1, 1, *first]);
        }
        _ = ask(Stored::new(&tape, &bytes), r);
    }
}

/// Random books, some bytes changed: often still books.
#[test]
fn damaged_random_books() {
    let (mut accepted, mut refused) = (0, 0);
    for seed in 0..rounds(1500) {
        let r = &mut Random::new(seed + (1 << 40));
        let layers = 1 + r.below(3);
        let mut book = random_book(r, layers).build().unwrap();
        for _ in 0..=r.below(4) {
            let part = if r.below(4) == 0 { &mut book.bytes } else { &mut book.tape };
            let place = r.below(part.len());
            let value = r.next() as u8;
            if let Some(byte) = part.get_mut(place) {
                *byte = r.pick(&[value, value & 3, byte.wrapping_add(1), byte.wrapping_sub(1)]);
            }
        }
        match ask(book.as_stored(), r) {
            Ok(()) => accepted += 1,
            Err(_) => refused += 1,
        }
    }
    assert!(accepted > 100 && refused > 100, "{accepted} {refused}");
}

/// Edits at all places of random books, with random readings; the reader reads every result.
#[test]
fn random_merges() {
    let (mut accepted, mut numbers) = (0, std::collections::BTreeMap::new());
    for seed in 0..rounds(3000) {
        let r = &mut Random::new(seed + (2 << 40));
        let layers = 1 + r.below(3);
        let old = random_book(r, layers).build().unwrap();
        let text = Book::new(&old).unwrap().text();
        let (start, end) = (r.below(text.len() + 1), r.below(text.len() + 1));
        let edit = Edit::new(start.min(end) as u32, start.max(end) as u32, r.text());
        let reading = reading_for(&old, edit, r);
        let answer = merge(&old, edit, &reading);
        assert_eq!(answer, lavish(&old, edit, &reading, 1 << 16));
        assert_eq!(answer, price_agrees(old.as_stored(), edit, reading.as_stored()));
        desk_agrees(old.as_stored(), edit, reading.as_stored(), &answer);
        match answer {
            Ok(merged) => {
                accepted += 1;
                let book = Book::new(&merged.book).unwrap();
                read_all(&book, r);
                let mut new = text.to_owned();
                new.replace_range(edit.span().range(), str::from_utf8(edit.replacement).unwrap());
                assert_eq!(book.text(), new);
                assert_eq!(BookBuilder::from_book(&book).build().unwrap(), merged.book);
            }
            Err(refusal) => *numbers.entry(refusal.number()).or_insert(0) += 1,
        }
    }
    assert!(accepted > 100, "{accepted} {numbers:?}");
}

/// The pools of a random book, and nodes that name them.
fn pools(b: &mut BookBuilder, r: &mut Random) -> Vec<SourceNode> {
    let pools = random_book(r, 1).build().unwrap();
    let pools = Book::new(&pools).unwrap();
    for layer in pools.layers() {
        layer.strings().for_each(|s| _ = b.string(s));
        b.contents(&layer.contents().collect::<Vec<_>>());
        b.segments(&layer.segments().collect::<Vec<_>>());
    }
    pools.nodes().filter(|n| n.node.node().is_some()).collect()
}

/// A text, with nodes over some of its characters.
fn with_nodes(b: &mut BookBuilder, text: &str, nodes: &mut Vec<SourceNode>, r: &mut Random) {
    for c in text.chars() {
        let mut buffer = [0; 4];
        let c = c.encode_utf8(&mut buffer);
        match nodes.pop_if(|_| c != "\n" && r.below(2) == 0) {
            Some(node) => b.node_with_plain(c, node.node, node.plain),
            None => b.text(c),
        };
    }
}

/// Some diagnostics that no merge refuses.
fn remarks(b: &mut BookBuilder, r: &mut Random) {
    for _ in 0..r.below(3) {
        diagnostic(b, DiagnosticKind::Other, r);
    }
}

/// A reading of the edit's region: random pools, nodes over the region's new text, diagnostics.
fn reading_for(old: &StoredBook, edit: Edit<'_>, r: &mut Random) -> StoredBook {
    let Ok(region) = choose_region(old, edit) else { return plain("") };
    let book = Book::new(old).unwrap();
    let mut text = book.source(Span::new(region.start, edit.start)).unwrap().to_owned();
    text += str::from_utf8(edit.replacement).unwrap();
    text += book.source(Span::new(edit.end, region.end)).unwrap();
    let mut reading = BookBuilder::new();
    let mut nodes = pools(&mut reading, r);
    with_nodes(&mut reading, &text, &mut nodes, r);
    remarks(&mut reading, r);
    reading.build_reading().unwrap()
}

/// Document 02, wish 4, on random lists of corrections of a book, each on the result of those
/// before: each total is the sum of its own accepted rereads.
#[test]
fn random_ledgers() {
    let (mut charged, mut refused) = (0, 0);
    for seed in 0..rounds(300) {
        let r = &mut Random::new(seed + (4 << 40));
        let mut b = BookBuilder::new();
        b.text("あa人\n\nbé\n\nccc\n\n");
        let (mut book, mut ledger) = (b.build().unwrap(), Ledger::new());
        let (mut own, mut all) = ([0; DESKS], 0);
        for _ in 0..r.below(20) {
            let desk = r.pick(&[0, 17, 62, 63, 64, u32::MAX]);
            let last = Book::new(&book).unwrap().text().len() as u32;
            let edit =
                r.pick(&[Edit::new(0, 3, "人"), Edit::new(0, 3, "あ"), Edit::new(last, last, "a")]);
            let reading = reading_for(&book, edit, r);
            match merge_for_desk(&mut ledger, desk, &book, edit, &reading) {
                Ok(merged) => {
                    own[desk as usize] += merged.reread;
                    all += u64::from(merged.reread);
                    charged += u32::from(merged.reread > 0);
                    book = merged.book;
                }
                Err(refusal) => {
                    assert_eq!(refusal == Refusal::DeskOrLedger, desk > 63);
                    refused += 1;
                }
            }
            assert_eq!((ledger.totals(), ledger.sum()), (&own, all));
        }
    }
    assert!(charged > 100 && refused > 100, "{charged} {refused}");
}

/// Demand 3, on random pairs of corrections of the first and the last of some passages. It is
/// proved; here it tests `Book::shows_the_same` and the order of all those arguments.
#[test]
fn random_orders() {
    let mut accepted = 0;
    for seed in 0..rounds(1000) {
        let r = &mut Random::new(seed + (3 << 40));
        let mut b = BookBuilder::new();
        let mut nodes = pools(&mut b, r);
        with_nodes(&mut b, "あa人\n\nbé\n\nccc\n\n", &mut nodes, r);
        remarks(&mut b, r);
        let old = b.build().unwrap();
        // Now and then at the text's end, where its region is empty.
        let back = [5, 4, 3, 0][r.below(4)];
        let last = (b.text_len() - back) as u32;
        let (one, two) = (Edit::new(0, 3, r.text()), Edit::new(last, last, r.text()));
        let (first, second) = (reading_for(&old, one, r), reading_for(&old, two, r));
        let orders =
            merge_both_orders(&old, Correction::new(one, &first), Correction::new(two, &second));
        let Ok(orders) = orders.all() else { continue };
        accepted += 1;
        let [before, a, z] = [&old, &orders.later_second.book, &orders.earlier_second.book]
            .map(|book| Book::new(book).unwrap());
        assert_eq!(a.shows_the_same(&z, 1 << 20), Ok(true));
        assert_eq!(flatten_book(&a).unwrap(), flatten_book(&z).unwrap());
        assert_eq!(
            orders.earlier_first.reread + orders.later_second.reread,
            orders.later_first.reread + orders.earlier_second.reread
        );
        for book in [a, z] {
            assert_eq!(before.shows_the_same(&book, 1 << 20), Ok(false));
            assert!(book.strings().zip(before.strings()).all(|(s, t)| s == t));
            assert!(book.contents().zip(before.contents()).all(|(s, t)| s == t));
            assert!(book.segments().zip(before.segments()).all(|(s, t)| s == t));
            assert!(book.string_count() >= before.string_count());
            assert!(book.content_count() >= before.content_count());
            assert!(book.segment_count() >= before.segment_count());
        }
    }
    assert!(accepted > 100, "{accepted}");
}

/// Document 02, wish 6, on random days of corrections of a book: merge until 17, flatten, go on.
#[test]
fn random_days() {
    let (mut merges, mut flattened) = (0, 0);
    for seed in 0..rounds(60) {
        let r = &mut Random::new(seed + (5 << 40));
        let mut b = BookBuilder::new();
        let mut nodes = pools(&mut b, r);
        with_nodes(&mut b, "あa人\n\nbé\n\nccc\n\n", &mut nodes, r);
        remarks(&mut b, r);
        let mut book = b.build().unwrap();
        for _ in 0..100 {
            let last = Book::new(&book).unwrap().text().len() as u32;
            let edit =
                r.pick(&[Edit::new(0, 3, "人"), Edit::new(0, 3, "あ"), Edit::new(last, last, "a")]);
            let reading = reading_for(&book, edit, r);
            match merge(&book, edit, &reading) {
                Ok(merged) => {
                    merges += 1;
                    book = merged.book;
                }
                Err(Refusal::LayersFull) => {
                    flattened += 1;
                    book = flat_agrees(book.as_stored());
                    book = merge(&book, edit, &reading).unwrap().book;
                }
                Err(_) => {}
            }
        }
    }
    assert!(merges > 1000 && flattened > 40, "{merges} {flattened}");
}
