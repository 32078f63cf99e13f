//! Document 02, wish 6: a book of many layers flattened.
#![allow(missing_docs, clippy::pedantic)]

mod common;

use aozora_incremental::*;
use common::{ABC, Lent, doubled, flat_agrees, plain};

fn kaeriten(mark: StrId) -> NodeRef {
    NodeRef::Inline(Node::Kaeriten { mark })
}

/// A passage of one letter with a mark of this string on it, as a parser reads it.
fn marked(b: &mut BookBuilder, letter: &str, mark: &str) {
    let mark = b.string(mark);
    b.node(letter, kaeriten(mark)).text("\n\n");
}

fn reading(letter: &str, mark: &str) -> StoredBook {
    let mut b = BookBuilder::new();
    marked(&mut b, letter, mark);
    b.build_reading().unwrap()
}

/// A book of nodes with one string each, in these layers. The last has what no node names, too.
fn layers<S: AsRef<str>>(layers: &[&[S]]) -> StoredBook {
    let (mut b, mut marks) = (BookBuilder::new(), Vec::new());
    for (place, strings) in layers.iter().enumerate() {
        if place > 0 {
            b.layer();
        }
        marks.extend(strings.iter().map(|s| b.string(s.as_ref())));
    }
    b.plain("unnamed");
    marks.into_iter().for_each(|mark| _ = b.node("a", kaeriten(mark)));
    b.build().unwrap()
}

fn shows_the_same(a: &StoredBook, b: &StoredBook) -> bool {
    Book::new(a).unwrap().shows_the_same(&Book::new(b).unwrap(), 1 << 20).unwrap()
}

fn strings(book: &StoredBook) -> Vec<&str> {
    Book::new(book).unwrap().strings().collect()
}

fn layer_count(book: &StoredBook) -> usize {
    Book::new(book).unwrap().layers().len()
}

/// 100 corrections in a row: merge until 17, flatten, go on. The book shows what a parse of its
/// text shows, and flat it is that parse, flat.
#[test]
fn a_long_day() {
    let letters = ["a", "b", "c", "d"];
    let mut passages = letters.map(|letter| (letter, String::from("first")));
    let whole = |passages: &[(&str, String)]| {
        let mut b = BookBuilder::new();
        passages.iter().for_each(|(letter, mark)| marked(&mut b, letter, mark));
        b.build().unwrap()
    };
    let (mut book, mut flattened, mut charged) = (whole(&passages), Vec::new(), 0);
    for day in 0..100_usize {
        let (place, letter) = (day * 7 % 4, ["x", "y"][day / 4 % 2]);
        let start = 3 * place as u32;
        let (edit, mark) = (Edit::new(start, start + 1, letter), format!("mark {}", day % 9));
        let reading = reading(letter, &mark);
        let merged = match merge(&book, edit, &reading) {
            Err(refusal) => {
                assert_eq!((refusal, layer_count(&book)), (Refusal::LayersFull, MAX_LAYERS));
                assert_eq!(estimate(&book, edit, &reading), Err(Refusal::LayersFull));
                book = flat_agrees(book.as_stored());
                flattened.push(day);
                merge(&book, edit, &reading).unwrap()
            }
            merged => merged.unwrap(),
        };
        charged += merged.reread;
        book = merged.book;
        passages[place] = (letter, mark);
        let anew = whole(&passages);
        assert!(shows_the_same(&book, &anew));
        assert_eq!(flatten_book(&book).unwrap(), flatten_book(&anew).unwrap());
    }
    assert_eq!((flattened, charged), (vec![31, 62, 93], 100));
}

/// 17 refuses readings with nodes only; and a book of 32 layers can be flattened also where its last
/// merge added none.
#[test]
fn the_last_layer() {
    let mut b = BookBuilder::new();
    b.text(ABC);
    (1..MAX_LAYERS).for_each(|_| _ = b.layer());
    let full = b.build().unwrap();
    let (edit, with_nodes) = (Edit::new(4, 6, "x"), reading("x", "m"));
    assert_eq!(merge(&full, edit, &with_nodes), Err(Refusal::LayersFull));
    assert_eq!(layer_count(&merge(&full, edit, &plain("x\n\n")).unwrap().book), MAX_LAYERS);
    let flat = flat_agrees(full.as_stored());
    assert_eq!(flat, plain(ABC));
    assert_eq!(layer_count(&merge(&flat, edit, &with_nodes).unwrap().book), 2);
}

/// The books of both orders: their layers are numbered otherwise, and flat they are the same bytes.
#[test]
fn both_orders() {
    let mut b = BookBuilder::new();
    ["a", "b", "c"].iter().for_each(|letter| marked(&mut b, letter, "first"));
    let old = b.build().unwrap();
    let (one, two) = (reading("x", "one"), reading("y", "two"));
    let orders = merge_both_orders(
        &old,
        Correction::new(Edit::new(0, 1, "x"), &one),
        Correction::new(Edit::new(6, 7, "y"), &two),
    )
    .all()
    .unwrap();
    let (a, z) = (orders.later_second.book, orders.earlier_second.book);
    assert!(a != z && shows_the_same(&a, &z));
    assert_eq!(flat_agrees(a.as_stored()), flat_agrees(z.as_stored()));
}

/// References run from one flattening to the next.
#[test]
fn references_end() {
    let mut b = BookBuilder::new();
    ["a", "b"].iter().for_each(|letter| marked(&mut b, letter, letter));
    let old = b.build().unwrap();
    let merged = merge(&old, Edit::new(0, 1, "x"), &reading("x", "new")).unwrap().book;
    let shown = |book: &StoredBook, id| lookup_str(book, StrId(id)).unwrap().map(String::from);
    let some = |s: &str| Some(String::from(s));
    assert_eq!([0, 1, 2].map(|id| shown(&merged, id)), [some("a"), some("b"), some("new")]);

    let flat = flat_agrees(merged.as_stored());
    assert_eq!([0, 1, 2].map(|id| shown(&flat, id)), [some("new"), some("b"), None]);
    let later = merge(&flat, Edit::new(3, 4, "y"), &reading("y", "later")).unwrap().book;
    assert_eq!([0, 1, 2].map(|id| shown(&later, id)), [some("new"), some("b"), some("later")]);
}

/// Without nodes, or with nothing but a block's open and close, the one layer is empty. Lists keep
/// their order, also one that no merge leaves: diagnostics are not sorted.
#[test]
fn nothing_to_graft() {
    let diagnostic = |start, end, plain| {
        let (kind, span) = (DiagnosticKind::Other, Span::new(start, end));
        Diagnostic { kind, code_rank: 0, span, plain }
    };
    let with = |nodes: bool, layers: usize, unnamed: bool| {
        let mut b = BookBuilder::new();
        if nodes {
            b.node("a", NodeRef::BlockOpen { inline: true });
            b.node("b", NodeRef::BlockClose { inline: false });
        }
        b.text("\n\ncd");
        b.pair(PairLink { kind: PairKind::Quote, open: Span::new(1, 2), close: Span::new(2, 3) });
        b.container(ContainerPair {
            plain: 7,
            open: NormalizedOffset(0),
            close: NormalizedOffset(3),
        });
        b.diagnostic(diagnostic(3, 4, 1)).diagnostic(diagnostic(0, 0, 2));
        for layer in 0..layers {
            if layer > 0 {
                b.layer();
            }
            if unnamed {
                let string = b.string("unnamed");
                b.segments(&[Segment::text(string)]);
                b.plain(&"unnamed".repeat(20));
            }
        }
        b.build().unwrap()
    };
    for (nodes, layers, unnamed) in [(false, 1, true), (false, 32, false), (true, 5, true)] {
        let flat = flat_agrees(with(nodes, layers, unnamed).as_stored());
        assert_eq!(flat, with(nodes, 1, false));
        let book = Book::new(&flat).unwrap();
        assert!(book.diagnostics().map(|d| d.plain).eq([1, 2]));
    }
    let empty = plain("");
    assert_eq!(flat_agrees(empty.as_stored()), empty);
}

/// Equal strings of up to 64 bytes are one, of whichever layers; a longer one is new each time,
/// unless it is the string right before.
#[test]
fn equal_strings() {
    let [short, long] = [64, 65].map(|len| "s".repeat(len));
    let (short, long) = (short.as_str(), long.as_str());
    for (old, new) in [
        ([&["x", "y"][..], &["x"], &["y", "x"]], &["x", "y"][..]),
        ([&[short, ""], &[short], &["", short]], &[short, ""]),
        ([&[long, ""], &[long, long], &["", long]], &[long, "", long, long]),
        ([&[long], &[long], &[long]], &[long]),
    ] {
        let book = layers(&old);
        assert_eq!(strings(&flat_agrees(book.as_stored())), new);
    }
}

/// 3583 strings are accepted, one more is 18.
#[test]
fn most_strings() {
    let many = |count: usize| {
        let all: Vec<String> = (0..count).map(|i| format!("{i}")).collect();
        let parts: Vec<&[String]> = all.chunks(count.div_ceil(MAX_LAYERS)).collect();
        assert_eq!(parts.len(), MAX_LAYERS);
        layers(&parts)
    };
    let most = many(MAX_NEW_STRINGS);
    assert_eq!(strings(&flat_agrees(most.as_stored())).len(), MAX_NEW_STRINGS);
    for count in [MAX_NEW_STRINGS + 1, MAX_LAYERS * MAX_NEW_STRINGS] {
        let book = many(count);
        assert_eq!(flatten_book(&book), Err(Refusal::NoRoom));
        let lengths = Lengths { tape: 1 << 24, bytes: 1 << 24 };
        let mut lent = Lent::new(lengths, 1 << 18);
        assert_eq!(lent.flatten(book.as_stored()), Err(Refusal::NoRoom));
        assert!(lent.is_zero());
    }
    // so many that are equal are few
    let equal: Vec<String> = (0..100_000).map(|i| format!("{}", i % MAX_NEW_STRINGS)).collect();
    let book = layers(&[&equal[..50_000], &equal[50_000..]]);
    assert_eq!(strings(&flatten_book(&book).unwrap()).len(), MAX_NEW_STRINGS);
}

/// Where 18 stands behind 17, a correction without nodes may take away what is too much.
#[test]
fn fewer_nodes_help() {
    let mut b = BookBuilder::new();
    for i in 0..MAX_NEW_STRINGS {
        let mark = b.string(&i.to_string());
        b.node("a", kaeriten(mark));
    }
    b.text("\n\n");
    marked(&mut b, "z", "last");
    (1..MAX_LAYERS).for_each(|_| _ = b.layer());
    let full = b.build().unwrap();
    let at = MAX_NEW_STRINGS as u32 + 2;
    let edit = Edit::new(at, at + 1, "y");
    assert_eq!(flatten_book(&full), Err(Refusal::NoRoom));
    assert_eq!(merge(&full, edit, &reading("y", "m")), Err(Refusal::LayersFull));
    let fewer = merge(&full, edit, &plain("y\n\n")).unwrap().book;
    assert_eq!(strings(&flat_agrees(fewer.as_stored())).len(), MAX_NEW_STRINGS);
}

/// A run is stored each time that it is named, so the flat book can be the longer one. What a merge
/// adds names none twice.
#[test]
fn shared_runs() {
    let lengths = |book: &StoredBook| Lengths { tape: book.tape.len(), bytes: book.bytes.len() };
    for levels in 0..16 {
        let book = doubled(levels, |b| Segment::text(b.string("語")));
        let mut lent = Lent::new(lengths(&book), WORK_WORDS);
        let flat = flatten_book(&book).unwrap();
        assert!(shows_the_same(&book, &flat));
        if levels == 0 {
            assert_eq!(lent.flatten(book.as_stored()), Ok(lengths(&flat)));
        } else {
            assert!(flat.tape.len() > book.tape.len());
            assert_eq!(lent.flatten(book.as_stored()), Err(Refusal::NoRoom));
            assert!(lent.is_zero());
        }
        if levels < 8 {
            flat_agrees(book.as_stored());
        }
        let merged = merge(&plain("a\n\nb\n\nc"), Edit::new(0, 1, "x"), &book).unwrap().book;
        let mut lent = Lent::new(lengths(&merged), WORK_WORDS);
        assert!(lent.flatten(merged.as_stored()).is_ok());
    }
    // 2 to the 20 texts pass the limit of a pool, and 2 to the 33 too
    for levels in [20, 31] {
        let book = doubled(levels, |b| Segment::text(b.string("語")));
        assert_eq!(flatten_book(&book), Err(Refusal::NoRoom));
    }
    // nodes of several layers that name one run
    let mut b = BookBuilder::new();
    let content = b.plain("shared");
    b.layer();
    for _ in 0..3 {
        b.node("a", NodeRef::Inline(Node::AngleQuote { content }));
    }
    let flat = flat_agrees(b.build().unwrap().as_stored());
    assert_eq!(Book::new(&flat).unwrap().content_count(), 3);
}

/// A string of more than 64 bytes is stored again each time that it is named, unless directly
/// behind itself.
#[test]
fn long_strings() {
    let long = "長".repeat(2000);
    let book = doubled(10, |b| Segment::text(b.string(&long)));
    let flat = flatten_book(&book).unwrap();
    assert_eq!(Book::new(&flat).unwrap().string_count(), 1 + (1 << 10));
    assert!(flat.bytes.len() > long.len() << 10);
    let many = doubled(12, |b| Segment::text(b.string(&long)));
    assert_eq!(flatten_book(&many), Err(Refusal::NoRoom), "4097 strings");

    // one string under 6000 ids, which are equal
    let equal = vec!["長".repeat(400); 3000];
    assert_eq!(strings(&flatten_book(&layers(&[&equal, &equal])).unwrap()), [equal[0].as_str()]);

    // a reading that names one twice in a row stores it once; a correction comes in between
    let [again, other] = ["long ", "other "].map(|s| s.repeat(20));
    let mut b = BookBuilder::new();
    let mark = b.string(&again);
    b.node("a", kaeriten(mark)).text("\n\nb\n\n").node("c", kaeriten(mark)).text("\n\n");
    let old = b.build().unwrap();
    let merged = merge(&old, Edit::new(3, 4, "x"), &reading("x", &other)).unwrap().book;
    let flat = flat_agrees(merged.as_stored());
    assert_eq!(strings(&merged), [again.as_str(), &other]);
    assert_eq!(strings(&flat), [again.as_str(), &other, &again]);
    assert!(flat.bytes.len() > merged.bytes.len());
}

/// Corrections of a flat book answer as they did, but for 17 and 18, and show the same.
#[test]
fn merges_behind_it() {
    let mut b = BookBuilder::new();
    for (place, letter) in ["a", "b", "c", "d"].into_iter().enumerate() {
        if place > 0 {
            b.layer();
        }
        marked(&mut b, letter, "mark");
    }
    let old = b.build().unwrap();
    let flat = flat_agrees(old.as_stored());
    for start in [0, 3, 6, 9] {
        let (edit, reading) = (Edit::new(start, start + 1, "x"), reading("x", "mark"));
        let (before, behind) =
            (merge(&old, edit, &reading).unwrap(), merge(&flat, edit, &reading).unwrap());
        assert_eq!(
            (before.region, before.reused, before.reread, before.stats),
            (behind.region, behind.reused, behind.reread, behind.stats)
        );
        assert!(shows_the_same(&before.book, &behind.book));
        assert_eq!(flatten_book(&before.book).unwrap(), flatten_book(&behind.book).unwrap());
    }
}

/// 1 to 7 before 18, whatever is lent; after each refusal all that was lent is zeros.
#[test]
fn refused() {
    let broken = |f: fn(&mut BookBuilder)| {
        let mut b = BookBuilder::new();
        f(b.text(ABC));
        b.stored().unwrap()
    };
    let not_utf8 = StoredBook { tape: plain("ab").tape, bytes: b"a\xffab".to_vec() };
    let cases = [
        StoredBook::default(),
        not_utf8,
        broken(|b| (0..MAX_LAYERS).for_each(|_| _ = b.layer())),
        broken(|b| _ = b.contents(&[Content::Plain(StrId(0))])),
        broken(|b| _ = b.segments(&[Segment::node(0, Node::Line)])),
        broken(|b| _ = b.node("", NodeRef::Inline(Node::Line))),
        broken(|b| _ = b.raw_texts("a", "")),
    ];
    for (number, book) in (1..).zip(&cases) {
        assert_eq!(flatten_book(book).map_err(Refusal::number), Err(number));
        assert_eq!(check_book(book).map_err(Refusal::number), Err(number));
        for (room, words) in [(0, 0), (300, WORK_WORDS - 1), (300, WORK_WORDS), (300, 20_000)] {
            let mut lent = Lent::new(Lengths { tape: room, bytes: room }, words);
            assert_eq!(lent.flatten(book.as_stored()).map_err(Refusal::number), Err(number));
            assert!(lent.is_zero());
        }
    }
    // under 16384 work words also without nodes
    let (book, room) = (plain(ABC), Lengths { tape: 300, bytes: 300 });
    for (words, answer) in [
        (WORK_WORDS, Ok(Lengths { tape: 11, bytes: 20 })),
        (WORK_WORDS - 1, Err(Refusal::NoRoom)),
        (0, Err(Refusal::NoRoom)),
    ] {
        assert_eq!(Lent::new(room, words).flatten(book.as_stored()), answer);
    }
}
