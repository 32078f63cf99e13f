//! The limits of numbers 3 and 18: each list exactly full, and one more.
use crate::book::{Body, Book, Case, Container, Content, Diagnostic, Layer, Node, Pair, Seg};
use crate::books::Rng;
use crate::run::Compare;
use oracle::judge::{Answer, judge};
use oracle::tape;

const CLASS: &str = "limits";
pub const TEXT: usize = 16_777_215;
pub const POOL: usize = 1_048_575;
pub const LIST: usize = 262_143;

/// "a", a blank line, then so many letters
pub fn long(len: usize) -> Vec<u8> {
    let mut text = b"a\n\n".to_vec();
    text.resize(len, b'b');
    text
}

pub fn inline(start: u32, end: u32, body: Body) -> Node {
    Node { class: 0, inline: 0, start, end, offset: 0, body }
}

/// The first passage is "x" in place of "a"; `number` 0: accepted.
fn put(compare: &mut Compare, old: &Book, reading: &Book, number: u32) {
    put_edit(compare, old, 0, 1, reading, number);
}

fn put_edit(compare: &mut Compare, old: &Book, start: u32, end: u32, reading: &Book, number: u32) {
    let mut case = Case::new(old, start, end, b"x", reading);
    if number == 18 {
        // room enough, so that the limit is what is refused
        let more = if case.tape.len() < 10_000 { 120_000_000 } else { 1_000_000 };
        case.room = Some([case.tape.len() + more, case.bytes.len() + more, 16384]);
    }
    let before = compare.accepted(CLASS);
    compare.run(CLASS, &case, (number != 0).then_some(number), None, &mut Rng::new(0, 0));
    if number == 0 && compare.accepted(CLASS) == before {
        compare.differ(CLASS, "made to be accepted, is not", None);
    }
    if number == 3 && !rust_accepts(&case) {
        compare.differ(CLASS, "the Rust has this limit too", None);
    }
}

/// docs/DIFFERENCES.md: the Rust has no limits of 3
fn rust_accepts(c: &Case) -> bool {
    let book = tape::Book::read(&c.tape, &c.bytes).expect("a book of the Rust's");
    let reading = tape::Reading::read(&c.rtape, &c.rbytes).expect("a reading of the Rust's");
    matches!(judge(&book, c.start as usize..c.end as usize, "x", &reading), Answer::Merged(_))
}

/// A reading of the first passage with one AngleQuote of the first `len` contents.
pub fn quote(strings: usize, contents: &[Content], segments: Vec<Seg>, len: u32) -> Book {
    let mut b = Book::plain(b"x\n\n");
    b.layers[0] = Layer { strings: (0..strings).map(|i| format!("{i:x}").into_bytes()).collect(), contents: contents.to_vec(), segments };
    b.nodes = vec![inline(0, 1, Body::new(14, 0, &[0, len]))];
    b.lay();
    b
}

/// AngleQuotes one in another, each holding the one below twice: 2 to the power of the levels when grafted.
pub fn doubling(levels: u8) -> Book {
    let mut segments = vec![Seg { tag: 0, level: 0, body: Body::new(0, 0, &[0]) }];
    segments.extend((1..=levels).map(|i| Seg { tag: 3, level: i, body: Body::new(14, 0, &[2 * u32::from(i) - 2, 2]) }));
    let contents: Vec<Content> = (0..2 * u32::from(levels) + 2).map(|i| (1, i / 2, 1)).collect();
    let mut b = quote(1, &contents, segments, 1);
    b.nodes[0].body.words[0] = 2 * u32::from(levels);
    b
}

fn texts(compare: &mut Compare) {
    let plain = Book::plain(b"x\n\n");
    for (len, number) in [(TEXT, 0), (TEXT + 1, 3)] {
        put(compare, &Book::plain(&long(len)), &plain, number);
    }
    // a new text over the limit
    put_edit(compare, &Book::plain(&long(TEXT)), 0, 0, &Book::plain(b"xa\n\n"), 3);
    put_edit(compare, &Book::plain(&long(TEXT - 1)), 0, 0, &Book::plain(b"xa\n\n"), 0);
    // a normalized text: a leaf of one byte has an image of seven
    let leaf = |text: &[u8], at: u32| {
        let mut b = Book { nodes: vec![Node { class: 1, ..inline(at, at + 1, Body::new(5, 0, &[])) }], ..Book::plain(text) };
        b.lay();
        b
    };
    put(compare, &leaf(&long(TEXT - 6), 3), &plain, 0);
    put(compare, &leaf(&long(TEXT - 5), 3), &plain, 3);
    put(compare, &Book::plain(&long(TEXT - 6)), &leaf(b"x\n\n", 0), 0);
    put(compare, &Book::plain(&long(TEXT - 5)), &leaf(b"x\n\n", 0), 18);
}

fn pools(compare: &mut Compare) {
    let plain = Book::plain(b"x\n\n");
    let text = |id| Seg { tag: 0, level: 0, body: Body::new(0, 0, &[id]) };
    // an old book with so many of one pool, and a reading that adds one to it
    let strings = |n: usize| Layer { strings: (0..n).map(|i| format!("{i:x}").into_bytes()).collect(), ..Layer::default() };
    let contents = |n: usize| Layer { strings: vec![vec![]], contents: vec![(0, 0, 0); n], ..Layer::default() };
    let segments = |n: usize| Layer { strings: vec![vec![]], segments: vec![text(0); n], ..Layer::default() };
    let of: [&dyn Fn(usize) -> Layer; 3] = [&strings, &contents, &segments];
    let readings = [quote(1, &[(0, 0, 0)], vec![], 1), quote(1, &[(0, 0, 0)], vec![], 1), quote(1, &[(1, 0, 1)], vec![text(0)], 1)];
    for (layer, reading) in of.into_iter().zip(&readings) {
        for (n, reading, number) in [(POOL, &plain, 0), (POOL + 1, &plain, 3), (POOL - 1, reading, 0), (POOL, reading, 18)] {
            put(compare, &Book { layers: vec![layer(n)], ..Book::plain(b"a\n\nb") }, reading, number);
        }
    }
}

fn lists(compare: &mut Compare) {
    let plain = Book::plain(b"x\n\n");
    let page = |i: usize| inline(i as u32, i as u32 + 1, Body::new(5, 0, &[]));
    let at = |i: usize| [i as u32, i as u32 + 1, i as u32 + 1, i as u32 + 2];
    let diagnostic = |i: usize| Diagnostic { kind: 0, rank: 0, start: i as u32, end: i as u32 + 1, plain: 0 };
    let fill = |b: &mut Book, which: usize, first: usize, n: usize| match which {
        0 => {
            b.nodes = (0..n).map(|i| page(first + i)).collect();
            b.lay();
        }
        1 => b.pairs = (0..n).map(|i| Pair { kind: 0, at: at(first + i % 100) }).collect(),
        2 => b.containers = (0..n).map(|i| Container { plain: 0, open: (first + i % 100) as u32, close: (first + i % 100) as u32 + 1 }).collect(),
        _ => b.diagnostics = (0..n).map(|i| diagnostic(first + i)).collect(),
    };
    for which in 0..4 {
        let full = |n: usize| {
            let mut b = Book::plain(&long(LIST + 8));
            fill(&mut b, which, 3, n);
            b
        };
        let mut one = Book::plain(b"x\n\n");
        fill(&mut one, which, 0, 1);
        for (n, reading, number) in [(LIST, &plain, 0), (LIST + 1, &plain, 3), (LIST - 1, &one, 0), (LIST, &one, 18)] {
            put(compare, &full(n), reading, number);
        }
    }
}

fn new_layers(compare: &mut Compare) {
    let old = Book::plain(b"a\n\nb");
    for (n, number) in [(3583, 0), (3584, 18), (9000, 18)] {
        let contents: Vec<Content> = (0..n as u32).map(|i| (0, i, 0)).collect();
        put(compare, &old, &quote(n, &contents, vec![], n as u32), number);
    }
    for (levels, number) in [(9, 0), (17, 0), (19, 0), (20, 18), (24, 18), (32, 18)] {
        put(compare, &old, &doubling(levels), number);
    }
}

pub fn all(compare: &mut Compare) {
    texts(compare);
    pools(compare);
    lists(compare);
    new_layers(compare);
}
