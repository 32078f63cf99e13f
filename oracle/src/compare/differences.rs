//! The inputs of docs/DIFFERENCES.md, sections 1 and 3: our number, the Rust's answer. `T`, the edit and the reading are those of that paper.
use crate::archive::Archive;
use crate::book::*;
use crate::books::Rng;
use oracle::judge::{Answer as Said, judge};
use oracle::tape;

const T: &[u8] = b"aa\n\nbb\n\ncc";

fn node(class: u8, start: u32, end: u32, body: Body) -> Node {
    Node { class, inline: 0, start, end, offset: 0, body }
}

fn page(start: u32, end: u32) -> Node {
    node(1, start, end, Body::new(5, 0, &[]))
}

fn mark(at: u32) -> Diagnostic {
    Diagnostic { kind: 0, rank: 0, start: at, end: at, plain: 0 }
}

/// One layer of these strings, contents and segments.
fn book(text: &[u8], strings: &[&str], contents: &[Content], segments: Vec<Seg>, nodes: Vec<Node>) -> Book {
    let mut b = Book { nodes, ..Book::plain(text) };
    b.layers[0] = Layer { strings: strings.iter().map(|s| s.as_bytes().to_vec()).collect(), contents: contents.to_vec(), segments };
    b.lay();
    b
}

fn ruby(words: [u32; 4]) -> Node {
    node(0, 0, 2, Body::new(1, 0, &words))
}

/// P5's reading
fn reading() -> Book {
    book(b"xb\n\n", &["x", "b"], &[(0, 0, 0), (0, 1, 0)], vec![], vec![ruby([0, 1, 1, 1])])
}

fn with(mut b: Book, change: impl FnOnce(&mut Book)) -> Book {
    change(&mut b);
    b
}

fn told(said: &Said) -> String {
    match said {
        Said::Merged(m) => {
            let moved = if m.keys_moved { ", equal keys moved" } else { "" };
            let marks: Vec<u32> = m.book.marks().collect();
            let marks = if marks.is_empty() { String::new() } else { format!(", marks of no width at {marks:?}") };
            format!("accepted, region {}..{}, {} layers, counts {:?}{moved}{marks}", m.region.start, m.region.end, m.book.layers(), m.counts)
        }
        // the reason is that of a book of document 01's shape, and these are not
        Said::None(_) => "None".to_owned(),
        Said::OtherText => "another text".to_owned(),
        Said::Panic(words) => format!("panic: {words}"),
    }
}

fn show(name: &str, c: &Case) {
    let ours = Archive::default().merge(c, [1 << 20, 1 << 20, 16384]).map_or_else(|n| n.to_string(), |a| format!("accepted, region {}..{}", a.region[0], a.region[1]));
    let replacement = std::str::from_utf8(&c.replacement).expect("text");
    let said = match (tape::Book::read(&c.tape, &c.bytes), tape::Reading::read(&c.rtape, &c.rbytes)) {
        (Some(b), Some(r)) => told(&judge(&b, c.start as usize..c.end as usize, replacement, &r)),
        _ => "has no such book".to_owned(),
    };
    println!("| {name} | {ours} | {said} |");
}

fn put(name: &str, old: &Book) {
    show(name, &Case::new(old, 4, 5, b"x", &Book::plain(b"xb\n\n")));
}

fn put_reading(name: &str, reading: &Book) {
    show(name, &Case::new(&Book::plain(T), 4, 5, b"x", reading));
}

/// AngleQuotes one in another
fn nest(levels: u8) -> Book {
    let mut segments = vec![Seg { tag: 0, level: 0, body: Body::new(0, 0, &[0]) }];
    segments.extend((0..levels).map(|i| Seg { tag: 3, level: i + 1, body: Body::new(14, 0, &[u32::from(i), 1]) }));
    let contents: Vec<Content> = (0..=u32::from(levels)).map(|i| (1, i, 1)).collect();
    book(b"xb\n\n", &["x"], &contents, segments, vec![node(0, 0, 2, Body::new(14, 0, &[u32::from(levels), 1]))])
}

fn same_input() {
    let ranks = [1, 1, 0, 1, 1, 1, 1, 1, 1, 0, 0, 1, 0, 0, 1, 0, 1, 0, 0, 1, 1, 0, 1, 1, 1, 0, 1, 1, 1, 0, 0, 0, 1];
    let keys = |n: usize| {
        let diagnostics = ranks[..n].iter().enumerate().map(|(i, rank)| Diagnostic { kind: 0, rank: *rank, start: 0, end: 1, plain: i as u32 });
        Book { diagnostics: diagnostics.collect(), ..Book::plain(T) }
    };
    put("33 diagnostics of equal keys", &keys(33));
    least_moved();
    earlier_counts();
    let kanji = Book::plain("漢\n\nb".as_bytes());
    show("edit inside a character", &Case::new(&kanji, 2, 2, b"x", &Book::plain(b"xb\n\n")));
    show("edit start > end", &Case::new(&Book::plain(T), 5, 4, b"x", &Book::plain(b"xb\n\n")));
    show("edit end > length", &Case::new(&Book::plain(T), 4, 11, b"x", &Book::plain(b"xb\n\n")));
    blank_line_lost();
    mark_at_an_empty_region();
}

/// Document 02, wish 5. The first is the smallest: an empty region is at a text's end, behind a newline.
fn mark_at_an_empty_region() {
    for text in ["\n", "aa\n"] {
        let end = text.len() as u32;
        let old = Book { diagnostics: vec![mark(end)], ..Book::plain(text.as_bytes()) };
        show(&format!("mark of no width at an empty region: {text:?}, {end}..{end} with \"x\""), &Case::new(&old, end, end, b"x", &Book::plain(b"x")));
    }
}

/// Document 02, wish 1. The first two are the smallest: a cut inside a text has two newlines before it and a byte behind it.
fn blank_line_lost() {
    let put = |text: &str, start, end, new: &str, reading: &str| {
        show(&format!("blank line lost: {text:?}, {start}..{end} with {new:?}, {reading:?}"), &Case::new(&Book::plain(text.as_bytes()), start, end, new.as_bytes(), &Book::plain(reading.as_bytes())));
    };
    put("\n\nb", 0, 1, "", "\n");
    put("\n\n\nb", 0, 1, "", "\n");
    put("\n\n\nb", 0, 1, "", "\n\n");
    put("aa\n\nbb", 2, 3, "x", "aax\n");
    for (start, end, new, reading, longer) in [(2, 3, "x", "aax\n", "aax\nbb\n\n"), (2, 3, "", "aa\n", "aa\nbb\n\n"), (3, 3, "x", "aa\nx\n", "aa\nx\nbb\n\n")] {
        put("aa\n\nbb\n\ncc", start, end, new, reading);
        put("aa\n\nbb\n\ncc", start, end, new, longer);
    }
}

/// The fewest diagnostics, of random ranks 0 and 1 at one place, whose equal keys the Rust moves.
fn least_moved() {
    let mut r = Rng::new(1, 1);
    let reading = Book::plain(b"xb\n\n");
    let reading = tape::Reading::read(&reading.tape(), &reading.bytes()).expect("a text");
    let moved = |n: usize, r: &mut Rng| {
        let diagnostics = (0..n).map(|i| Diagnostic { kind: 0, rank: r.below(2) as u32, start: 0, end: 1, plain: i as u32 }).collect();
        let b = Book { diagnostics, ..Book::plain(T) };
        let b = tape::Book::read(&b.tape(), &b.bytes()).expect("T");
        matches!(judge(&b, 4..5, "x", &reading), Said::Merged(m) if m.keys_moved)
    };
    let least = (2..60).find(|n| (0..2000).any(|_| moved(*n, &mut r)));
    println!("| the fewest that it moves, of 2000 lists each | | {least:?} |");
}

/// P5, and then a reading without nodes into the book that the Rust made.
fn earlier_counts() {
    let (old, first) = (Book::plain(T), reading());
    let b = tape::Book::read(&old.tape(), &old.bytes()).expect("T");
    let r = tape::Reading::read(&first.tape(), &first.bytes()).expect("P5");
    let Said::Merged(m) = judge(&b, 4..5, "x", &r) else { panic!("P5 is accepted") };
    let plain = Book::plain(b"yy");
    let r = tape::Reading::read(&plain.tape(), &plain.bytes()).expect("a text");
    println!("| a merged book and a reading without nodes | accepted, counts 0 | {} |", told(&judge(&m.book, 8..10, "yy", &r)));
}

fn pools() {
    put("no layer", &Book { layers: vec![], ..Book::plain(T) });
    put_reading("reading with two layers", &with(reading(), |b| b.layers.push(Layer::default())));
    put("33 layers", &Book { layers: vec![Layer::default(); 33], ..Book::plain(T) });
    put_reading("id outside, grafted", &with(reading(), |b| b.layers[0].strings.truncate(1)));
    put("id outside, compared", &book(T, &["a"], &[(0, 9, 0)], vec![], vec![ruby([0, 1, 0, 0])]));
    put("id outside, not used", &book(T, &["a"], &[], vec![], vec![node(0, 0, 2, Body::new(12, 0, &[9]))]));
    put("range outside, compared", &book(T, &["a"], &[(0, 0, 0)], vec![], vec![ruby([0, 2, 0, 0])]));
    put("range of length 0 past its pool, compared", &book(T, &["a"], &[(0, 0, 0)], vec![], vec![ruby([5, 0, 0, 0])]));
    let above = |b: &mut Book| b.layers.push(Layer { contents: vec![(0, 0, 0)], ..Layer::default() });
    put("range across layers, compared", &with(book(T, &["a"], &[(0, 0, 0)], vec![], vec![ruby([0, 2, 0, 0])]), above));
    put("range across layers, not compared", &with(book(T, &["a"], &[(0, 0, 0)], vec![], vec![node(0, 0, 2, Body::new(14, 0, &[0, 2]))]), above));
    put_reading("33 levels", &nest(33));
    put_reading("32 levels", &nest(32));
}

fn places() {
    put("node with an empty span", &with(book(T, &[], &[], vec![], vec![page(0, 2)]), |b| b.nodes[0].end = 0));
    put("node that ends before it starts", &with(book(T, &[], &[], vec![], vec![page(1, 2)]), |b| b.nodes[0].end = 0));
    put("nodes that overlap", &with(book(T, &[], &[], vec![], vec![page(0, 2), page(2, 3)]), |b| b.nodes[1].start = 1));
    put("nodes out of order", &with(book(T, &[], &[], vec![], vec![page(0, 1), page(8, 9)]), |b| b.nodes.swap(0, 1)));
    put("node past the text", &with(book(T, &[], &[], vec![], vec![page(8, 10)]), |b| b.nodes[0].end = 99));
    let behind = with(book(T, &[], &[], vec![], vec![page(8, 10)]), |b| b.nodes[0].offset = 0);
    show("offset outside the image, behind the region", &Case::new(&behind, 4, 5, b"", &Book::plain(b"b\n\n")));
    put_reading("offset 4294967295 in a reading", &with(book(b"xb\n\n", &[], &[], vec![], vec![page(0, 1)]), |b| b.nodes[0].offset = NONE));
    put("pair past the text", &Book { pairs: vec![Pair { kind: 0, at: [90, 91, 92, 93] }], ..Book::plain(T) });
    put("container that closes before it opens", &Book { containers: vec![Container { plain: 0, open: 9, close: 3 }], ..Book::plain(T) });
    put("diagnostic that ends before it starts", &Book { diagnostics: vec![Diagnostic { kind: 0, rank: 0, start: 9, end: 5, plain: 0 }], ..Book::plain(T) });
    put("mark past the text", &Book { diagnostics: vec![mark(11)], ..Book::plain(T) });
    put("normalized text of one byte more", &with(Book::plain(T), |b| b.norm.push(b'a')));
    put("normalized text \"aa\"", &with(Book::plain(T), |b| b.norm.truncate(2)));
    show("32 layers and a reading with nodes", &Case::new(&Book { layers: vec![Layer::default(); 32], ..Book::plain(T) }, 4, 5, b"x", &reading()));
}

pub fn all() {
    println!("| input | ours | the Rust |\n|---|---|---|");
    same_input();
    pools();
    places();
}
