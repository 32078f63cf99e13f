//! Every short text over "a", a newline and "あ", every edit; and every place for one or two records in a few texts. The Rust alone is the judge, but for
//! an edit inside a character or one that ends before it starts (8), for one that takes away the blank line at the end of the Rust's region (doc01.rs), and
//! for a mark of no width at an empty region (14, doc01.rs).
use crate::book::*;
use crate::books::boundaries;
use crate::run::Compare;
use oracle::tape;

fn texts(length: usize) -> Vec<String> {
    let mut all = vec![String::new()];
    let mut first = 0;
    for _ in 0..length {
        let last = all.len();
        for i in first..last {
            all.extend(["a", "\n", "あ"].map(|c| format!("{}{c}", all[i])));
        }
        first = last;
    }
    all
}

const NEW: [&str; 6] = ["", "a", "\n", "あ", "\n\n", "a\n"];

/// The second keeps the blank line at the first cut behind the edit, so that the Rust judges it.
const FEW: [&str; 2] = ["x", "x\n"];

/// What a reading of this text is.
type Read = fn(&[u8]) -> Book;

/// The merge of a reading, where there is a region.
fn merge(compare: &mut Compare, class: &'static str, book: &tape::Book, c: &mut Case, (region, left): ([u32; 2], bool), read: Read) {
    let (start, end) = (c.start as usize, c.end as usize);
    let text = book.text().as_bytes();
    let new = [&text[..start], &c.replacement, &text[end..]].concat();
    let reading = read(&new[region[0] as usize..region[1] as usize + new.len() - text.len()]);
    (c.rtape, c.rbytes) = (reading.tape(), reading.bytes());
    compare.merge(class, c, book, [c.tape.len() + c.rtape.len(), 2 * new.len() + c.bytes.len() + c.rbytes.len(), 16384], left);
}

/// Every edit of a book: regions, and merges if there are readings.
fn edits(compare: &mut Compare, classes: [&'static str; 2], old: &Book, marks: &[usize], new: &[&str], read: Option<Read>) {
    let mut c = Case::new(old, 0, 0, b"", &Book::plain(b""));
    let book = tape::Book::read(&c.tape, &c.bytes).expect("a short book");
    for (i, start) in marks.iter().enumerate() {
        for end in &marks[i.saturating_sub(1)..] {
            for s in new {
                (c.start, c.end, c.replacement) = (*start as u32, *end as u32, s.as_bytes().to_vec());
                let region = compare.region(classes[0], &c, &book, (start * 7 + end) % 40);
                if let (Some(region), Some(read)) = (region, read) {
                    merge(compare, classes[1], &book, &mut c, region, read);
                }
            }
        }
    }
}

fn node(class: u8, inline: u8, start: usize, end: usize, body: Body) -> Node {
    Node { class, inline, start: start as u32, end: end as u32, offset: 0, body }
}

/// A PageBreak inline and as a leaf, both opens, both closes, a warichu opened and closed.
fn sorts(start: usize, end: usize) -> Vec<Node> {
    let mark = |tag| Body::new(13, tag, &[0]);
    let at = |class, inline, body| node(class, inline, start, end, body);
    let block = Body::default;
    vec![
        at(0, 0, Body::new(5, 0, &[])),
        at(1, 0, Body::new(5, 0, &[])),
        at(2, 0, block()),
        at(2, 1, block()),
        at(3, 0, block()),
        at(3, 1, block()),
        at(0, 0, mark(4)),
        at(0, 0, mark(5)),
        at(1, 0, mark(4)),
    ]
}

fn with_nodes(text: &[u8], nodes: Vec<Node>) -> Book {
    let mut b = Book { nodes, ..Book::plain(text) };
    b.layers[0].strings.push(b"w".to_vec());
    b.lay();
    b
}

fn spans(marks: &[usize]) -> impl Iterator<Item = (usize, usize)> + '_ {
    marks.iter().flat_map(|a| marks.iter().filter(move |b| *b > a).map(move |b| (*a, *b)))
}

pub fn all(compare: &mut Compare, length: usize) {
    let classes = ["short texts, regions", "short texts, merges"];
    for text in texts(length) {
        let every: Vec<usize> = (0..=text.len()).collect();
        edits(compare, classes, &Book::plain(text.as_bytes()), &every, &NEW, Some(Book::plain));
    }
    one_record(compare, length - 2);
    two_marks(compare, length.saturating_sub(3));
    two_nodes(compare);
    records_across_regions(compare);
    dependencies(compare);
    mark_before_dependency(compare);
}

/// One node or one pair anywhere in a short text.
fn one_record(compare: &mut Compare, length: usize) {
    let classes = ["short texts with one node", ""];
    for text in texts(length).iter().map(String::as_bytes) {
        let marks = boundaries(text);
        for (start, end) in spans(&marks) {
            for n in sorts(start, end) {
                edits(compare, classes, &with_nodes(text, vec![n]), &marks, &FEW, None);
            }
        }
        for ((a, b), (c, d)) in spans(&marks).flat_map(|x| spans(&marks).map(move |y| (x, y))).filter(|(x, y)| x.1 <= y.0) {
            let pairs = vec![Pair { kind: 0, at: [a, b, c, d].map(|n| n as u32) }];
            edits(compare, ["short texts with one pair", ""], &Book { pairs, ..Book::plain(text) }, &marks, &FEW, None);
        }
    }
}

/// Marks of no width and one rank, told apart by their plain words.
fn with_marks(text: &[u8], kind: u8, first: u32, places: &[usize]) -> Book {
    let mark = |(i, at): (usize, &usize)| Diagnostic { kind, rank: 1, start: *at as u32, end: *at as u32, plain: first + i as u32 };
    Book { diagnostics: places.iter().enumerate().map(mark).collect(), ..Book::plain(text) }
}

/// A reading with marks at both ends, the later one first.
fn marked_at_ends(text: &[u8]) -> Book {
    with_marks(text, 4, 10, &[text.len(), 0])
}

/// Merges of short texts with every two marks, the later one first; all keys of a place are equal. A mark of the old book may be of any kind.
fn two_marks(compare: &mut Compare, length: usize) {
    let classes = ["short texts with two marks, regions", "short texts with two marks, merges"];
    for text in texts(length).iter().map(String::as_bytes) {
        let marks = boundaries(text);
        for (i, first) in marks.iter().enumerate() {
            for last in &marks[i..] {
                edits(compare, classes, &with_marks(text, 2, 0, &[*last, *first]), &marks, &NEW, Some(marked_at_ends));
            }
        }
    }
}

const FOUR: &[u8] = b"a\n\na\n\na\n\na";

/// Two one-byte nodes of every two sorts anywhere in four passages.
fn two_nodes(compare: &mut Compare) {
    let marks: Vec<usize> = (0..=FOUR.len()).collect();
    for (i, j) in spans(&marks[..FOUR.len()]) {
        for a in sorts(i, i + 1) {
            for b in sorts(j, j + 1) {
                edits(compare, ["two nodes in four passages", ""], &with_nodes(FOUR, vec![a.clone(), b]), &marks, &FEW, None);
            }
        }
    }
}

/// Merges of four passages with one node, pair, container, diagnostic or mark of no width anywhere.
fn records_across_regions(compare: &mut Compare) {
    let classes = ["one record in four passages, regions", "one record in four passages, merges"];
    let marks: Vec<usize> = (0..=FOUR.len()).collect();
    let new = ["x", "", "\n", "x\n"];
    for at in &marks {
        edits(compare, classes, &with_marks(FOUR, 3, 0, &[*at]), &marks, &new, Some(marked_at_ends));
    }
    for (start, end) in spans(&marks) {
        let at = [start, end].map(|n| n as u32);
        for n in sorts(start, end) {
            edits(compare, classes, &with_nodes(FOUR, vec![n]), &marks, &new, Some(Book::plain));
        }
        if end < FOUR.len() {
            let containers = vec![Container { plain: NONE, open: at[0], close: at[1] }];
            edits(compare, classes, &Book { containers, ..Book::plain(FOUR) }, &marks, &new, Some(Book::plain));
        }
        let diagnostics = vec![Diagnostic { kind: 4, rank: 1, start: at[0], end: at[1], plain: NONE }];
        edits(compare, classes, &Book { diagnostics, ..Book::plain(FOUR) }, &marks, &new, Some(Book::plain));
        if start + 1 < end {
            let pairs = vec![Pair { kind: 4, at: [at[0], at[0] + 1, at[1] - 1, at[1]] }];
            edits(compare, classes, &Book { pairs, ..Book::plain(FOUR) }, &marks, &new, Some(Book::plain));
        }
    }
}

/// A Ruby or a Referenced Format of "a"; the first content is "a".
fn linked(text: &[u8], nodes: &[(u8, usize, usize)]) -> Book {
    let body = |kind: u8| if kind == 1 { Body::new(1, 0, &[0, 1, 0, 0]) } else { Body::new(2, 4, &[0, 1]) };
    let mut b = with_nodes(text, nodes.iter().map(|(kind, start, end)| node(0, 0, *start, *end, body(*kind))).collect());
    b.layers[0] = Layer { strings: vec![b"a".to_vec()], contents: vec![(0, 0, 0)], segments: vec![] };
    b
}

fn ruby_first(text: &[u8]) -> Book {
    linked(text, if text.is_empty() { &[] } else { &[(1, 0, 1)] })
}

fn format_first(text: &[u8]) -> Book {
    linked(text, if text.is_empty() { &[] } else { &[(2, 0, 1)] })
}

/// 10: a Ruby and a Format of one string anywhere. 15: one of them anywhere, the other in the reading.
fn dependencies(compare: &mut Compare) {
    let marks: Vec<usize> = (0..=FOUR.len()).collect();
    for (i, j) in spans(&marks) {
        for (k, l) in spans(&marks).filter(|x| x.0 >= j) {
            for (first, second) in [(1, 2), (2, 1)] {
                edits(compare, ["a Ruby and a Format in four passages", ""], &linked(FOUR, &[(first, i, j), (second, k, l)]), &marks, &FEW, None);
            }
        }
        let classes = ["a Ruby or a Format, regions", "a Ruby or a Format, the other in the reading"];
        for (kind, read) in [(1, format_first as Read), (2, ruby_first), (1, ruby_first), (2, format_first)] {
            edits(compare, classes, &linked(FOUR, &[(kind, i, j)]), &marks, &FEW, Some(read));
        }
    }
}

/// 14 before 15: a Ruby and a mark of no width anywhere in a text that ends with a newline, a Format of the Ruby's string in the reading.
fn mark_before_dependency(compare: &mut Compare) {
    let classes = ["a Ruby and a mark, regions", "a Ruby and a mark, a Format in the reading"];
    let text = b"a\n\na\n";
    let marks: Vec<usize> = (0..=text.len()).collect();
    for (start, end) in spans(&marks) {
        for at in &marks {
            let diagnostics = with_marks(text, 4, 0, &[*at]).diagnostics;
            edits(compare, classes, &Book { diagnostics, ..linked(text, &[(1, start, end)]) }, &marks, &FEW, Some(format_first));
        }
    }
}
