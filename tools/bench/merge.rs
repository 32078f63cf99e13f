// Times the merge, tape to tape, through the C entry. Books of 1,000 to 100,000 nodes with a correction in the middle; readings of 100 to
// 100,000 grafted items (contents and segments) into a small book, beside check_reading of the same reading, which is a part of it; a
// reading of 1.5 kB that stands for 2^33 items; and diagnostics in falling order. Result buffers are not cleared between calls: the entry does that.
use std::time::Instant;

include!("archive.rs");
include!("book.rs");

fn room(b: &Tape, r: &Tape) -> Buffers { Buffers::new(b.0.len() + 2 * r.0.len() + 4096, b.1.len() + 2 * r.1.len() + 4096) }

fn paragraph(b: &mut Book) { b.put("青空文庫の本を読む"); b.ruby("人", "ひと"); b.put("は多い。\n\n"); }

// a correction in the middle paragraph of n, each with one Ruby
fn book_of(n: usize) {
    let mut b = Book::default();
    let mut at = 0;
    for i in 0..n { if i == n / 2 { at = b.text.len(); } paragraph(&mut b); }
    let mut r = Book::default();
    r.put("x");
    paragraph(&mut r);
    let (b, r) = (b.done(), r.done());
    let mut o = room(&b, &r);
    let a = merge(&b, (at, at), b"x", &r, &mut o);
    assert_eq!((a.number, a.reused as usize, a.reread), (0, n - 1, 1));
    let (c, cm) = times(|| { std::hint::black_box(check_book(&b)); });
    let (m, mm) = times(|| { std::hint::black_box(merge(&b, (at, at), b"x", &r, &mut o)); });
    println!("merge: book of {n:6} nodes, {:8} bytes: best {:9.1} us, median {:9.1} us, {:.1} ns a node (check_book of it {:.1} us, {:.1} us)",
        b.0.len() + b.1.len(), m * 1e6, mm * 1e6, m * 1e9 / n as f64, c * 1e6, cm * 1e6);
}

// A reading of n Rubies: the base is a text and a Ruby of level 1. Six items each: four contents, two segments. 1,000 strings at most.
fn rubies_of(n: usize) -> Tape {
    let mut r = Book::default();
    let ids: Vec<u32> = (0..n.min(1000)).map(|i| r.string(&format!("語{i}"))).collect();
    let id = |i: usize| ids[i % ids.len()];
    for i in 0..n {
        let k = i as u32;
        r.content(1, 2 * k, 2);
        r.content(0, id(i), 0);
        r.content(0, id(i + 1), 0);
        r.content(0, id(i + 2), 0);
        r.segment(0, 0, 0, [id(i + 3), 0, 0, 0, 0, 0]);
        r.segment(3, 1, 1, [4 * k + 2, 1, 4 * k + 3, 1, 0, 0]);
        r.node("人", 1, 0, [4 * k, 1, 4 * k + 1, 1, 0, 0]);
    }
    r.put("\n\n");
    r.done()
}

fn small_book() -> Tape { let mut b = Book::default(); b.put("前\n\n中\n\n後\n\n"); b.done() }

fn graft_of(n: usize) {
    let (b, r) = (small_book(), rubies_of(n));
    let replacement = &r.1[..3 * n];
    let mut o = room(&b, &r);
    let a = merge(&b, (5, 8), replacement, &r, &mut o);
    assert_eq!((a.number, a.reread as usize), (0, n));
    let (c, cm) = times(|| { std::hint::black_box(check_reading(&r)); });
    let (m, mm) = times(|| { std::hint::black_box(merge(&b, (5, 8), replacement, &r, &mut o)); });
    let items = 6.0 * n as f64;
    println!("graft: {items:6} items in {n:5} nodes: best {:9.1} us, median {:9.1} us, {:.1} and {:.1} ns an item (check_reading of it {:.1} us, {:.1} us; without it {:.1} ns an item)",
        m * 1e6, mm * 1e6, m * 1e9 / items, mm * 1e9 / items, c * 1e6, cm * 1e6, (m - c) * 1e9 / items);
}

// 32 Rubies one in the other, each naming the next twice: 2^33 contents
fn shared() {
    let mut r = Book::default();
    let s = r.string("語");
    r.content(0, s, 0);
    for level in 1..=32u8 {
        let below = 2 * (level as u32 - 1);
        // the base and the reading both name the contents of the level below
        let (first, count) = if level == 1 { (0, 1) } else { (below - 1, 2) };
        r.segment(3, level, 1, [first, count, first, count, 0, 0]);
        r.content(1, level as u32 - 1, 1);
        r.content(1, level as u32 - 1, 1);
    }
    r.node("人", 1, 0, [63, 2, 63, 2, 0, 0]);
    r.put("\n\n");
    let (b, r) = (small_book(), r.done());
    let mut o = Buffers::new(1 << 25, 1 << 20);
    let a = merge(&b, (5, 8), "人".as_bytes(), &r, &mut o);
    assert_eq!(a.number, 18);
    let mut o = Buffers::new(1 << 16, 1 << 16);
    let (m, mm) = times(|| { std::hint::black_box(merge(&b, (5, 8), "人".as_bytes(), &r, &mut o)); });
    println!("merge: a reading of {} bytes that stands for 2^33 contents: number {}, best {:.1} us, median {:.1} us", r.0.len() + r.1.len(), a.number, m * 1e6, mm * 1e6);
}

// 262,142 diagnostics, in the order in which they lie in the text or the other way round
fn diagnosed(falling: bool) {
    let mut b = Book::default();
    b.put("中\n\n");
    let n = 262142usize;
    let start = b.text.len();
    b.put(&"a".repeat(n));
    b.put("\n\n");
    for i in 0..n {
        let p = start + if falling { n - 1 - i } else { i };
        b.diagnostic(p, p + 1);
    }
    let b = b.done();
    let mut r = Book::default();
    r.put("x中\n\n");
    let r = r.done();
    let mut o = room(&b, &r);
    let a = merge(&b, (0, 0), b"x", &r, &mut o);
    assert_eq!(a.number, 0);
    let t = Instant::now();
    merge(&b, (0, 0), b"x", &r, &mut o);
    println!("merge: {n} diagnostics, {}: {:.1} ms, one call", if falling { "in falling order" } else { "in order" }, t.elapsed().as_secs_f64() * 1e3);
}

fn main() {
    for n in [1000, 10000, 100000] { book_of(n); }
    for n in [17, 167, 1667, 16667] { graft_of(n); }
    shared();
    diagnosed(false);
    diagnosed(true);
}
