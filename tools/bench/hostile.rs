// Books made to be slow: books that are accepted and on which a step of ours is quadratic or worse if it is
// written without care. Each is called at doubling sizes, up to about 4 MB of tape and bytes; the exponent says how the time grows.
use std::cell::RefCell;
use std::rc::Rc;

const FOUR_MB: usize = 4_000_000;
const MAX_POOL: usize = 1_048_575;
const MAX_LIST: usize = 262_143;
const MAX_TEXT: usize = 16_777_215;

// the entry that is timed
#[derive(Clone, Copy, PartialEq)]
enum Timed { Check, Region, Merge, Price, Flat }

// `shared`: bytes of records that runs named more than once add to the result
struct Hostile { book: Tape, edit: (usize, usize), reading: Tape, shared: usize }

// `most` is the n at which a limit of document 01 is met. `make` is given n.
struct Shape { name: &'static str, timed: Timed, words: &'static [usize], most: usize, make: Box<dyn Fn(usize) -> Hostile> }

// ---- strings

const FX_PRIME: u64 = 0x517c_c1b7_2722_0a95;

fn fx_hash(start: u64, bytes: &[u8]) -> u64 { bytes.iter().fold(start, |h, b| (h.rotate_left(5) ^ *b as u64).wrapping_mul(FX_PRIME)) }

// Unlike strings of one length whose keys have something in common. The last byte is looked for; where a string has none that does, the next is tried.
struct Crowd { start: &'static str, wanted: fn(u64) -> bool, found: Vec<String>, tried: u64 }

// Crowds a Bloom filter of any size: both words of a key (crates/bloom: its bits 32 to 63 and 16 to 47, by their share of the words) are among the
// first 256th of them.
fn crowds_filter(key: u64) -> bool { key >> 56 == 0 && key >> 40 & 255 == 0 }

// the same slot of the interner's table, whatever its size
fn one_slot(hash: u64) -> bool { hash & 4095 == 0 }

impl Crowd {
    // What numbers 10 and 15 know a string by (crates/dependency): its hash, or of more than 64 bytes the hashes of its ends and its length. Answers
    // what is added to the hash that the middle and the last byte go into, and that hash.
    fn begin(&self) -> (u64, u64) {
        let (start, length) = (self.start.as_bytes(), self.start.len() + 7);
        if length <= 64 { return (0, fx_hash(0, start)); }
        (fx_hash(0, &start[..32]).wrapping_add(length as u64), fx_hash(0, &start[length - 32..]))
    }

    fn first(&mut self, n: usize) -> &[String] {
        let (added, start) = self.begin();
        while self.found.len() < n {
            let middle: [u8; 6] = core::array::from_fn(|i| b'0' + (self.tried >> (6 * i) & 63) as u8);
            self.tried += 1;
            let h = fx_hash(start, &middle);
            let Some(last) = (0..128).find(|b| (self.wanted)(added.wrapping_add(fx_hash(h, &[*b])))) else { continue };
            self.found.push(format!("{}{}{}", self.start, core::str::from_utf8(&middle).unwrap(), last as char));
        }
        &self.found[..n]
    }
}

// kept from one size to the next
fn crowd(start: &'static str, wanted: fn(u64) -> bool) -> impl Fn(usize) -> Vec<String> {
    let made = RefCell::new(Crowd { start, wanted, found: Vec::new(), tried: 0 });
    move |n| made.borrow_mut().first(n).to_vec()
}

fn unlike(n: usize) -> Vec<String> { (0..n).map(|i| format!("{i:08}")).collect() }

// ---- books

// a book whose first line is corrected, and the reading of that line
fn first_line(b: &Book) -> Hostile {
    let mut r = Book::default();
    r.put("x\n\n");
    Hostile { book: b.done(), edit: (0, 1), reading: r.done(), shared: 0 }
}

fn pools(fill: impl FnOnce(&mut Book)) -> Hostile {
    let mut b = Book::default();
    b.put("a\n\nb");
    b.string("x");
    fill(&mut b);
    first_line(&b)
}

fn texts(b: &mut Book, n: usize) { for _ in 0..n { b.segment(0, 0, 0, [0; 6]); } }

// numbers that look random, the same in each run
struct Random(u64);
impl Random {
    fn below(&mut self, n: u32) -> u32 {
        self.0 ^= self.0 << 13;
        self.0 ^= self.0 >> 7;
        self.0 ^= self.0 << 17;
        (self.0 >> 33) as u32 % n
    }
}

// n MarginNotes, each with all of n contents as its base and as its note, each content all of n text segments
fn margin_notes(n: usize) -> Hostile {
    pools(|b| {
        let m = n as u32;
        for _ in 0..n { b.content(1, 0, m); }
        texts(b, n);
        for _ in 0..n { b.segment(3, 1, 15, [0, m, 0, m, 0, 0]); }
    })
}

fn ruby_runs(n: usize) -> Hostile {
    pools(|b| {
        for _ in 0..n { b.content(0, 0, 0); }
        for _ in 0..n { b.segment(3, 1, 1, [0, n as u32, 0, 0, 0, 0]); }
    })
}

fn captions(n: usize) -> Hostile {
    pools(|b| {
        texts(b, n);
        for _ in 0..n {
            let at = b.segments.len();
            b.segment(3, 1, 11, [0, u32::MAX, u32::MAX, u32::MAX, 0, n as u32]);
            b.segments[at + 4] = 2;
        }
    })
}

// Runs that begin and end somewhere in the first and the last 64. The first and the last item of each pool have level 32 and are in no run, so that
// the greatest level of a block of items says nothing about the part of the block that is in a run.
fn edges(n: usize) -> Hostile {
    pools(|b| {
        let (mut random, m) = (Random(88172645463325252), n as u32);
        let mut run = || { let (start, end) = (1 + random.below(63), m - 1 - random.below(63)); [start, end - start] };
        b.content(1, 0, 1);
        for _ in 2..n { let [start, len] = run(); b.content(1, start, len); }
        b.content(1, m - 1, 1);
        b.segment(3, 32, 1, [0; 6]);
        texts(b, n - 2);
        b.segment(3, 32, 1, [0; 6]);
        for _ in 0..n { let ([s, l], [t, k]) = (run(), run()); b.segment(3, 1, 1, [s, l, t, k, 0, 0]); }
    })
}

fn short_runs(n: usize) -> Hostile {
    pools(|b| {
        for _ in 0..n { b.content(1, 0, 128); }
        texts(b, 128);
        for i in 0..n - 256 { b.segment(3, 1, 1, [i as u32, 128, i as u32 + 64, 128, 0, 0]); }
    })
}

// n Rubies, then n Formats: the strings are n bases and n targets
fn dependency(strings: &[String]) -> Hostile {
    let (bases, targets) = strings.split_at(strings.len() / 2);
    let mut b = Book::default();
    b.put("a\n\n");
    for s in bases { let words = [b.plain(s), 1, 0, 0, 0, 0]; b.node("r", 1, 0, words); }
    for s in targets { b.format("f", s); }
    b.put("\n\nb");
    first_line(&b)
}

// k long strings, alike at both ends and of one length, of some bytes together
fn alike(k: usize, bytes: usize) -> Vec<String> {
    (0..k).map(|i| { let half = "s".repeat(bytes / k / 2); format!("{half}{i:04}{half}") }).collect()
}

// n Rubies and n Formats that name k long bases and k long targets in turn; the strings have as many bytes as the nodes
fn long_strings(n: usize, k: usize) -> Hostile {
    let mut b = Book::default();
    let named: Vec<u32> = alike(2 * k, 106 * n).iter().map(|s| b.plain(s)).collect();
    b.put("a\n\n");
    for i in 0..n { b.node("r", 1, 0, [named[i % k], 1, 0, 0, 0, 0]); b.node("f", 2, 4, [named[k + i % k], 1, 0, 0, 0, 0]); }
    b.put("\n\nb");
    first_line(&b)
}

// a long base and a long target that is like it but for its end; then n times a base of a line and the target again
fn long_and_short(n: usize) -> Hostile {
    let mut b = Book::default();
    let named: Vec<u32> = alike(2, 400 * n).iter().map(|s| b.plain(s)).collect();
    b.put("a\n\n");
    b.node("r", 1, 0, [named[0], 1, 0, 0, 0, 0]);
    for i in 0..n {
        let line = b.plain(&(format!("{i:06}") + &"s".repeat(500)));
        b.node("r", 1, 0, [line, 1, 0, 0, 0, 0]);
        b.node("f", 2, 4, [named[1], 1, 0, 0, 0, 0]);
    }
    b.put("\n\nb");
    first_line(&b)
}

// n Rubies in the book, n Formats in the reading, with long strings in turn
fn long_introduced(n: usize, k: usize) -> Hostile {
    let strings = alike(2 * k, 106 * n);
    let (mut b, mut r) = (Book::default(), Book::default());
    let bases: Vec<u32> = strings[..k].iter().map(|s| b.plain(s)).collect();
    for i in 0..n { b.node("r", 1, 0, [bases[i % k], 1, 0, 0, 0, 0]); }
    b.put("\n\n");
    let at = b.text.len();
    b.put("a");
    b.put(&"f".repeat(n));
    b.put("\n\n");
    r.put("x");
    let targets: Vec<u32> = strings[k..].iter().map(|s| r.plain(s)).collect();
    for i in 0..n { r.node("f", 2, 4, [targets[i % k], 1, 0, 0, 0, 0]); }
    r.put("\n\n");
    Hostile { book: b.done(), edit: (at, at + 1), reading: r.done(), shared: 0 }
}

// a line of text, and a reading of it with one AngleQuote over its contents from `first` on
fn grafted_from(mut r: Book, first: u32) -> Hostile {
    let mut b = Book::default();
    b.put("ay\n\nb");
    r.put("x");
    let contents = r.contents.len() as u32 / 10;
    r.node("y", 14, 0, [first, contents - first, 0, 0, 0, 0]);
    r.put("\n\n");
    Hostile { book: b.done(), edit: (0, 1), reading: r.done(), shared: 0 }
}

fn grafted(r: Book) -> Hostile { grafted_from(r, 0) }

// n contents that name two equal long strings in turn
fn long_again(n: usize) -> Hostile {
    let mut r = Book::default();
    let ids = [0, 1].map(|_| r.string(&"s".repeat(5 * n)));
    for i in 0..n { r.content(0, ids[i % 2], 0); }
    grafted(r)
}

// strings of one slot, as many as a layer may have; then n contents that name the last and the first of them in turn
fn probed(strings: &[String], n: usize) -> Hostile {
    let mut r = Book::default();
    for s in strings { r.plain(s); }
    for i in 0..n { r.content(0, if i % 2 == 0 { 0 } else { strings.len() as u32 - 1 }, 0); }
    grafted(r)
}

// A line of text, and a reading of it in which Rubies share the run of all contents, so that about a million of them are grafted.
fn shared(mut r: Book) -> Hostile {
    let mut b = Book::default();
    b.put("ay\n\nb");
    r.put("x");
    let run = r.contents.len() as u32 / 10;
    let rubies = MAX_POOL as u32 / (2 * run) - 1;
    for _ in 0..rubies { r.segment(3, 1, 1, [0, run, 0, run, 0, 0]); }
    r.content(1, 0, rubies);
    r.node("y", 14, 0, [run, 1, 0, 0, 0, 0]);
    r.put("\n\n");
    Hostile { book: b.done(), edit: (0, 1), reading: r.done(), shared: 10 * MAX_POOL }
}

// n equal strings of a kilobyte, named in turn, a million times
fn long_shared(n: usize) -> Hostile {
    let mut r = Book::default();
    for _ in 0..n { let id = r.string(&"s".repeat(1100)); r.content(0, id, 0); }
    shared(r)
}

// a million names of strings of one slot, by a run of n contents: those that stand farthest from it, in turn
fn probed_shared(strings: &[String], n: usize) -> Hostile {
    let mut r = Book::default();
    for s in strings { r.plain(s); }
    for i in 0..n { r.content(0, (strings.len() - 1 - i * 7 % 1000) as u32, 0); }
    shared(r)
}

// n trees whose runs are shared, with as many levels as the pools have room for when they are grafted
fn trees(n: usize, sharing: Sharing) -> Hostile {
    let levels = (1..32).take_while(|l| 2 * n as u64 * texts_of(sharing, *l) <= MAX_POOL as u64).count();
    let mut r = Book::default();
    let tops: Vec<u32> = (0..n).map(|_| tree(&mut r, sharing, levels as u8)).collect();
    let first = r.contents.len() as u32 / 10;
    for s in tops { r.content(1, s, 1); }
    grafted_from(r, first)
}

// n AngleQuotes on each of 32 levels, so that more runs are shared than a table of any fixed size holds: 2^32 texts
fn crowded_levels(n: usize) -> Hostile {
    let mut r = Book::default();
    let inner = tree(&mut r, Sharing::Turn(n as u32), 32);
    let top = r.content(1, inner, 1);
    grafted_from(r, top)
}

// n AngleQuotes, unlike their neighbours, over n of n + 1 contents: strings, or runs of one segment each
fn one_run(n: usize, strings: bool) -> Hostile {
    let (mut r, m) = (Book::default(), n as u32);
    for s in ["語", "句"] { r.string(s); }
    for i in 0..=m { if strings { r.content(0, i % 2, 0); } else { r.content(1, i, 1); r.segment(3, 1, 5, [0; 6]); } }
    let first = r.segments.len() as u32 / 37;
    for i in 0..m { r.segment(3, 2, 14, [i % 2, m, 0, 0, 0, 0]); }
    let top = r.content(1, first, m);
    grafted_from(r, top)
}

// ---- flattening

// n strings, 3,500 unlike ones; a content for each, those that stand next to each other naming strings that are far apart
fn far_strings(b: &mut Book, n: usize) {
    const APART: usize = 7919;
    for i in 0..n { b.string(&format!("{:x}", i % 3500)); }
    for i in 0..n { b.content(0, (i * APART % n) as u32, 0); }
}

// a book with one AngleQuote over n contents
fn far_named(n: usize) -> Hostile {
    let mut b = Book::default();
    far_strings(&mut b, n);
    b.node("y", 14, 0, [0, n as u32, 0, 0, 0, 0]);
    Hostile { book: b.done(), edit: (0, 0), reading: (Vec::new(), Vec::new()), shared: 0 }
}

// what would be read is what is flattened
fn as_book(h: Hostile) -> Hostile { Hostile { book: h.reading, reading: (Vec::new(), Vec::new()), shared: 47 * MAX_POOL, ..h } }

fn far_shared(n: usize) -> Hostile {
    let mut r = Book::default();
    far_strings(&mut r, n);
    as_book(shared(r))
}

// n Rubies in the book, n Formats in the reading
fn introduced(strings: &[String]) -> Hostile {
    let (bases, targets) = strings.split_at(strings.len() / 2);
    let (mut b, mut r) = (Book::default(), Book::default());
    for s in bases { let words = [b.plain(s), 1, 0, 0, 0, 0]; b.node("r", 1, 0, words); }
    b.put("\n\n");
    let at = b.text.len();
    b.put("a");
    b.put(&"f".repeat(targets.len()));
    b.put("\n\n");
    r.put("x");
    for s in targets { r.format("f", s); }
    r.put("\n\n");
    Hostile { book: b.done(), edit: (at, at + 1), reading: r.done(), shared: 0 }
}

// A safe cut at one end of the book, n brackets over gaps behind it or in front of it, and the edit at the other end.
fn bracketed(front: bool, fill: impl FnOnce(&mut Book)) -> Hostile {
    let mut b = Book::default();
    b.put("a\n\n");
    let first = b.text.len();
    b.put("y");
    fill(&mut b);
    let last = b.text.len();
    b.put("y\n\nb");
    let at = if front { first } else { last };
    Hostile { book: b.done(), edit: (at, at + 1), reading: (Vec::new(), Vec::new()), shared: 0 }
}

fn bracket(b: &mut Book, inside: impl FnOnce(&mut Book)) {
    let start = b.text.len();
    b.put("「");
    inside(b);
    b.put("」");
    let end = b.text.len();
    b.pair((start, start + 3), (end - 3, end));
}

fn nested(b: &mut Book, n: usize) {
    let mut opens = Vec::new();
    for _ in 0..n { opens.push(b.text.len()); b.put("「\n\n"); }
    while let Some(o) = opens.pop() { let c = b.text.len() + 2; b.put("\n\n」"); b.pair((o, o + 3), (c, c + 3)); }
}

// n diagnostics; where each starts. The edit is behind them.
fn diagnosed_by(n: usize, start: impl Fn(usize) -> usize) -> Hostile {
    let (mut b, mut r) = (Book::default(), Book::default());
    b.put(&"d".repeat(n + 1));
    b.put("\n\n");
    let at = b.text.len();
    b.put("a\n\n");
    r.put("x\n\n");
    for i in 0..n { b.diagnostic(start(i), start(i) + 1); }
    Hostile { book: b.done(), edit: (at, at + 1), reading: r.done(), shared: 0 }
}

// text alone of n bytes, at most
fn written(n: usize, part: &str) -> Book {
    let mut b = Book::default();
    b.put(&part.repeat((n - 8) / part.len()));
    b
}

// the last string breaks off in a character
fn damaged(n: usize) -> Hostile {
    let mut b = written(n, "青空文庫の本を読む人は、声に出して読んでいた。\n\n");
    b.string("青");
    b.strings.pop();
    b.lengths[0] -= 1;
    first_line(&b)
}

fn shape(name: &'static str, timed: Timed, words: &'static [usize], most: usize, make: impl Fn(usize) -> Hostile + 'static) -> Shape {
    Shape { name, timed, words, most, make: Box::new(make) }
}

fn all_shapes() -> Vec<Shape> {
    const ALL: &[usize] = &[0, 256, 16384, 262144];
    const SORTED: &[usize] = &[16384, 262144]; // with fewer words a merge says 18 before it sorts
    const ONE: &[usize] = &[16384];
    const PRICED: &[usize] = &[0, 16384];
    use Timed::{Check, Flat, Merge, Price, Region};
    let common: &'static str = Box::leak("青空文庫の本を読む人は".repeat(6).into_boxed_str());
    let (crowded, with_prefix, slot) = (Rc::new(crowd("", crowds_filter)), crowd(common, crowds_filter), Rc::new(crowd("", one_slot)));
    let (crowded_reading, slot_too, slot_flat) = (crowded.clone(), slot.clone(), slot.clone());
    vec![
        shape("number 5: n MarginNotes over n contents over n segments, n a multiple of 64", Check, ONE, MAX_POOL / 2, |n| margin_notes(n / 64 * 64)),
        shape("number 5: n MarginNotes over n contents over n segments, n no multiple of 64", Check, ONE, MAX_POOL / 2, |n| margin_notes(n / 64 * 64 + 37)),
        shape("number 5: n Rubies over one run of n contents", Check, ONE, MAX_POOL, |n| ruby_runs(n)),
        shape("number 5: n captions over one run of n segments", Check, ONE, MAX_POOL / 2, |n| captions(n)),
        shape("number 5: n Rubies over runs with random edges, over runs with random edges", Check, ONE, MAX_POOL / 2, |n| edges(n)),
        shape("number 5: runs of 128 contents, each of 128 segments", Check, ONE, MAX_POOL, |n| short_runs(n)),
        shape("number 10: n Rubies, n Formats, unlike strings of one length", Region, ALL, MAX_LIST / 2, |n| dependency(&unlike(2 * n))),
        shape("number 10: n Rubies, n Formats, unlike strings of one length", Merge, ALL, MAX_LIST / 2, |n| dependency(&unlike(2 * n))),
        shape("number 10: strings that crowd the filter", Region, ALL, MAX_LIST / 2, move |n| dependency(&crowded(2 * n))),
        shape("number 10: strings that crowd the filter, behind a common prefix of 198 bytes", Region, ALL, MAX_LIST / 2, move |n| dependency(&with_prefix(2 * n))),
        shape("number 10: n Rubies of one long base, n Formats of one target like it at both ends", Region, ALL, MAX_LIST / 2, |n| long_strings(n, 1)),
        shape("number 10: n Rubies and n Formats, 64 long bases and 64 targets like them in turn", Region, ALL, MAX_LIST / 2, |n| long_strings(n, 64)),
        shape("number 10: a long target n times, a base of a line before each", Region, ALL, MAX_LIST / 2, |n| long_and_short(n)),
        shape("number 15: n Rubies, n Formats in the reading, unlike strings of one length", Merge, ALL, MAX_LIST, |n| introduced(&unlike(2 * n))),
        shape("number 15: n Rubies of one long base, n Formats of one target like it at both ends", Merge, ALL, MAX_LIST - 1, |n| long_introduced(n, 1)),
        shape("number 15: n Rubies and n Formats, 64 long bases and 64 targets like them in turn", Merge, ALL, MAX_LIST - 1, |n| long_introduced(n, 64)),
        shape("number 15: strings that crowd the filter", Merge, ALL, MAX_LIST, move |n| introduced(&crowded_reading(2 * n))),
        shape("region: n brackets in a row over blank lines, the edit behind them", Region, ALL, MAX_LIST, |n| bracketed(false, |b| for _ in 0..n { bracket(b, |b| b.put("\n\n")) })),
        shape("region: n brackets in a row over blank lines, the edit before them", Region, ALL, MAX_LIST, |n| bracketed(true, |b| for _ in 0..n { bracket(b, |b| b.put("\n\n")) })),
        shape("region: n brackets, an unmatched close in each, the edit behind them", Region, ALL, MAX_LIST, |n| {
            bracketed(false, |b| for _ in 0..n { bracket(b, |b| { b.put("\n\n"); b.block("c", 3); }) })
        }),
        shape("region: n brackets, one in the other, over gaps, the edit behind them", Region, ALL, MAX_LIST, |n| bracketed(false, |b| nested(b, n))),
        shape("region: n brackets, one in the other, over gaps, the edit before them", Region, ALL, MAX_LIST, |n| bracketed(true, |b| nested(b, n))),
        shape("diagnostics in falling order", Merge, SORTED, MAX_LIST, |n| diagnosed_by(n, |i| n - i)),
        shape("diagnostics with equal keys", Merge, SORTED, MAX_LIST, |n| diagnosed_by(n, |_| 1)),
        shape("UTF-8: characters of four bytes", Check, ONE, MAX_TEXT, |n| first_line(&written(n, "𠀋𡈽𠮟😀𩸽"))),
        shape("UTF-8: E0 and ED in each 64 bytes", Check, ONE, MAX_TEXT, |n| first_line(&written(n, "青空文庫の本を読む人はไ声に出して힘"))),
        shape("UTF-8: damaged at the very end", Check, ONE, MAX_TEXT, |n| damaged(n)),
        shape("grafting: n contents that name two equal long strings in turn", Merge, ONE, MAX_POOL, |n| long_again(n)),
        shape("grafting: a million contents by shared runs, n equal strings of a kilobyte in turn", Merge, ONE, 65_536, |n| long_shared(n)),
        shape("grafting: 3,583 strings of one slot, then n contents that name the last and the first in turn", Merge, ONE, MAX_POOL - 3583, move |n| probed(&slot(3583), n)),
        shape("grafting: 3,583 strings of one slot, a million contents by shared runs of n, far strings in turn", Merge, ONE, 65_536, move |n| probed_shared(&slot_too(3583), n)),
        shape("flattening: n contents that name n strings, far apart", Flat, SORTED, MAX_POOL, |n| far_named(n)),
        shape("flattening: a million contents by shared runs of n, which name n strings, far apart", Flat, SORTED, MAX_POOL / 4, |n| far_shared(n)),
        shape("flattening: n equal strings of a kilobyte, a million contents by shared runs", Flat, SORTED, 65_536, |n| as_book(long_shared(n))),
        shape("flattening: 3,583 strings of one slot, a million contents by shared runs of n, far strings in turn", Flat, ONE, 65_536, move |n| as_book(probed_shared(&slot_flat(3583), n))),
        shape("flattening: n trees, two shared runs in turn on each level", Flat, ONE, MAX_POOL / 8, |n| as_book(trees(n, Sharing::Turn(2)))),
        shape("flattening: n shared runs in turn on each of 32 levels", Flat, ONE, MAX_POOL / 33, |n| as_book(crowded_levels(n))),
        shape("price: n trees, two shared runs in turn on each level", Price, PRICED, MAX_POOL / 8, |n| trees(n, Sharing::Turn(2))),
        shape("price: n trees, a run shared by two fields on each level", Price, PRICED, MAX_POOL / 8, |n| trees(n, Sharing::Fields)),
        shape("price: n trees, runs shared by paths of unlike length", Price, PRICED, MAX_POOL / 8, |n| trees(n, Sharing::Unlike)),
        shape("price: n shared runs in turn on each of 32 levels", Price, PRICED, MAX_POOL / 33, |n| crowded_levels(n)),
        shape("price: n segments that name one shared run of n strings", Price, PRICED, MAX_POOL / 2, |n| one_run(n, true)),
        shape("price: n segments that name one shared run of n runs", Price, PRICED, MAX_POOL / 2, |n| one_run(n, false)),
    ]
}

// ---- times

const LONG: f64 = 2.0; // seconds: no further doubling
const LONGEST: f64 = 60.0;

// a call of one size
#[derive(Clone, Copy)]
struct Point { n: usize, input: usize, number: u32, seconds: f64 }

struct HostileRow { name: &'static str, timed: Timed, words: usize, points: Vec<Point>, stopped: bool, limit: Option<Result<Point, f64>> }

// the median of up to seven calls, as many as there is time for
fn call(h: &Hostile, timed: Timed, words: usize) -> (u32, f64) {
    let (mut taken, mut number) = (Vec::new(), 0);
    let mut lent = vec![7; words];
    let mut o = Buffers { tape: Vec::new(), bytes: Vec::new(), work: vec![7; words] };
    if timed == Timed::Merge { (o.tape, o.bytes) = (vec![7; h.book.0.len() + 2 * h.reading.0.len() + h.shared + 64], vec![7; h.book.1.len() + 2 * h.reading.1.len() + 64]); }
    if timed == Timed::Flat {
        // just the size of the flat book; as long as the old one where it is refused
        (o.tape, o.bytes) = (vec![7; h.book.0.len() + h.shared], vec![7; h.book.1.len()]);
        let a = flatten(&h.book, &mut o);
        o.tape.truncate(if a.number == 0 { a.tape } else { h.book.0.len() });
        if a.number == 0 { o.bytes.truncate(a.bytes); }
    }
    while taken.len() < 7 && taken.iter().sum::<f64>() < 0.1 {
        let start = now();
        number = black_box(match timed {
            Timed::Check => check_book(&h.book),
            Timed::Region => choose_region(&h.book, h.edit, b"x", &mut lent).number,
            Timed::Merge => merge(&h.book, h.edit, b"x", &h.reading, &mut o).number,
            Timed::Price => estimate(&h.book, h.edit, b"x", &h.reading, &mut lent).number,
            Timed::Flat => flatten(&h.book, &mut o).number,
        });
        taken.push(now() - start);
    }
    taken.sort_by(f64::total_cmp);
    (number, taken[taken.len() / 2])
}

fn point(s: &Shape, n: usize, words: usize) -> Point {
    let h = (s.make)(n);
    let (number, seconds) = call(&h, s.timed, words);
    Point { n, input: size_of_input(&h), number, seconds }
}

fn size_of_input(h: &Hostile) -> usize { h.book.0.len() + h.book.1.len() + h.reading.0.len() + h.reading.1.len() }

// the n that makes an input of about 4 MB
fn n_of_4_mb(s: &Shape) -> usize {
    let [a, b] = [1024, 2048].map(|n| size_of_input(&(s.make)(n)) as f64);
    (1024.0 + 1024.0 * (FOUR_MB as f64 - a) / (b - a)) as usize
}

fn growth(a: &Point, b: &Point) -> f64 { (b.seconds / a.seconds).ln() / (b.n as f64 / a.n as f64).ln() }

// Over the last two doublings: 1 is linear, 2 quadratic.
fn exponent(points: &[Point]) -> Option<f64> { if let [.., a, _, b] = points { Some(growth(a, b)) } else { None } }

// One call at the n of document 01's limits, or the seconds that it would take, by the exponent, where they are over a minute.
fn at_limits(s: &Shape, words: usize, points: &[Point]) -> Result<Point, f64> {
    let last = points.last().unwrap();
    let expected = last.seconds * (s.most as f64 / last.n as f64).powf(exponent(points).unwrap_or(3.0).max(1.0));
    if expected > LONGEST { Err(expected) } else { Ok(point(s, s.most, words)) }
}

fn hostile_row(s: &Shape, words: usize, limits: bool) -> HostileRow {
    let most = n_of_4_mb(s).min(s.most);
    let mut points: Vec<Point> = Vec::new();
    for k in (0..=8).rev() {
        points.push(point(s, most >> k, words));
        if points.last().unwrap().seconds > LONG { break; }
    }
    let stopped = points.len() < 9;
    HostileRow { name: s.name, timed: s.timed, words, limit: limits.then(|| at_limits(s, words, &points)), points, stopped }
}

// `how`: "4mb", "limits" or "off"
fn hostile_rows(how: &str) -> Vec<HostileRow> {
    assert!(["4mb", "limits", "off"].contains(&how), "HOSTILE=4mb|limits|off");
    let mut rows = Vec::new();
    if how == "off" { return rows; }
    let wanted = std::env::var("SHAPE").unwrap_or_default();
    for s in all_shapes().iter().filter(|s| s.name.contains(&wanted)) {
        for words in s.words {
            let row = hostile_row(s, *words, how == "limits");
            eprintln!("{}", hostile_line(&row));
            rows.push(row);
        }
    }
    rows
}

fn entry_name(t: Timed) -> &'static str { match t { Timed::Check => "`check_book`", Timed::Region => "`choose_region`", Timed::Merge => "`merge`", Timed::Price => "`estimate`", Timed::Flat => "`flatten_book`" } }

fn shown_exponent(r: &HostileRow) -> String { exponent(&r.points).map_or("unknown".into(), |e| format!("{e:.2}")) }

// From the last size to the limits, where they are twice as far at least.
fn growth_to_limits(r: &HostileRow) -> Option<f64> {
    let last = r.points.last().unwrap();
    match &r.limit { Some(Ok(p)) if p.n >= 2 * last.n => Some(growth(last, p)), _ => None }
}

fn shown_limit(r: &HostileRow) -> String {
    let grown = growth_to_limits(r).map_or(String::new(), |e| format!(", exponent up to there {e:.2}"));
    match r.limit {
        None => String::new(),
        Some(Ok(p)) => format!("{} of {} MB{grown}", duration(p.seconds), figures(p.input as f64 / 1e6)),
        Some(Err(seconds)) => format!("not run: {} expected", duration(seconds)),
    }
}

fn hostile_line(r: &HostileRow) -> String {
    let p = r.points.last().unwrap();
    let words = if r.timed == Timed::Check { String::new() } else { format!(" {} words", r.words) };
    format!("{}, {}{words}: n {} in {}, exponent {}{} {}", r.name, entry_name(r.timed), p.n, duration(p.seconds), shown_exponent(r), if r.stopped { ", stopped" } else { "" }, shown_limit(r))
}

fn hostile_table(rows: &[HostileRow]) -> String {
    if rows.is_empty() { return "(Left out in this run: `HOSTILE=off`.)\n".into(); }
    let limits = rows.iter().any(|r| r.limit.is_some());
    let mut s = "| book | timed | work words | answer | n | tapes and bytes | at a quarter of n | at half of n | at n | exponent |".to_string() + if limits { " at the limits of document 01 |" } else { "" };
    s += if limits { "\n|---|---|---|---|---|---|---|---|---|---|---|\n" } else { "\n|---|---|---|---|---|---|---|---|---|---|\n" };
    for r in rows {
        let p = r.points.last().unwrap();
        let before = |k: usize| r.points.len().checked_sub(k + 1).map_or(String::new(), |i| duration(r.points[i].seconds));
        let words = if r.timed == Timed::Check { "".into() } else { thousands(r.words) };
        s += &format!("| {} | {} | {words} | {} | {} | {} | {} | {} | {} | **{}**{} |", r.name, entry_name(r.timed), p.number, thousands(p.n), thousands(p.input), before(2), before(1), duration(p.seconds),
            shown_exponent(r), if r.stopped { ", stopped here" } else { "" });
        s += &if limits { format!(" {} |\n", shown_limit(r)) } else { "\n".into() };
    }
    s
}

// A row that was stopped, or was not run at the limits, or grows faster than n to the 1.6 and takes a millisecond at least.
fn is_slow(r: &HostileRow) -> bool {
    let greatest = exponent(&r.points).unwrap_or(0.0).max(growth_to_limits(r).unwrap_or(0.0));
    r.stopped || matches!(r.limit, Some(Err(_))) || (greatest > 1.6 && r.points.last().unwrap().seconds > 1e-3)
}

fn hostile_summary(rows: &[HostileRow]) -> String {
    let item = |r: &HostileRow| {
        let (p, words) = (r.points.last().unwrap(), if r.timed == Timed::Check { String::new() } else { format!(", {} words", thousands(r.words)) });
        format!("\n- {}, {}{words}: exponent {}, {} at {} bytes", r.name, entry_name(r.timed), shown_exponent(r), duration(p.seconds), thousands(p.input))
    };
    let all: Vec<String> = rows.iter().filter(|r| is_slow(r)).map(|r| item(r)).collect();
    if all.is_empty() { return "None of these rows was stopped, and none has an exponent above 1.6.".into(); }
    format!("{} of {} rows were stopped or have an exponent above 1.6; **there ours is slow still**:\n{}", all.len(), rows.len(), all.concat())
}
