// The benchmark: the proved merge, tape to tape, beside the Rust's reparse on the same inputs, in one process. benchmark TEMPLATE DOCS writes
// DOCS/BENCHMARKS.md and DOCS/benchmarks.svg and prints the tables. BUDGET is the number of seconds that the timed calls take together, about;
// HOSTILE says how far the books made to be slow go (hostile.rs): 4mb, limits or off.
use std::sync::Arc;
use std::time::Instant;

use oracle::judge::{Merged, edited, reparse};
use oracle::tape::{Book as RustBook, Reading as RustReading, quick};

include!("archive.rs");
include!("book.rs");
include!("cases.rs");
include!("clock.rs");
include!("flatten.rs");
include!("hostile.rs");
include!("plot.rs");
include!("document.rs");

// in seconds
#[derive(Clone, Copy)]
struct Times { best: f64, median: f64, calls: usize }

// What is timed. The first three are the merge: with result buffers of just the size and 16384 work words; with buffers of twice the size; with
// 262144 words. The second and the third are timed where the size of the book varies, and only there. TAPES is the Rust with tapes read and written
// by oracle/src/tape.rs, QUICK the same by oracle/src/quick.rs.
const MERGE: usize = 0;
const TWICE: usize = 1;
const WORDS: usize = 2;
const CHECK: usize = 3;
const REGION: usize = 4;
const REPARSE: usize = 5;
const TAPES: usize = 6;
const QUICK: usize = 7;
const LIMIT: usize = 8;
const INTERN: usize = 9; // of QUICK the interning of the old strings, in the case with Rubies of 1 MB
const PRICE: usize = 10; // the estimate, with 16384 words
const SHORT: usize = 11; // the merge into empty result buffers: refused with 18, so all of it up to number 17
const SIDES: usize = 14; // 12 and 13: flatten.rs

struct Row { shown: Vec<(Group, String)>, text: usize, nodes: usize, bytes: usize, times: [Option<Times>; SIDES] }

impl Row {
    fn median(&self, side: usize) -> f64 { self.times[side].map_or(f64::NAN, |t| t.median) }
    fn ratio(&self, a: usize, b: usize) -> f64 { self.median(a) / self.median(b) }
}

unsafe extern "C" { fn mallopt(what: i32, value: i32) -> i32; }

// limit.c
unsafe extern "C" {
    fn limit_known() -> i32;
    fn limit_utf8(s: *const u8, n: usize) -> i32;
    fn limit_words(t: *const u8, n: usize) -> u64;
}

// What the Rust frees stays in the process, so that its next call finds pages that were touched before, as our lent buffers are. By its own choice
// glibc gives large parts back to the kernel or not, which makes times of large books differ from run to run.
fn keep_memory() {
    const TRIM_THRESHOLD: i32 = -1;
    const MMAP_MAX: i32 = -4;
    assert!(unsafe { mallopt(TRIM_THRESHOLD, i32::MAX) == 1 && mallopt(MMAP_MAX, 0) == 1 });
}

type Side<'a> = (usize, Box<dyn FnMut() -> f64 + 'a>);

// The sides take turns, in five rounds, so that a slow moment of the machine falls on all of them; three rounds where a call takes longer than the
// time of its turn. A turn is one call at least and 500 at most. The first two calls of a side (one, if it is long) count for nothing.
fn measure(seconds: f64, cost: f64, sides: &mut [Side]) -> [Option<Times>; SIDES] {
    let turn = seconds / (5 * sides.len()) as f64;
    let mut taken = vec![Vec::new(); SIDES];
    let mut rounds = [5; SIDES];
    for (i, side) in sides.iter_mut() {
        if side() > turn { rounds[*i] = 3; } else { side(); }
    }
    for round in 0..5 {
        for (i, side) in sides.iter_mut().filter(|(i, _)| round < rounds[*i]) {
            let start = Instant::now();
            for _ in 0..500 { taken[*i].push(side()); if start.elapsed().as_secs_f64() >= turn { break; } }
        }
    }
    core::array::from_fn(|i| {
        let v = &mut taken[i];
        v.sort_by(f64::total_cmp);
        v.first().map(|best| Times { best: best - cost, median: v[v.len() / 2] - cost, calls: v.len() })
    })
}

// a case in the Rust's types
struct InRust { book: RustBook, reading: RustReading, source: Arc<str> }

fn in_rust(c: &Case) -> InRust {
    let book = RustBook::read(&c.book.0, &c.book.1).unwrap();
    let source = edited(book.text(), &(c.edit.0..c.edit.1), c.replacement);
    InRust { reading: RustReading::read(&c.reading.0, &c.reading.1).unwrap(), source, book }
}

// from tape to tape; all that was built is handed back too, to be freed outside the clock
fn with_tapes(c: &Case) -> (Tape, Merged, InRust) {
    let r = in_rust(c);
    let m = reparse(&r.book, Arc::clone(&r.source), c.edit.0..c.edit.1, r.reading.lexed()).unwrap().merged(&r.book, &r.reading);
    (m.book.write(), m, r)
}

fn quickly(c: &Case) -> quick::Answer {
    quick::merge((&c.book.0, &c.book.1), c.edit.0..c.edit.1, c.replacement, (&c.reading.0, &c.reading.1)).unwrap()
}

// UTF-8 of the old bytes, each word of the old tape, and a copy of the result: no merge that answers a book can do less.
fn limit(c: &Case, result: &Tape, copy: &mut Tape) -> (i32, u64) {
    let told = unsafe { (limit_utf8(c.book.1.as_ptr(), c.book.1.len()), limit_words(c.book.0.as_ptr(), c.book.0.len())) };
    copy.0.copy_from_slice(&result.0);
    copy.1.copy_from_slice(&result.1);
    black_box(&copy);
    told
}

fn priced(c: &Case, words: &mut [u32]) -> ffi::PriceAnswer { estimate(&c.book, c.edit, c.replacement.as_bytes(), &c.reading, words) }

fn ours(c: &Case, o: &mut Buffers) -> ffi::MergeAnswer { merge(&c.book, c.edit, c.replacement.as_bytes(), &c.reading, o) }

// All sides on one case: they must agree in the region, the nodes kept and reread, the seven counts, the tape and the bytes. Answers the result,
// whose lengths a caller has to lend.
fn agree(label: &str, c: &Case) -> Tape {
    let mut o = Buffers::new(c.book.0.len() + 4 * c.reading.0.len() + 4096, c.book.1.len() + 2 * c.reading.1.len() + 4096);
    let a = ours(c, &mut o);
    assert_eq!(a.number, 0, "{label}");
    let p = priced(c, &mut o.work);
    assert_eq!((p.number, p.reread, u64::from(p.calls)), (0, a.reread, a.calls), "{label}: the price");
    let ((tape, bytes), m, _) = with_tapes(c);
    assert_eq!((m.region.start, m.region.end, m.reused, m.reread, m.counts()), (a.start, a.end, a.reused, a.reread, a.counts()), "{label}");
    assert!(tape == o.tape[..a.tape] && bytes == o.bytes[..a.bytes], "{label}: tape and bytes");
    let q = quickly(c);
    assert_eq!((q.region.start, q.region.end, q.reused, q.reread, q.counts), (a.start, a.end, a.reused, a.reread, a.counts()), "{label}, quick");
    assert!(q.tape == o.tape[..a.tape] && q.bytes == o.bytes[..a.bytes], "{label}: tape and bytes, quick");
    assert!(q.tape.capacity() == q.tape.len() && q.bytes.capacity() == q.bytes.len(), "{label}: room, quick");
    assert!(o.tape[a.tape..].iter().chain(&o.bytes[a.bytes..]).all(|b| *b == 0), "{label}: zeros behind the result");
    (tape, bytes)
}

// how long both texts of a book are
fn text_bytes(tape: &[u8]) -> usize { [1, 5].map(|at| u32::from_le_bytes(tape[at..at + 4].try_into().unwrap()) as usize).iter().sum() }

// what an estimate takes is timed where the book's size or the reading's varies
fn has_price(group: &Group) -> bool { matches!(group, Group::Sizes(_) | Group::Readings) }

// a reading whose runs are shared: its bytes of tape and strings, how many texts it stands for, and its price
struct SharedRow { name: &'static str, bytes: usize, texts: u64, price: Times }

fn shared_rows() -> Vec<SharedRow> {
    let row = |name, sharing| priced_shared(name, |r| (tree(r, sharing, 32), texts_of(sharing, 32)));
    vec![
        row("one run beside itself", Sharing::Turn(1)),
        row("two runs in turn", Sharing::Turn(2)),
        row("three runs in turn", Sharing::Turn(3)),
        row("64 runs in turn", Sharing::Turn(64)),
        row("one run by two fields of a body", Sharing::Fields),
        row("two runs by paths of unlike length", Sharing::Unlike),
        priced_shared("one run of 350 contents by 95 segments", |r| wide_tree(r, 95, 350)),
    ]
}

// best and median of 15 calls
fn priced_shared(name: &'static str, make: impl FnOnce(&mut Book) -> (u32, u64)) -> SharedRow {
    let (c, texts) = two_trees(make);
    let mut words = vec![7; 16384];
    let p = priced(&c, &mut words);
    assert_eq!((p.number, p.reread, p.calls, p.contents, p.segments), (0, 2, 1048576, 1048576, 1048576), "{name}");
    let mut v: Vec<f64> = (0..15).map(|_| clock(|| priced(&c, &mut words))).collect();
    v.sort_by(f64::total_cmp);
    SharedRow { name, bytes: c.reading.0.len() + c.reading.1.len(), texts, price: Times { best: v[0], median: v[7], calls: v.len() } }
}

fn time(entry: &Entry, seconds: f64, cost: f64) -> Row {
    let c = (entry.make)();
    let result = agree(&entry.shown[0].1, &c);
    let (tape, bytes) = (result.0.len(), result.1.len());
    let (mut exact, mut twice, mut more) = (Buffers::new(tape, bytes), Buffers::new(2 * tape, 2 * bytes), Buffers::new(tape, bytes));
    let mut copy = (vec![7; tape], vec![7; bytes]);
    more.work = vec![7; 262144];
    let (mut words, mut price_words) = (vec![7; 16384], vec![7; 16384]);
    let mut short = Buffers::new(0, 0);
    let r = in_rust(&c);
    let mut sides: Vec<Side> = vec![
        (MERGE, Box::new(|| clock(|| ours(&c, &mut exact)))),
        (CHECK, Box::new(|| clock(|| check_book(&c.book)))),
        (REGION, Box::new(|| clock(|| choose_region(&c.book, c.edit, c.replacement.as_bytes(), &mut words)))),
        (REPARSE, Box::new(|| { let (source, lexed) = (Arc::clone(&r.source), r.reading.lexed()); clock(|| reparse(&r.book, source, c.edit.0..c.edit.1, lexed)) })),
        (TAPES, Box::new(|| clock(|| with_tapes(&c)))),
        (QUICK, Box::new(|| clock(|| quickly(&c)))),
    ];
    let old_strings = core::str::from_utf8(&c.book.1[text_bytes(&c.book.0)..]).unwrap();
    if entry.shown[0] == (Group::Sizes(Kind::Ruby), "1 MB".to_string()) {
        sides.push((INTERN, Box::new(|| clock(|| quick::intern_first_layer(&c.book.0, old_strings).unwrap()))));
    }
    if unsafe { limit_known() } == 1 {
        assert_eq!(limit(&c, &result, &mut copy).0, 1, "the limit's UTF-8");
        sides.push((LIMIT, Box::new(|| clock(|| limit(&c, &result, &mut copy)))));
    }
    if has_price(&entry.shown[0].0) {
        assert_eq!(ours(&c, &mut short).number, 18);
        sides.push((PRICE, Box::new(|| clock(|| priced(&c, &mut price_words)))));
        sides.push((SHORT, Box::new(|| clock(|| ours(&c, &mut short)))));
    }
    if let Group::Sizes(_) = entry.shown[0].0 {
        sides.push((TWICE, Box::new(|| clock(|| ours(&c, &mut twice)))));
        sides.push((WORDS, Box::new(|| clock(|| ours(&c, &mut more)))));
    }
    let times = measure(seconds, cost, &mut sides);
    drop(sides);
    Row { shown: entry.shown.clone(), text: r.book.text().len(), nodes: c.nodes, bytes: c.book.0.len() + c.book.1.len(), times }
}

fn main() {
    let args: Vec<String> = std::env::args().collect();
    let [_, template, docs] = &args[..] else { panic!("benchmark TEMPLATE DOCS") };
    let budget: f64 = std::env::var("BUDGET").map_or(130.0, |s| s.parse().expect("BUDGET in seconds"));
    let hostile = std::env::var("HOSTILE").unwrap_or("4mb".into());
    keep_memory();
    let run = Run { start: Instant::now(), load: load(), clock: clock_cost() };
    let cases = all_cases();
    let mut rows = Vec::new();
    for entry in &cases {
        let row = time(entry, budget / cases.len() as f64, run.clock);
        eprintln!("{}", line(&row));
        rows.push(row);
    }
    let flat = flat_rows(budget / cases.len() as f64, run.clock);
    let slow = hostile_rows(&hostile);
    let largest = cases.iter().find(|e| e.shown[0] == (Group::Sizes(Kind::Ruby), "16 MB".to_string())).unwrap();
    let profile = profile(&(largest.make)(), 4);
    write(template, docs, &rows, &flat, &slow, &profile, &run);
}
