// Two archives in one process, the same calls in turn: two [SECONDS], for each case and entry. tools/bench/two makes it of both.
use std::time::Instant;

include!("archive.rs");
include!("book.rs");
include!("cases.rs");
include!("clock.rs");

// ffi.rs once more, for the entries of the earlier archive, which are named before_.. here
mod before {
    use super::lent;
    pub mod ffi { include!(env!("BEFORE")); }
}

// what a call answers, as numbers
type Told = [u64; 14];
type Call = fn(&Case, &mut Buffers) -> Told;

fn told(numbers: &[u64]) -> Told { core::array::from_fn(|i| numbers.get(i).copied().unwrap_or(0)) }

macro_rules! calls {
    ($ffi:path) => {{
        use $ffi as ffi;
        let merge: Call = |c, o| {
            let (room, work) = o.lent();
            let a = ffi::merge(stored(&c.book), edit(c.edit, c.replacement.as_bytes()), stored(&c.reading), room, work);
            let [c0, c1, c2, c3, c4, c5, c6] = a.counts();
            [a.number.into(), a.start.into(), a.end.into(), a.reused.into(), a.reread.into(), c0, c1, c2, c3, c4, c5, c6, a.tape as u64, a.bytes as u64]
        };
        let check: Call = |c, _| told(&[ffi::check_book(stored(&c.book)).into()]);
        let region: Call = |c, o| {
            let a = ffi::choose_region(stored(&c.book), edit(c.edit, c.replacement.as_bytes()), &mut o.work);
            told(&[a.number, a.start, a.end].map(u64::from))
        };
        let price: Call = |c, o| {
            let a = ffi::estimate(stored(&c.book), edit(c.edit, c.replacement.as_bytes()), stored(&c.reading), &mut o.work);
            told(&[a.number.into(), a.reread.into(), a.calls.into(), a.contents.into(), a.segments.into(), a.bytes as u64])
        };
        [("merge", merge), ("check_book", check), ("choose_region", region), ("estimate", price)]
    }};
}

// Both answers, and all that is in the buffers behind the calls, are equal; the merge is accepted. Answers the lengths of the result.
fn agree(c: &Case, before: Call, after: Call) -> Told {
    let room = || Buffers::new(c.book.0.len() + 4 * c.reading.0.len() + 4096, c.book.1.len() + 2 * c.reading.1.len() + 4096);
    let (mut a, mut b) = (room(), room());
    let (x, y) = (before(c, &mut a), after(c, &mut b));
    assert_eq!((x, x[0]), (y, 0), "not the same answers");
    assert!(a.tape == b.tape && a.bytes == b.bytes && a.work == b.work, "not the same bytes");
    x
}

// Seconds of a call, by turns of one kind and the other, each of so many calls that the clock does not matter; who begins changes.
fn duel(c: &Case, o: &mut Buffers, calls: [Call; 2], seconds: f64, cost: f64) -> [Vec<f64>; 2] {
    let once = clock(|| calls[0](c, o)).min(clock(|| calls[0](c, o)));
    let n = (100e-6 / once).ceil().max(1.0) as usize;
    let (start, mut taken) = (Instant::now(), [Vec::new(), Vec::new()]);
    while taken[0].len() < 11 || start.elapsed().as_secs_f64() < seconds {
        let first = taken[0].len() % 2;
        for side in [first, 1 - first] { taken[side].push((clock(|| for _ in 0..n { black_box(calls[side](c, o)); }) - cost) / n as f64); }
    }
    taken
}

fn middle(mut v: Vec<f64>) -> (f64, f64) { v.sort_by(f64::total_cmp); (v[0], v[v.len() / 2]) }

fn main() {
    let seconds: f64 = std::env::args().nth(1).map_or(2.0, |s| s.parse().expect("seconds"));
    let cost = clock_cost();
    let (before, after) = (calls!(before::ffi), calls!(crate::ffi));
    println!("us, processor time of the thread: median (best); after / before: of medians, of bests, median of the turns");
    for (kind, size, name) in [(Kind::Plain, 10_000, "text alone, 10 kB"), (Kind::Ruby, 10_000, "Ruby, 10 kB"), (Kind::Ruby, 100_000, "Ruby, 100 kB"), (Kind::Ruby, 1_000_000, "Ruby, 1 MB")] {
        let c = simple(kind, size, Place::Middle, if kind == Kind::Plain { 0 } else { 10 });
        let mut exact = Buffers::new(0, 0);
        for ((entry, x), (_, y)) in before.into_iter().zip(after) {
            let a = agree(&c, x, y);
            if entry == "merge" { exact = Buffers::new(a[12] as usize, a[13] as usize); }
            let taken = duel(&c, &mut exact, [x, y], seconds, cost);
            let turns = taken[0].iter().zip(&taken[1]).map(|(x, y)| y / x).collect();
            let [(b0, m0), (b1, m1)] = taken.clone().map(middle);
            println!("{name:18} {entry:13} {:9.2} ({:9.2})  {:9.2} ({:9.2})  {:.3} {:.3} {:.3}  {} turns", m0 * 1e6, b0 * 1e6, m1 * 1e6, b1 * 1e6, m1 / m0, b1 / b0, middle(turns).1, taken[0].len());
        }
    }
}
