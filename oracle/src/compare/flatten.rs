//! Flattening (document 02, wish 6): the proved `flatten_book`, doc01.rs and the Rust's graft on the same books; corrections in a row with a flattening
//! where 17 comes, beside the Rust's own book that takes them all and is never flattened; pairs of corrections in both orders.
use crate::archive;
use crate::book::*;
use crate::books::{FRESH, Gen, Profile, Rng, Strings, behind};
use crate::damage::{self, Damaged};
use crate::doc01;
use crate::limits::{LIST, POOL, TEXT, doubling, inline, long};
use crate::run::{Compare, MOST, Of, Outcome, blank_line_lost, longer, mark_touched};
use crate::shown::{shown, shown_of};
use oracle::judge::{Answer as Said, judge};
use oracle::tape;
use std::panic::{AssertUnwindSafe, catch_unwind};

/// How many there are of each, and of what.
pub struct Counts {
    pub seed: u64,
    pub books: u64,
    pub rows: u64,
    pub corrections: u64,
    pub pairs: u64,
    pub limits: bool,
}

/// What flattenings and rows met.
#[derive(Default)]
struct Met {
    flat: [u64; MET.len()],
    /// rows whose corrections are all made; those that end at an 18 behind a 17
    rows: u64,
    stuck: u64,
    /// the most layers of a book of the Rust's that was never flattened, and the most flattenings of a row
    layers: usize,
    flattened: u64,
    /// rows with so many flattenings: none, one, two, three and more
    times: [u64; 4],
    /// pairs whose four merges are accepted
    pairs: u64,
}

const MET: [&str; 14] = [
    "32 layers", "no nodes", "opens and closes alone", "one layer that is flat already", "strings of several layers that become one", "strings that no node names, left out",
    "runs that are named more than once, each time written", "a flat layer longer than all old ones", "a string over 64 bytes twice in the flat layer", "a cache hit", "a table hit",
    "a table of 512 or more", "level 32", "diagnostics out of order",
];

fn met(old: &Book, flat: &doc01::Flat) -> [bool; MET.len()] {
    let (new, n) = (&flat.book, flat.counts);
    let layer = &new.layers[0];
    let mut strings: Vec<&Vec<u8>> = old.layers.iter().flat_map(|l| &l.strings).collect();
    let all = strings.len();
    strings.sort();
    strings.dedup();
    let key = |d: &Diagnostic| (d.start, d.end, d.rank);
    [
        old.layers.len() == 32,
        old.nodes.is_empty(),
        !old.nodes.is_empty() && old.nodes.iter().all(|n| n.class > 1),
        *old == *new,
        old.layers.len() > 1 && strings.len() < all,
        strings.iter().any(|s| !layer.strings.contains(s)),
        layer.contents.len() > old.contents() || layer.segments.len() > old.segments(),
        new.tape().len() > old.tape().len(),
        layer.strings.iter().enumerate().any(|(i, s)| s.len() > 64 && layer.strings[..i].contains(s)),
        n[1] > 0,
        n[2] > 0,
        n[5] > 0,
        layer.segments.iter().any(|s| s.level == 32),
        !old.diagnostics.is_sorted_by_key(key),
    ]
}

fn told(a: &Result<Stored, u32>) -> String {
    match a {
        Ok(s) => format!("a book of {} and {} bytes", s.tape.len(), s.bytes.len()),
        Err(n) => format!("refused {n}"),
    }
}

/// What is lent where a case does not say: what the flat book needs and a little more; work words up to the number of strings and over.
fn lent(flat: &Result<doc01::Flat, u32>, r: &mut Rng) -> Room {
    let more = *r.pick(&[0, 0, 1, 7, 64, 300]);
    let words = *r.pick(&[16384, 16384, 16384, 16385, 16393, 17000, 20000, 33000, 131_072]);
    match flat {
        Ok(f) => [f.book.tape().len() + more, f.book.bytes().len() + *r.pick(&[0, 1, 7, 64]), words],
        Err(_) => [r.below(200), r.below(200), *r.pick(&[16384, 16384, 0, 100, 16383])],
    }
}

fn case(book: &Stored, room: Option<Room>) -> Case {
    Case { tape: book.tape.clone(), bytes: book.bytes.clone(), start: 0, end: 0, replacement: vec![], rtape: vec![], rbytes: vec![], room }
}

struct Flattener<'a> {
    compare: &'a mut Compare,
    met: Met,
}

impl Flattener<'_> {
    /// One book through all hands. `aim`: the number that it was made for. `theirs`: another book that shows the same, in the Rust's types.
    fn flatten(&mut self, class: &'static str, book: &Stored, room: Option<Room>, aim: Option<u32>, theirs: Option<&tape::Book>, r: &mut Rng) -> Result<Stored, u32> {
        let flat = doc01::flatten_in_any_room(book);
        let room = room.unwrap_or_else(|| lent(&flat, r));
        let said = doc01::flat_in_room(&flat, room);
        let number = said.as_ref().err().copied().unwrap_or(0);
        let c = case(book, Some(room));
        let t = self.compare.tally(class);
        t.of = Of::Flattenings;
        t.cases += 1;
        match number {
            0 => t.accepted += 1,
            n => t.refused[n as usize] += 1,
        }
        let ours = self.ours(book, room).unwrap_or_else(|what| {
            self.compare.differ(class, &what, Some(&c));
            said.clone()
        });
        if ours != said {
            self.compare.differ(class, &format!("ours {} document 02 {}", told(&ours), told(&said)), Some(&c));
        }
        if aim.is_some_and(|n| n != number) {
            self.compare.differ(class, &format!("made for {aim:?}, is {number}"), Some(&c));
        }
        if (1..=7).contains(&number) {
            return Err(number);
        }
        let old = doc01::read(&book.tape, &book.bytes).expect("a book");
        if doc01::adds(&old).iter().any(|n| *n > MOST) {
            return said;
        }
        self.grafted(class, &c, &said, room);
        if let (Ok(made), Ok(f)) = (&said, &flat) {
            self.is_flat(class, &c, &old, made, r);
            if theirs.is_some_and(|b| b.flattened().write() != (made.tape.clone(), made.bytes.clone())) {
                self.compare.differ(class, "another flat book than the Rust's of a book that shows the same", Some(&c));
            }
            self.met.flat.iter_mut().zip(met(&old, f)).for_each(|(n, met)| *n += u64::from(met));
        }
        said
    }

    fn ours(&mut self, book: &Stored, room: Room) -> Result<Result<Stored, u32>, String> {
        let archive = &mut self.compare.archive;
        catch_unwind(AssertUnwindSafe(|| archive.flatten(book, room))).map_err(|e| e.downcast_ref::<&str>().map_or("panic".to_owned(), |s| (*s).to_owned()))
    }

    /// The Rust's graft of all nodes into a fresh store, byte for byte; of a refusal with 18, whether its book is one that 18 is for.
    fn grafted(&mut self, class: &'static str, c: &Case, said: &Result<Stored, u32>, room: Room) {
        self.compare.tally(class).rust += 1;
        let Some(book) = tape::Book::read(&c.tape, &c.bytes) else { return self.compare.differ(class, "the Rust's types have no such book", Some(c)) };
        let Ok((tape, bytes)) = catch_unwind(AssertUnwindSafe(|| book.flattened().write())) else { return self.compare.differ(class, "the Rust's graft panics", Some(c)) };
        let over = || {
            let b = doc01::read(&tape, &bytes).expect("the Rust's flat book");
            tape.len() > room[0] || bytes.len() > room[1] || room[2] < 16384 || b.strings() > 3583 || !doc01::within_limits(&b)
        };
        let alike = match said {
            Ok(made) => tape == made.tape && bytes == made.bytes,
            Err(_) => over(),
        };
        if !alike {
            self.compare.differ(class, &format!("{}, the Rust's graft a book of {} and {} bytes", told(said), tape.len(), bytes.len()), Some(c));
        }
    }

    /// One layer; a book; what the old one shows; flattened again, the same bytes.
    fn is_flat(&mut self, class: &'static str, c: &Case, old: &Book, made: &Stored, r: &mut Rng) {
        let new = doc01::check_book(&made.tape, &made.bytes);
        if !new.as_ref().is_ok_and(|b| b.layers.len() == 1) || archive::check_book(made) != 0 {
            return self.compare.differ(class, "the flat book is no book of one layer", Some(c));
        }
        if !new.is_ok_and(|b| shown(&b) == shown(old)) {
            self.compare.differ(class, "the flat book shows something else", Some(c));
        }
        let room = [made.tape.len() + r.below(2), made.bytes.len() + r.below(2), 16384];
        if self.ours(made, room) != Ok(Ok(made.clone())) {
            self.compare.differ(class, "flattened again, another book", Some(c));
        }
    }

    // ---- books of the seed

    fn books(&mut self, profiles: &[Profile], seed: u64, i: u64) {
        let mut g = Gen::new(Rng::new(seed, i), &profiles[i as usize % profiles.len()]);
        let old = g.old();
        let book = Stored::of(&old);
        let made = self.flatten("books", &book, None, None, None, &mut g.r);
        let r = &mut g.r;
        let (name, number, damage) = damage::ALL[i as usize % damage::ALL.len()];
        let mut d = Damaged::of(old.clone());
        if damage(r, &mut d).is_some() {
            *self.compare.aims.entry(name).or_default() += 1;
            self.flatten("one damage", &Stored { tape: d.tape(), bytes: d.bytes() }, None, Some(number), None, r);
        }
        match (i / 12 % 5, made) {
            (0, _) => {
                let mut d = Damaged::of(old);
                for _ in 0..2 {
                    let damage = r.pick(damage::ALL).2;
                    let _ = damage(r, &mut d);
                }
                self.flatten("two damages", &Stored { tape: d.tape(), bytes: d.bytes() }, None, None, None, r);
            }
            (1 | 2, _) => self.bytes_changed(&book, r),
            (3, Ok(made)) => self.rooms(&book, &made, r),
            _ => {}
        }
    }

    /// One to three bytes of the tape or the buffer are other ones, or a byte is put in or all behind one taken away.
    fn bytes_changed(&mut self, book: &Stored, r: &mut Rng) {
        let mut book = book.clone();
        let part = if r.chance(75) { &mut book.tape } else { &mut book.bytes };
        for _ in 0..r.within(1, 3) * usize::from(!part.is_empty()) {
            let (at, any) = (r.below(part.len()), r.next() as u8);
            part[at] = *r.pick(&[any, part[at] ^ 1, part[at].wrapping_add(1), part[at].wrapping_sub(1), 0, 255]);
        }
        if r.chance(10) {
            let (at, any) = (r.below(part.len() + 1), r.next() as u8);
            if r.chance(50) { part.insert(at, any) } else { part.truncate(at) }
        }
        self.flatten("bytes changed", &book, None, None, None, r);
    }

    /// Result buffers exactly full, one byte short; work words one short, and many.
    fn rooms(&mut self, book: &Stored, made: &Stored, r: &mut Rng) {
        let (tape, bytes) = (made.tape.len(), made.bytes.len());
        for room in [[tape, bytes, 16384], [tape, bytes, 1 << 18]] {
            self.flatten("lent buffers", book, Some(room), None, None, r);
        }
        for room in [[tape - 1, bytes, 16384], [tape, bytes.wrapping_sub(1), 16384], [tape, bytes, 16383], [tape, bytes, 0], [0, 0, 0]] {
            if room[1] != usize::MAX {
                self.flatten("lent buffers", book, Some(room), Some(18), None, r);
            }
        }
    }

    // ---- corrections in a row

    /// So many accepted corrections of one book, those that are refused not counted; ours flattened where 17 comes.
    fn row(&mut self, profile: &Profile, seed: u64, place: u64, corrections: u64) {
        let mut g = Gen::new(Rng::new(seed ^ 0x0726_f77e, place), profile);
        let mut ours = Stored::of(&first(&mut g));
        let mut theirs = tape::Book::read(&ours.tape, &ours.bytes).expect("a book of the Rust's");
        let (mut accepted, mut flattened) = (0, 0);
        for _ in 0..5 * corrections {
            let mut c = correction(&mut g, &ours);
            let mut out = self.compare.run("corrections in a row", &c, None, None, &mut g.r);
            if let Outcome::Refused(17) = out {
                let Ok(flat) = self.flatten("where 17 comes", &ours, None, None, Some(&theirs), &mut g.r) else {
                    self.met.stuck += 1;
                    break;
                };
                flattened += 1;
                ours = flat;
                (c.tape, c.bytes) = (ours.tape.clone(), ours.bytes.clone());
                out = self.compare.run("the same, flattened before", &c, None, None, &mut g.r);
                if let Outcome::Refused(17) = out {
                    self.compare.differ("the same, flattened before", "17 again", Some(&c));
                }
            }
            self.unbroken(&c, &mut theirs, &out);
            if let Outcome::Merged { answer, .. } = out {
                ours = Stored { tape: answer.tape, bytes: answer.bytes };
                accepted += 1;
            }
            if accepted == corrections {
                self.met.rows += 1;
                break;
            }
        }
        self.met.layers = self.met.layers.max(theirs.layers());
        self.met.flattened = self.met.flattened.max(flattened);
        self.met.times[flattened.min(3) as usize] += 1;
        let _ = self.flatten("at the end of a row", &ours, None, None, Some(&theirs), &mut g.r);
    }

    /// The correction of the Rust's own book, which is never flattened: it must show what ours shows; region, reused, reread and counts, or the number,
    /// must be equal. What is left to the list of differences is left as in `run`.
    fn unbroken(&mut self, c: &Case, theirs: &mut tape::Book, out: &Outcome) {
        let class = "the same, on the Rust's book that is never flattened";
        let number = if let Outcome::Refused(n) = out { *n } else { 0 };
        let left = blank_line_lost(theirs, c);
        let c = if left { longer(c, None) } else { c.clone() };
        let reading = tape::Reading::read(&c.rtape, &c.rbytes).expect("a generated reading");
        let said = judge(theirs, c.start as usize..c.end as usize, std::str::from_utf8(&c.replacement).expect("generated text"), &reading);
        let touched = !matches!(said, Said::OtherText | Said::None(9..=14)) && mark_touched(theirs, &c);
        let t = self.compare.tally(class);
        t.of = Of::Rows;
        t.cases += 1;
        match number {
            0 => t.accepted += 1,
            n => t.refused[n as usize] += 1,
        }
        if left || touched {
            t.left += 1;
            t.left_accepted += u64::from(number == 0);
        } else {
            t.rust += 1;
        }
        if touched {
            if number != 14 {
                self.compare.differ(class, &format!("a mark at an empty region, {number}"), Some(&c));
            }
            return;
        }
        match (out, said) {
            (Outcome::Merged { answer: a, .. }, Said::Merged(m)) => {
                let counts = [a.region == [m.region.start, m.region.end], a.reused == m.reused, a.reread == m.reread, a.counts == m.counts()];
                let (tape, bytes) = m.book.write();
                let shows = shown_of(&tape, &bytes);
                if counts.contains(&false) || shows.is_none() || shows != shown_of(&a.tape, &a.bytes) {
                    self.compare.differ(class, &format!("region, reused, reread, counts equal {counts:?}; the Rust's shows something else, or more than can be written"), Some(&c));
                }
                *theirs = m.book;
            }
            (Outcome::Refused(n), Said::None(m)) if *n == m => {}
            (Outcome::Refused(12), Said::OtherText) => {}
            (Outcome::Refused(18), Said::Merged(m)) if m.counts()[3] > 3583 => {}
            (_, said) => {
                let said = if let Said::Merged(_) = said { "accepted".to_owned() } else { format!("{said:?}") };
                self.compare.differ(class, &format!("ours {number} the Rust {said}"), Some(&c));
            }
        }
    }

    // ---- limits

    /// Each limit of 18 exactly full and passed by one, and of 3.
    fn limits(&mut self) {
        for (i, (b, number)) in full().into_iter().enumerate() {
            let _ = self.flatten("limits", &Stored::of(&b), None, Some(number), None, &mut Rng::new(0, i as u64));
        }
    }

    // ---- pairs

    /// Two corrections of separate passages in both orders: two books that show the same, so one flat book, also if the book between them was flattened.
    fn pair(&mut self, profile: &Profile, seed: u64, place: u64) {
        let mut g = Gen::new(Rng::new(seed ^ 0x00b0_7404, place), profile);
        let old = first(&mut g);
        let Some([earlier, later]) = (0..40).find_map(|_| separate(&mut g, &old)) else { return };
        let moved = |e: &Correction, o: u32| (i64::from(o) + e.new.len() as i64 - i64::from(e.end - e.start)) as u32;
        let behind = Correction { start: moved(&earlier, later.start), end: moved(&earlier, later.end), ..later.clone() };
        let book = Stored::of(&old);
        let class = "pairs in both orders";
        let mut finals = vec![];
        for (first, second) in [(&earlier, &behind), (&later, &earlier)] {
            let Some(one) = self.merge(class, &book, first, &mut g.r) else { return };
            let Some(two) = self.merge(class, &one, second, &mut g.r) else { return };
            finals.push(two);
            let Ok(flat) = self.flatten("pairs, between the two", &one, None, None, None, &mut g.r) else { return };
            let Some(two) = self.merge(class, &flat, second, &mut g.r) else { return };
            finals.push(two);
        }
        self.met.pairs += 1;
        let flat: Vec<_> = finals.iter().map(|b| self.flatten("pairs, behind both", b, None, None, None, &mut g.r)).collect();
        let shows: Vec<_> = finals.iter().map(|b| shown_of(&b.tape, &b.bytes)).collect();
        if flat.iter().any(|f| f.is_err() || *f != flat[0]) || shows.iter().any(|s| s.is_none() || *s != shows[0]) {
            self.compare.differ("pairs, behind both", "the orders show different books, or their flat books differ", Some(&case(&book, None)));
        }
    }

    fn merge(&mut self, class: &'static str, book: &Stored, e: &Correction, r: &mut Rng) -> Option<Stored> {
        let (tape, bytes, rtape, rbytes) = (book.tape.clone(), book.bytes.clone(), e.reading.tape(), e.reading.bytes());
        let c = Case { tape, bytes, start: e.start, end: e.end, replacement: e.new.clone(), rtape, rbytes, room: None };
        match self.compare.run(class, &c, None, None, r) {
            Outcome::Merged { answer, .. } => Some(Stored { tape: answer.tape, bytes: answer.bytes }),
            Outcome::Refused(_) => None,
        }
    }
}

/// AngleQuotes of one byte each, of these ranges of contents.
fn quotes(layers: Vec<Layer>, ranges: &[[u32; 2]]) -> Book {
    let node = |(i, r): (usize, &[u32; 2])| inline(i as u32, i as u32 + 1, Body::new(14, 0, r));
    let mut b = Book { layers, nodes: ranges.iter().enumerate().map(node).collect(), ..Book::plain(&long(40)) };
    b.lay();
    b
}

/// 32 layers, the first ones with so many strings each, `name` of the place of each among all; one AngleQuote names all of a layer.
fn named(layers: usize, strings: usize, name: impl Fn(usize) -> Vec<u8>) -> Book {
    let layer = |l: usize| Layer {
        strings: (0..strings).map(|i| name(l * strings + i)).collect(),
        contents: (0..strings).map(|i| (0, (l * strings + i) as u32, 0)).collect(),
        segments: vec![],
    };
    let mut of: Vec<Layer> = (0..layers).map(layer).collect();
    of.resize(32, Layer::default());
    let ranges: Vec<[u32; 2]> = (0..layers).map(|l| [(l * strings) as u32, strings as u32]).collect();
    quotes(of, &ranges)
}

/// Books with the number that they are made for, 0 where they are accepted.
fn full() -> Vec<(Book, u32)> {
    let hex = |i: usize| format!("{i:x}").into_bytes();
    let mut all = vec![];
    // strings of the flat layer: of one layer, of several, the same ones in each layer, long ones that are new at each call
    for (n, number) in [(3583, 0), (3584, 18), (9000, 18)] {
        all.push((named(1, n, hex), number));
    }
    all.push((named(32, 112, hex), 18));
    all.push((named(32, 112, |i| hex(i.min(3582))), 0));
    all.push((named(32, 3583, |i| hex(i % 3583)), 0));
    all.push((named(32, 3583, |i| hex(if i == 3583 { 3583 } else { i % 3583 })), 18));
    for (n, number) in [(3583, 0), (3584, 18)] {
        let two = Layer { strings: vec![vec![b'a'; 65], vec![b'b'; 65]], contents: (0..n).map(|i| (0, i % 2, 0)).collect(), segments: vec![] };
        all.push((quotes(vec![two], &[[0, n]]), number));
    }
    // contents and segments of the flat layer: 31 times a run of 33825, and one more
    let runs = |strings, contents, segments| vec![Layer { strings: vec![strings], contents, segments }];
    let text = Seg { tag: 0, level: 0, body: Body::new(0, 0, &[0]) };
    for (more, number) in [(0, 0), (1, 18)] {
        let ranges = |len: u32| [vec![[0, len]; 31], vec![[0, more]]].concat();
        all.push((quotes(runs(vec![b'a'], vec![(0, 0, 0); 33825], vec![]), &ranges(33825)), number));
        let mut b = quotes(runs(vec![b'a'], vec![(1, 0, 33825), (1, 0, 1)], vec![text.clone(); 33825]), &ranges(1));
        if more == 1 {
            b.nodes[31].body.words[0] = 1;
        }
        all.push((b, number));
    }
    for (levels, number) in [(9, 0), (17, 0), (19, 0), (20, 18), (24, 18), (32, 18)] {
        all.push((doubling(levels), number));
    }
    // layers
    for (n, number) in [(1, 0), (31, 0), (32, 0), (33, 3)] {
        all.push((Book { layers: vec![Layer::default(); n], ..Book::plain(b"a\n\nb") }, number));
    }
    // pools of which nothing is named; texts and lists, which stay
    let unnamed = |strings, contents, segments| {
        let layer = Layer { strings: (0..strings).map(hex).collect(), contents: vec![(0, 0, 0); contents], segments: vec![text.clone(); segments] };
        Book { layers: vec![layer], ..Book::plain(b"a") }
    };
    for (n, number) in [(POOL, 0), (POOL + 1, 3)] {
        all.extend([(unnamed(n, 0, 0), number), (unnamed(1, n, 0), number), (unnamed(1, 0, n), number)]);
    }
    for (n, number) in [(TEXT, 0), (TEXT + 1, 3)] {
        all.push((Book { layers: vec![Layer::default(); 32], ..Book::plain(&long(n)) }, number));
    }
    for (n, number) in [(LIST, 0), (LIST + 1, 3)] {
        let leaf = |class: u8| {
            let body = if class < 2 { Body::new(5, 0, &[]) } else { Body::default() };
            let nodes = (0..n as u32).map(|i| Node { class, ..inline(i, i + 1, body.clone()) }).collect();
            let mut b = Book { nodes, ..Book::plain(&long(n)) };
            b.lay();
            b
        };
        all.extend([(leaf(0), number), (leaf(2), number)]);
        let diagnostic = |i: usize| Diagnostic { kind: 0, rank: 0, start: (n - i) as u32, end: (n - i) as u32, plain: i as u32 };
        all.push((Book { diagnostics: (0..n).map(diagnostic).collect(), ..Book::plain(&long(n)) }, number));
    }
    all
}

#[derive(Clone)]
struct Correction {
    start: u32,
    end: u32,
    new: Vec<u8>,
    reading: Book,
}

/// Two corrections whose regions are apart, the earlier-lying first.
fn separate(g: &mut Gen, old: &Book) -> Option<[Correction; 2]> {
    let stored = Stored::of(old);
    let mut one = |g: &mut Gen| {
        let (start, end, new) = g.edit(&old.text);
        let region = doc01::choose_region(&stored.tape, &stored.bytes, start, end, &new).ok()?;
        Some((region, start, end, new))
    };
    let (a, b) = (one(g)?, one(g)?);
    let (a, b) = if a.0[1] <= b.0[0] { (a, b) } else { (b, a) };
    if a.0[1] > b.0[0] {
        return None;
    }
    Some([a, b].map(|(_, start, end, new)| {
        let text = doc01::region_text(old, start, end, &new).expect("it has a region");
        Correction { start, end, reading: g.reading(&text), new }
    }))
}

/// A book to begin with: passages that can be corrected alone, and trees that are no larger than its corrections' are.
fn first(g: &mut Gen) -> Book {
    loop {
        let b = g.old();
        let small = || doc01::adds(&b).iter().sum::<u64>() <= 20_000;
        if doc01::passages(&b) > 1 && small() && (0..12).filter(|_| doc01::merge_in_any_room(&any(g, &b)).is_ok()).count() > 2 {
            return b;
        }
    }
}

fn any(g: &mut Gen, old: &Book) -> Case {
    let (start, end, new) = edit(g, old);
    let reading = g.reading(&doc01::region_text(old, start, end, &new).unwrap_or(b"a\n\n".to_vec()));
    Case::new(old, start, end, &new, &reading)
}

/// A correction that leaves passages that can be corrected alone, if it is accepted; of those that are refused most are left out.
fn correction(g: &mut Gen, book: &Stored) -> Case {
    let old = doc01::check_book(&book.tape, &book.bytes).expect("a book");
    loop {
        let c = any(g, &old);
        match doc01::merge_in_any_room(&c) {
            Ok(a) if doc01::read(&a.tape, &a.bytes).is_ok_and(|b| doc01::passages(&b) > 1) => return c,
            Err(n) if n == 17 || g.r.chance(10) => return c,
            _ => {}
        }
    }
}

/// An edit of the seed behind which some blank lines are left, and not too much text; one that has no region is tried again three times.
fn edit(g: &mut Gen, old: &Book) -> (u32, u32, Vec<u8>) {
    let mut regions = 3;
    loop {
        let e = g.edit(&old.text);
        let new = [&old.text[..e.0 as usize], &e.2, &old.text[e.1 as usize..]].concat();
        let lines = if g.p.strings == Strings::Fresh { 12..=20 } else { 2..=12 };
        let within = lines.contains(&behind(&new, b"\n\n").len()) && new.len() < 400;
        let shorter = new.len() < old.text.len() && old.text.len() >= 400;
        if !within && !shorter {
            continue;
        }
        if regions == 0 || doc01::region_text(old, e.0, e.1, &e.2) != Err(11) {
            return e;
        }
        regions -= 1;
    }
}

pub fn all(compare: &mut Compare, profiles: &[Profile], n: &Counts) {
    let mut f = Flattener { compare, met: Met::default() };
    for i in 0..n.books {
        f.books(profiles, n.seed, i);
    }
    for i in 0..n.rows {
        let profile = if i % 30 == 29 { &FRESH } else { &profiles[i as usize % profiles.len()] };
        f.row(profile, n.seed, i, n.corrections);
    }
    for i in 0..n.pairs {
        f.pair(&profiles[i as usize % profiles.len()], n.seed, i);
    }
    if n.limits {
        f.limits();
    }
    f.table(n);
}

impl Flattener<'_> {
    fn table(&self, n: &Counts) {
        println!("seed {}: {} books, {} rows of {} accepted corrections, {} pairs\n", n.seed, n.books, n.rows, n.corrections, n.pairs);
        self.compare.rows();
        for (what, of) in [("merges", Of::Merges), ("corrections of the Rust's book that is never flattened", Of::Rows), ("flattenings", Of::Flattenings)] {
            let t = self.compare.sum_of(of);
            println!("\n{what}: {}, put to the Rust {}, left {}; accepted {}, of them by the Rust {}", t.cases, t.rust, t.left, t.accepted, t.accepted - t.left_accepted);
        }
        let m = &self.met;
        let [none, one, two, more] = m.times;
        println!("\nrows with all their corrections {}, ended by an 18 behind a 17 {}", m.rows, m.stuck);
        println!("rows without a flattening {none}, with one {one}, with two {two}, with three and more {more}; the most {}", m.flattened);
        println!("the most layers of a book of the Rust's that is never flattened: {}", m.layers);
        println!("pairs whose merges are all accepted: {}", m.pairs);
        let met: Vec<String> = MET.iter().zip(m.flat).map(|(what, n)| format!("{what} {n}")).collect();
        println!("accepted flattenings with {}", met.join(", "));
        self.compare.unmet();
    }
}
