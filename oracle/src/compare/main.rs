//! The proved merge against the Rust, in one process: oracle/README.md says what is compared and by what each number is judged.
mod archive;
mod book;
mod books;
mod damage;
mod differences;
mod doc01;
mod exhaustive;
mod flatten;
mod limits;
mod run;
mod sample;
mod shown;

use book::{Book, Case, Layer, NONE};
use books::{Gen, Profile, Rng, boundaries, profiles};
use damage::Damaged;
use run::{Compare, Outcome};
use sample::Sample;
use std::path::Path;

/// A book, an edit, a reading of the region that document 01 chooses; a short one where there is no region.
struct Base {
    old: Book,
    edit: (u32, u32, Vec<u8>),
    reading: Book,
}

impl Base {
    fn case(&self) -> Case {
        Case::new(&self.old, self.edit.0, self.edit.1, &self.edit.2, &self.reading)
    }
}

/// The text that is to be read anew; some text where there is none.
fn region_text(old: &Book, edit: &(u32, u32, Vec<u8>)) -> Vec<u8> {
    doc01::region_text(old, edit.0, edit.1, &edit.2).unwrap_or(b"a\n\n".to_vec())
}

fn base(g: &mut Gen) -> Base {
    let old = g.old();
    let mut edit = g.edit(&old.text);
    for _ in 0..3 {
        // most texts have a region; one that has none is tried again, so that more cases get to it
        if doc01::region_text(&old, edit.0, edit.1, &edit.2) == Err(11) {
            edit = g.edit(&old.text);
        }
    }
    let reading = g.reading(&region_text(&old, &edit));
    Base { old, edit, reading }
}

/// Merges into the book that came out of a merge: of the Rust's the one in its own types, where it made one, of ours the tape.
fn chain(compare: &mut Compare, g: &mut Gen, mut last: Outcome) {
    for step in ["second merges", "third merges", "fourth merges"] {
        let Outcome::Merged { answer, book } = last else { return };
        let old = doc01::check_book(&answer.tape, &answer.bytes).expect("a merged book is a book");
        let edit = g.edit(&old.text);
        let reading = g.reading(&region_text(&old, &edit));
        let case = Case::new(&old, edit.0, edit.1, &edit.2, &reading);
        last = compare.run(step, &case, None, Some(&book), &mut g.r);
    }
}

// ---- the same case with something wrong, each with the number that it aims at, if only one is possible

fn aimed(compare: &mut Compare, r: &mut Rng, b: &Base, reached: bool, turn: usize) {
    let (name, number, damage) = damage::ALL[turn % damage::ALL.len()];
    let mut case = b.case();
    let mut d = Damaged::of(b.old.clone());
    if damage(r, &mut d).is_some() {
        (case.tape, case.bytes) = (d.tape(), d.bytes());
        compare.run_aimed("one damage, old book", name, &case, Some(number), r);
    }
    let mut case = b.case();
    let mut d = Damaged::of(b.reading.clone());
    if damage(r, &mut d).is_some() {
        (case.rtape, case.rbytes) = (d.tape(), d.bytes());
        let number = if number == 3 { 1 } else { number };
        compare.run_aimed("one damage, reading", name, &case, reached.then_some(number), r);
    }
}

fn two_damages(compare: &mut Compare, r: &mut Rng, b: &Base) {
    let mut case = b.case();
    let (mut old, mut reading) = (Damaged::of(b.old.clone()), Damaged::of(b.reading.clone()));
    for _ in 0..2 {
        let damage = r.pick(damage::ALL).2;
        let _ = if r.chance(50) { damage(r, &mut old) } else { damage(r, &mut reading) };
    }
    (case.tape, case.bytes, case.rtape, case.rbytes) = (old.tape(), old.bytes(), reading.tape(), reading.bytes());
    compare.run("two damages", &case, None, None, r);
}

/// One to three bytes of one part are other ones, or a byte is put in or taken out.
fn bytes_changed(compare: &mut Compare, r: &mut Rng, b: &Base) {
    let mut case = b.case();
    let part = match r.below(9) {
        0..=2 => &mut case.tape,
        3 => &mut case.bytes,
        4 => &mut case.replacement,
        5..=7 => &mut case.rtape,
        _ => &mut case.rbytes,
    };
    for _ in 0..r.within(1, 3) * usize::from(!part.is_empty()) {
        let (at, any) = (r.below(part.len()), r.next() as u8);
        part[at] = *r.pick(&[any, part[at] ^ 1, part[at].wrapping_add(1), part[at].wrapping_sub(1), 0, 255]);
    }
    if r.chance(10) {
        let (at, any) = (r.below(part.len() + 1), r.next() as u8);
        if r.chance(50) { part.insert(at, any) } else { part.truncate(at) }
    }
    compare.run("bytes changed", &case, None, None, r);
}

fn wrong_edit(compare: &mut Compare, r: &mut Rng, b: &Base) {
    let mut case = b.case();
    let n = b.old.text.len() as u32;
    let marks = boundaries(&b.old.text);
    let inside: Vec<u32> = (0..n).filter(|i| !marks.contains(&(*i as usize))).collect();
    let mut edits = vec![(n, n + 1), (n + 1, n + 1), (1, 0), (NONE, NONE), (0, NONE), (n + 1, n)];
    for i in inside {
        edits.extend([(i, n), (0, i), (i, i)]);
    }
    (case.start, case.end) = *r.pick(&edits);
    if r.chance(30) {
        case.replacement = vec![0xff];
    }
    compare.run("wrong edit", &case, Some(8), None, r);
}

fn wrong_replacement(compare: &mut Compare, r: &mut Rng, b: &Base) {
    let mut case = b.case();
    case.replacement.extend_from_slice(*r.pick(&[&b"\xff"[..], b"\xe6\xbc", b"\x80", b"\xed\xa0\x80", b"\xf4\x90\x80\x80"]));
    compare.run("wrong replacement", &case, Some(2), None, r);
}

fn same_text(compare: &mut Compare, r: &mut Rng, b: &Base) {
    let mut case = b.case();
    case.replacement = b.old.text[case.start as usize..case.end as usize].to_vec();
    compare.run("the same text", &case, Some(9), None, r);
}

/// A letter of the reading's text is another one; number 12, if nothing before says no.
fn other_text(compare: &mut Compare, r: &mut Rng, b: &Base, reached: bool) {
    let mut reading = b.reading.clone();
    let letters: Vec<usize> = (0..reading.text.len()).filter(|i| reading.text[*i] < 0x80).collect();
    if letters.is_empty() {
        return;
    }
    let at = *r.pick(&letters);
    reading.text[at] = if reading.text[at] == b'q' { b'r' } else { b'q' };
    let case = Case::new(&b.old, b.edit.0, b.edit.1, &b.edit.2, &reading);
    compare.run("another text", &case, reached.then_some(12), None, r);
}

/// Old books of 31 and 32 layers.
fn full_layers(compare: &mut Compare, r: &mut Rng, b: &Base, accepted: bool) {
    for n in [31, 32] {
        let mut old = b.old.clone();
        while old.layers.len() < n {
            let at = r.within(0, old.layers.len());
            old.layers.insert(at, Layer::default());
        }
        let case = Case::new(&old, b.edit.0, b.edit.1, &b.edit.2, &b.reading);
        let aim = accepted && n == 32 && !b.reading.nodes.is_empty() && b.old.layers.len() <= 32;
        compare.run("31 and 32 layers", &case, aim.then_some(17), None, r);
    }
}

/// Result buffers exactly full, one byte short; work words one short.
fn rooms(compare: &mut Compare, r: &mut Rng, b: &Base, tape: usize, bytes: usize) {
    let mut case = b.case();
    let rooms = [[tape, bytes, 16384], [tape - 1, bytes, 16384], [tape, bytes.wrapping_sub(1), 16384], [tape, bytes, 16383], [0, 0, 0]];
    for room in rooms.into_iter().filter(|r| r[1] != usize::MAX) {
        case.room = Some(room);
        let aim = (room != [tape, bytes, 16384]).then_some(18);
        compare.run("lent buffers", &case, aim, None, r);
    }
}

fn one(compare: &mut Compare, profile: &Profile, seed: u64, i: u64) {
    let mut g = Gen::new(Rng::new(seed, i), profile);
    let b = base(&mut g);
    compare.count_marks(&b.old, &b.reading);
    let out = compare.run(profile.name, &b.case(), None, None, &mut g.r);
    let reached = !matches!(out, Outcome::Refused(n) if n < 12);
    let sizes = match &out {
        Outcome::Merged { answer, .. } => Some((answer.tape.len(), answer.bytes.len())),
        Outcome::Refused(_) => None,
    };
    if g.r.chance(40) {
        chain(compare, &mut g, out);
    }
    let r = &mut g.r;
    aimed(compare, r, &b, reached, i as usize);
    match (i / 12 % 12, sizes) {
        (0 | 6, _) => two_damages(compare, r, &b),
        (1..=3, _) => bytes_changed(compare, r, &b),
        (4, _) => wrong_edit(compare, r, &b),
        (5, _) => wrong_replacement(compare, r, &b),
        (7, _) => same_text(compare, r, &b),
        (8, _) => other_text(compare, r, &b, reached),
        (9, _) => full_layers(compare, r, &b, sizes.is_some()),
        (10, Some((tape, bytes))) => rooms(compare, r, &b, tape, bytes),
        _ => {}
    }
}

fn main() {
    // the Rust's panics are answers; ours are not
    std::panic::set_hook(Box::new(|p| {
        if p.location().is_some_and(|l| l.file().contains("src/compare/")) {
            eprintln!("{p}");
        }
    }));
    let number = |name: &str, default: u64| -> u64 {
        let args: Vec<String> = std::env::args().collect();
        args.iter().position(|a| a == name).and_then(|i| args.get(i + 1)?.parse().ok()).unwrap_or(default)
    };
    let flag = |name: &str| std::env::args().any(|a| a == name);
    let (seed, count) = (number("--seed", 1), number("--count", 150_000));
    if flag("--differences") {
        return differences::all();
    }
    let mut compare = Compare::new();
    let classes = profiles();
    let folder = std::env::args().skip_while(|a| a != "--sample").nth(1);
    if let Some(folder) = folder {
        return sample(&mut compare, &classes, Path::new(&folder));
    }
    if flag("--flatten") {
        let (rows, corrections, pairs) = (number("--rows", 480), number("--corrections", 100), number("--pairs", 6000));
        flatten::all(&mut compare, &classes, &flatten::Counts { seed, books: number("--count", 30_000), rows, corrections, pairs, limits: !flag("--no-limits") });
        std::process::exit(i32::from(compare.differences > 0));
    }
    for i in 0..count {
        one(&mut compare, &classes[i as usize % classes.len()], seed, i);
    }
    let length = number("--length", 7) as usize;
    if length > 1 {
        exhaustive::all(&mut compare, length);
    }
    if !flag("--no-limits") {
        limits::all(&mut compare);
    }
    compare.files(&cases());
    compare.table(seed, count);
    std::process::exit(i32::from(compare.differences > 0));
}

/// A fixed seed, so that the sample is the same each time.
fn sample(compare: &mut Compare, classes: &[Profile], folder: &Path) {
    compare.sample = Some(Sample::default());
    // the smallest cases for each thing first
    for (round, most) in [250, 400, 700, 1500].into_iter().enumerate() {
        compare.sample.as_mut().expect("a sample").most = most;
        for i in 0..6000 {
            one(compare, &classes[i as usize % classes.len()], 2026 + round as u64, i);
        }
    }
    if compare.differences == 0 {
        compare.sample.take().expect("a sample").write(folder);
    }
}

/// oracle/cases
fn cases() -> std::path::PathBuf {
    std::env::args().skip_while(|a| a != "--cases").nth(1).expect("--cases FOLDER").into()
}
