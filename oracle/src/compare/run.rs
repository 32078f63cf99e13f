//! One case through both sides, and what was found.
use crate::archive::{self, Archive};
use crate::book::{Answer, Case, Room};
use crate::doc01;
use crate::sample::Sample;
use crate::books::Rng;
use oracle::judge::{self, Answer as Said, Merged, judge};
use oracle::tape::{Book, Reading};
use std::collections::HashMap;
use std::panic::{AssertUnwindSafe, catch_unwind};
use std::path::Path;

#[derive(Clone, Default)]
pub struct Tally {
    pub cases: u64,
    pub accepted: u64,
    pub refused: [u64; 19],
    /// cases that were put to the Rust
    pub rust: u64,
    /// cases that wishes 1 and 5 of document 02 leave to the list of differences: doc01.rs alone is the judge
    pub left: u64,
    /// those of them that are accepted
    pub left_accepted: u64,
    pub of: Of,
    pub differences: u64,
}

/// What the cases of a class are.
#[derive(Clone, Copy, Default, PartialEq)]
pub enum Of {
    #[default]
    Merges,
    /// the region alone
    Regions,
    /// document 02, wish 6
    Flattenings,
    /// corrections of the Rust's own book, which is never flattened
    Rows,
}

pub enum Outcome {
    /// `book`: the result in the Rust's types
    Merged { answer: Box<Answer>, book: Box<Book> },
    Refused(u32),
}

#[derive(Default)]
pub struct Compare {
    pub archive: Archive,
    classes: Vec<(&'static str, Tally)>,
    pub aims: HashMap<&'static str, u64>,
    pub differences: u64,
    /// three of the listed differences; the fourth is what else is `left`
    keys_moved: u64,
    earlier_counts: u64,
    marks_touched: u64,
    /// books of the seed that have marks of no width, and their readings
    marked: [u64; 2],
    lookups: u64,
    regions_of_books: u64,
    /// what accepted merges met
    met: [u64; MET.len()],
    pub sample: Option<Sample>,
}

const MET: [&str; 26] = [
    "a new layer", "a cache hit", "a table hit", "a string over 64 bytes", "a table of 512", "a table of 1024 or more", "more probes than strings asked of the table",
    "level 32 in the new layer", "runs in runs, 8 deep or more", "runs in runs, 32 deep", "32 layers in the result", "an empty region", "a region at the text's start", "a region at its end",
    "an old node dropped", "an old pair dropped", "an old container dropped", "an old diagnostic dropped",
    "marks of no width in the result", "an old mark at the region's start", "an old mark at its end", "an old mark dropped", "a mark at the reading's start", "a mark at its end",
    "marks of a reading without text", "marks of equal keys from two lists",
];

/// How deep the runs of the reading's nodes go.
fn depth(reading: &doc01::Pools, b: &crate::book::Body) -> usize {
    let inner = |(a, n): (u32, u32)| reading.segments(a, n).iter().map(|s| if s.tag == 3 { 1 + depth(reading, &s.body) } else { 1 }).max().unwrap_or(0);
    reading.runs(b).into_iter().map(inner).max().unwrap_or(0)
}

/// Whether marks of equal keys come from two lists: at a cut of the old book's and of the reading's, or, where the reading has no text, of the old book's at both.
fn equal_keys(old: &crate::book::Book, reading: &crate::book::Book, region: [usize; 2]) -> bool {
    let ranks = |b: &crate::book::Book, at: usize| -> Vec<u32> { b.diagnostics.iter().filter(|d| d.is_mark() && d.start as usize == at).map(|d| d.rank).collect() };
    let meet = |a: &[u32], b: &[u32]| a.iter().any(|rank| b.contains(rank));
    let last = reading.text.len();
    let ([before, behind], first, end) = (region.map(|at| ranks(old, at)), ranks(reading, 0), ranks(reading, last));
    meet(&before, &first) || meet(&end, &behind) || last == 0 && meet(&before, &behind)
}

/// A graft of more items than this is not put to the Rust, which has no limit.
pub const MOST: u64 = 3_000_000;

fn hex(b: &[u8]) -> String {
    if b.is_empty() { "-".to_owned() } else { b.iter().map(|x| format!("{x:02x}")).collect() }
}

fn short(a: &Result<Answer, u32>) -> String {
    match a {
        Ok(a) => format!("{} counts {:?} tape {} bytes {}", a.line(), a.counts, hex(&a.tape), hex(&a.bytes)),
        Err(n) => format!("refused {n}"),
    }
}

fn answer_of(m: &Merged) -> Answer {
    let (tape, bytes) = m.book.write();
    Answer { region: [m.region.start, m.region.end], reused: m.reused, reread: m.reread, counts: m.counts(), tape, bytes }
}

/// Document 02, wish 1: whether the two newlines before the end of the Rust's region are not both there in the new text. The Rust does not ask that. It can
/// only be the cut one byte behind the edit's end.
pub fn blank_line_lost(book: &Book, c: &Case) -> bool {
    let (edit, replacement) = (c.start as usize..c.end as usize, std::str::from_utf8(&c.replacement).expect("passed number 2"));
    let Ok(Ok(region)) = catch_unwind(AssertUnwindSafe(|| judge::region(book, edit.clone(), replacement))) else { return false };
    let (old, new) = (book.text(), judge::edited(book.text(), &edit, replacement));
    let cut = region.end;
    cut == edit.end + 1 && cut < old.len() && old[..cut].ends_with("\n\n") && !new[..cut + new.len() - old.len()].ends_with("\n\n")
}

/// Document 02, wish 5: whether the Rust's region is empty and a mark of no width of the old book lies at its place. The Rust does not ask that.
pub fn mark_touched(book: &Book, c: &Case) -> bool {
    if book.marks().next().is_none() {
        return false;
    }
    let replacement = std::str::from_utf8(&c.replacement).expect("passed number 2");
    let Ok(Ok(region)) = catch_unwind(AssertUnwindSafe(|| judge::region(book, c.start as usize..c.end as usize, replacement))) else { return false };
    region.is_empty() && book.marks().any(|at| at as usize == region.start)
}

/// What the Rust is listed to answer then: the marks at the old text's end are there twice, at their place and moved to the new text's end; or it says no for
/// 15. Of 16 there is nothing to say no to: the cuts are the normalized text's end.
fn marks_twice(c: &Case, theirs: &Result<Answer, u32>) -> bool {
    let Ok(a) = theirs else { return *theirs == Err(15) };
    let [old, reading, new] = [(&c.tape, &c.bytes), (&c.rtape, &c.rbytes), (&a.tape, &a.bytes)].map(|(t, b)| doc01::read(t, b).expect("a book"));
    let (before, end) = (old.text.len(), new.text.len());
    let marks = old.marks_at(before);
    new.marks_at(before) == marks + reading.marks_at(0)
        && new.marks_at(end) == marks + reading.marks_at(reading.text.len())
        && new.diagnostics.len() == old.diagnostics.len() + marks + reading.diagnostics.len()
}

/// The same new text by a longer edit, which writes the newline behind the edit once more. No blank line is lost, so that the Rust's region is the wish's.
pub fn longer(c: &Case, room: Option<Room>) -> Case {
    Case { end: c.end + 1, replacement: [&c.replacement[..], b"\n"].concat(), room, ..c.clone() }
}

/// Anything else than a merge or a number is a difference.
fn answered(said: Said) -> Result<Result<Answer, u32>, Said> {
    match said {
        Said::Merged(m) => Ok(Ok(answer_of(&m))),
        Said::None(n) => Ok(Err(n)),
        other => Err(other),
    }
}

fn rust_alone(book: &Book, c: &Case) -> Result<Result<Answer, u32>, Said> {
    let reading = Reading::read(&c.rtape, &c.rbytes).expect("a generated reading");
    answered(judge(book, c.start as usize..c.end as usize, std::str::from_utf8(&c.replacement).expect("generated text"), &reading))
}

/// What is lent to a case that does not say: what the answer needs and a little more, or any little for a refusal.
fn room(answer: &Result<Answer, u32>, r: &mut Rng) -> Room {
    let more = *r.pick(&[0, 1, 7, 64, 300]);
    match answer {
        Ok(a) => [a.tape.len() + more, a.bytes.len() + *r.pick(&[0, 1, 7, 64]), 16384 + *r.pick(&[0, 0, 1, 9])],
        Err(_) => [r.below(200), r.below(200), *r.pick(&[16384, 16384, 0, 100, 16383])],
    }
}

impl Compare {
    pub fn new() -> Self {
        Self::default()
    }
    pub fn tally(&mut self, class: &'static str) -> &mut Tally {
        let at = self.classes.iter().position(|c| c.0 == class).unwrap_or_else(|| {
            self.classes.push((class, Tally::default()));
            self.classes.len() - 1
        });
        &mut self.classes[at].1
    }
    /// A case of the short texts, with its judge's number.
    fn count(&mut self, class: &'static str, number: Option<u32>, left: bool) {
        let t = self.tally(class);
        t.cases += 1;
        match number {
            None => t.accepted += 1,
            Some(n) => t.refused[n as usize] += 1,
        }
        t.left += u64::from(left);
        t.left_accepted += u64::from(left && number.is_none());
        t.rust += u64::from(!left && number != Some(8));
    }
    pub fn accepted(&mut self, class: &'static str) -> u64 {
        self.tally(class).accepted
    }
    /// The first ones are shown whole.
    pub fn differ(&mut self, class: &'static str, what: &str, c: Option<&Case>) {
        self.differences += 1;
        self.tally(class).differences += 1;
        if self.differences <= 20 {
            println!("DIFFERENCE, {class}: {what}");
            if let Some(c) = c {
                let input = c.input();
                println!("  room {:?} input of {} bytes {}", c.room, input.len(), hex(&input[..input.len().min(20_000)]));
            }
        }
    }

    fn ours(&mut self, c: &Case, room: Room) -> Result<Result<Answer, u32>, String> {
        let archive = &mut self.archive;
        catch_unwind(AssertUnwindSafe(|| archive.merge(c, room))).map_err(|e| e.downcast_ref::<&str>().map_or("panic".to_owned(), |s| (*s).to_owned()))
    }

    pub fn run_aimed(&mut self, class: &'static str, name: &'static str, c: &Case, aim: Option<u32>, r: &mut Rng) {
        *self.aims.entry(name).or_default() += u64::from(aim.is_some());
        self.run(class, c, aim, None, r);
    }

    /// `aim`: the number that the case was made for. `book`: the old book in the Rust's types, if it is there already.
    pub fn run(&mut self, class: &'static str, c: &Case, aim: Option<u32>, book: Option<&Book>, r: &mut Rng) -> Outcome {
        let said = doc01::merge_in_any_room(c);
        let room = c.room.unwrap_or_else(|| room(&said, r));
        let said = doc01::in_room(said, room);
        let number = said.as_ref().err().copied().unwrap_or(0);
        let t = self.tally(class);
        t.cases += 1;
        let turn = t.cases;
        match number {
            0 => t.accepted += 1,
            n => t.refused[n as usize] += 1,
        }
        if turn % 4 == 0 {
            self.region_of_book(class, c, (turn % 60) as usize);
        }
        match self.ours(c, room) {
            Err(what) => self.differ(class, &what, Some(c)),
            Ok(ours) if ours != said => self.differ(class, &format!("ours {} document 01 {}", short(&ours), short(&said)), Some(c)),
            Ok(_) => {}
        }
        if aim.is_some_and(|n| n != number) {
            self.differ(class, &format!("made for {aim:?}, is {number}"), Some(c));
        }
        if (1..=8).contains(&number) {
            return Outcome::Refused(number);
        }
        let read;
        let book = match book {
            Some(book) => book,
            None => {
                let Some(book) = Book::read(&c.tape, &c.bytes) else {
                    self.differ(class, "the Rust's types have no such book", Some(c));
                    return Outcome::Refused(number);
                };
                read = book;
                if read.write() != (c.tape.clone(), c.bytes.clone()) {
                    self.differ(class, "read and written again, another tape", Some(c));
                }
                &read
            }
        };
        self.lookups(class, c, book, r);
        if blank_line_lost(book, c) { self.leave(class, c, book, room, said) } else { self.rust(class, c, book, room, said) }
    }

    /// Whether a book of the seed and its reading have marks of no width.
    pub fn count_marks(&mut self, old: &crate::book::Book, reading: &crate::book::Book) {
        for (n, b) in self.marked.iter_mut().zip([old, reading]) {
            *n += u64::from(b.has_marks());
        }
    }

    fn lookups(&mut self, class: &'static str, c: &Case, book: &Book, r: &mut Rng) {
        let offset = r.below(book.text().len() + 2) as u32;
        let theirs = (Ok(judge::node_at_source(book, offset)), Ok(judge::diagnostics_allow_incremental(book)));
        let ours = (archive::node_at_source(&c.tape, &c.bytes, offset), archive::diagnostics_allow_incremental(&c.tape, &c.bytes));
        self.lookups += 1;
        if ours != theirs {
            self.differ(class, &format!("lookups at {offset}: ours {ours:?} the Rust's {theirs:?}"), Some(c));
        }
    }

    /// The Rust's answer, where `said` is accepted or a number above 8.
    fn rust(&mut self, class: &'static str, c: &Case, book: &Book, room: Room, said: Result<Answer, u32>) -> Outcome {
        let (edit, replacement) = (c.start as usize..c.end as usize, std::str::from_utf8(&c.replacement).expect("passed number 2"));
        let number = said.as_ref().err().copied().unwrap_or(0);
        if (9..=11).contains(&number) {
            self.tally(class).rust += 1;
            let theirs = catch_unwind(AssertUnwindSafe(|| judge::region(book, edit, replacement)));
            if !matches!(theirs, Ok(Err(n)) if n == number) {
                self.differ(class, &format!("refused {number}, the Rust {theirs:?}"), Some(c));
            }
            if let (Some(sample), Ok(Err(n))) = (&mut self.sample, theirs) {
                sample.offer(class, c, room, Err(n), &[]);
            }
            return Outcome::Refused(number);
        }
        if number == 18 && doc01::read(&c.rtape, &c.rbytes).is_ok_and(|b| doc01::adds(&b).iter().any(|n| *n > MOST)) {
            return Outcome::Refused(number);
        }
        let Some(reading) = Reading::read(&c.rtape, &c.rbytes) else {
            self.differ(class, "the Rust's types have no such reading", Some(c));
            return Outcome::Refused(number);
        };
        let theirs = judge(book, edit, replacement, &reading);
        // 12, 13 and the reading's own 14 are the Rust's too
        if !matches!(theirs, Said::OtherText | Said::None(13 | 14)) && mark_touched(book, c) {
            self.tally(class).left += 1;
            self.touched(class, c, number, &answered(theirs));
            return Outcome::Refused(number);
        }
        self.tally(class).rust += 1;
        match (said, theirs) {
            (Ok(a), Said::Merged(m)) => {
                self.keys_moved += u64::from(m.keys_moved);
                let met = self.meet(c, &a);
                self.earlier_counts += u64::from(m.counts != m.counts());
                let b = answer_of(&m);
                if let Some(sample) = &mut self.sample {
                    sample.offer(class, c, room, Ok(&b), &met);
                }
                if a != b {
                    self.differ(class, &format!("ours {} the Rust {}", short(&Ok(a.clone())), short(&Ok(b))), Some(c));
                }
                return Outcome::Merged { answer: Box::new(a), book: Box::new(m.book) };
            }
            (Err(n @ (13..=16)), Said::None(m)) if n == m => {
                if let Some(sample) = &mut self.sample {
                    sample.offer(class, c, room, Err(m), &[]);
                }
            }
            (Err(12), Said::OtherText) => {}
            (Err(17), Said::Merged(m)) if m.book.layers() == 33 && m.new_layer => {}
            (Err(18), Said::Merged(m)) if over(&answer_of(&m), room) => {}
            (said, theirs) => {
                let theirs = match theirs {
                    Said::Merged(m) => short(&Ok(answer_of(&m))),
                    other => format!("{other:?}"),
                };
                self.differ(class, &format!("ours {} the Rust {theirs}", short(&said)), Some(c));
            }
        }
        Outcome::Refused(number)
    }

    /// A mark of no width at an empty region, left to the list of differences: document 01 alone judges it, and says 14.
    fn touched(&mut self, class: &'static str, c: &Case, said: u32, theirs: &Result<Result<Answer, u32>, Said>) {
        self.marks_touched += 1;
        if said != 14 || !theirs.as_ref().is_ok_and(|a| marks_twice(c, a)) {
            let theirs = theirs.as_ref().map_or_else(|other| format!("{other:?}"), short);
            self.differ(class, &format!("a mark at an empty region: document 01 {said} the Rust {theirs}"), Some(c));
        }
    }

    /// A case that is left to the list of differences: document 01 alone judges it. The longer edit is one more case, with the same answer.
    fn leave(&mut self, class: &'static str, c: &Case, book: &Book, room: Room, said: Result<Answer, u32>) -> Outcome {
        let t = self.tally(class);
        t.left += 1;
        t.left_accepted += u64::from(said.is_ok());
        let sample = self.sample.take();
        let out = self.run("those left, by a longer edit", &longer(c, Some(room)), said.as_ref().err().copied(), Some(book), &mut Rng::new(0, 0));
        self.sample = sample;
        if let Ok(said) = &said && !matches!(&out, Outcome::Merged { answer, .. } if **answer == *said) {
            self.differ(class, &format!("by a longer edit another answer than {}", short(&Ok(said.clone()))), Some(c));
        }
        out
    }

    fn meet(&mut self, c: &Case, a: &Answer) -> Vec<&'static str> {
        let [old, reading, new] = [(&c.tape, &c.bytes), (&c.rtape, &c.rbytes), (&a.tape, &a.bytes)].map(|(t, b)| doc01::read(t, b).expect("a book"));
        let pools = doc01::Pools::of(&reading);
        let deep = reading.nodes.iter().filter(|n| n.class < 2).map(|n| depth(&pools, &n.body)).max().unwrap_or(0);
        let (n, fresh) = (a.counts, new.layers.len() > old.layers.len());
        let ([start, end], last) = (a.region.map(|n| n as usize), reading.text.len());
        let dropped = old.diagnostics.iter().any(|d| d.is_mark() && start < d.start as usize && (d.start as usize) < end);
        let level = new.layers.last().filter(|_| fresh).is_some_and(|l| l.segments.iter().any(|s| s.level == 32));
        let met = [
            fresh, n[1] > 0, n[2] > 0, n[4] > 0, n[5] > 0, n[5] > 1, n[6] > n[0] - n[1] - n[4],
            level, deep >= 8, deep >= 32, new.layers.len() == 32, a.region[0] == a.region[1], a.region[0] == 0, a.region[1] as usize == old.text.len(),
            (a.reused as usize) < old.nodes.len(), new.pairs.len() < old.pairs.len() + reading.pairs.len(),
            new.containers.len() < old.containers.len() + reading.containers.len(), new.diagnostics.len() < old.diagnostics.len() + reading.diagnostics.len(),
            new.has_marks(), old.marks_at(start) > 0, old.marks_at(end) > 0, dropped, reading.marks_at(0) > 0, reading.marks_at(last) > 0,
            last == 0 && reading.has_marks(), equal_keys(&old, &reading, [start, end]),
        ];
        for (count, met) in self.met.iter_mut().zip(met) {
            *count += u64::from(met);
        }
        MET.iter().zip(met).filter(|(_, met)| *met).map(|(what, _)| *what).collect()
    }

    /// The region alone, of ours and by document 01, which the Rust judges where it is asked for the merge.
    fn region_of_book(&mut self, class: &'static str, c: &Case, words: usize) {
        self.regions_of_books += 1;
        let said = doc01::choose_region(&c.tape, &c.bytes, c.start, c.end, &c.replacement).map(|r| r.map(|n| n as u32));
        let ours = self.archive.region(&c.tape, &c.bytes, c.start, c.end, &c.replacement, words);
        if ours != said {
            self.differ(class, &format!("region: ours {ours:?} document 01 {said:?}"), Some(c));
        }
    }

    /// The region alone, of ours and of the Rust; of ours and document 01, and the Rust by a longer edit, where the case is left to the list of differences.
    /// The region and whether it was.
    pub fn region(&mut self, class: &'static str, c: &Case, book: &Book, words: usize) -> Option<([u32; 2], bool)> {
        let ours = self.archive.region(&c.tape, &c.bytes, c.start, c.end, &c.replacement, words);
        let edit = c.start as usize..c.end as usize;
        let on_edges = book.text().is_char_boundary(edit.start) && book.text().is_char_boundary(edit.end);
        let theirs = |c: &Case| {
            let replacement = std::str::from_utf8(&c.replacement).expect("generated text");
            judge::region(book, c.start as usize..c.end as usize, replacement).map(|r| [r.start as u32, r.end as u32])
        };
        let left = edit.start <= edit.end && on_edges && blank_line_lost(book, c);
        let said = match left {
            true => doc01::choose_region(&c.tape, &c.bytes, c.start, c.end, &c.replacement).map(|r| r.map(|n| n as u32)),
            false if edit.start > edit.end || !on_edges => Err(8),
            false => theirs(c),
        };
        self.count(class, said.err(), left);
        self.tally(class).of = Of::Regions;
        if ours != said || left && said != theirs(&longer(c, None)) {
            self.differ(class, &format!("region: ours {ours:?} the judge {said:?}"), Some(c));
        }
        Some((ours.ok()?, left))
    }

    /// A merge without document 01's check: ours and the Rust. `left`: ours and document 01, and the Rust by a longer edit. Where a mark of no width is at an
    /// empty region: 14, which is document 01's.
    pub fn merge(&mut self, class: &'static str, c: &Case, book: &Book, room: Room, left: bool) {
        let theirs = if left { rust_alone(book, &longer(c, None)) } else { rust_alone(book, c) };
        let document = || doc01::in_room(doc01::merge_in_any_room(c), room);
        let touched = mark_touched(book, c);
        let said = match theirs {
            theirs if touched => {
                let said = document();
                self.touched(class, c, said.as_ref().err().copied().unwrap_or(0), &theirs);
                said
            }
            Ok(said) => said,
            Err(other) => return self.differ(class, &format!("the Rust {other:?}"), Some(c)),
        };
        if left && said != document() {
            self.differ(class, &format!("by a longer edit another answer: {}", short(&said)), Some(c));
        }
        self.count(class, said.as_ref().err().copied(), left || touched);
        match self.ours(c, room) {
            Err(what) => self.differ(class, &what, Some(c)),
            Ok(ours) if ours != said => self.differ(class, &format!("ours {} the judge {}", short(&ours), short(&said)), Some(c)),
            Ok(_) => {}
        }
    }

    /// The inputs of the program `merge` in a folder, and its lines.
    pub fn files(&mut self, folder: &Path) {
        let class = "files of oracle/cases";
        let mut names: Vec<_> = std::fs::read_dir(folder).expect("oracle/cases").map(|e| e.expect("an entry").path()).filter(|p| p.extension().is_some_and(|e| e == "in")).collect();
        names.sort();
        for path in names {
            let (input, line) = (std::fs::read(&path).expect("a case"), std::fs::read_to_string(path.with_extension("out")).expect("its line"));
            let said = doc01::program(&input) + "\n";
            if said != line {
                self.differ(class, &format!("{path:?}: {line:?}, document 01 {said:?}"), None);
            }
            let Some(c) = Case::of_input(&input) else {
                let t = self.tally(class);
                t.cases += 1;
                t.refused[if line == "refused 3\n" { 3 } else { 1 }] += 1;
                continue;
            };
            let c = Case { room: Some([65536, 65536, 16384]), ..c };
            let ours = match self.run(class, &c, None, None, &mut Rng::new(0, 0)) {
                Outcome::Merged { answer, .. } => answer.line(),
                Outcome::Refused(n) => format!("refused {n}"),
            };
            if ours + "\n" != line {
                self.differ(class, &format!("{path:?}: {line:?}"), Some(&c));
            }
        }
    }

    pub fn sum_of(&self, of: Of) -> Tally {
        sum(self.classes.iter().map(|c| &c.1).filter(|t| t.of == of))
    }

    /// A row for each class; all together.
    pub fn rows(&self) -> Tally {
        println!("| class | cases | accepted | put to the Rust | left to the list of differences | refused: number (times) | differences |\n|---|---|---|---|---|---|---|");
        for (name, t) in &self.classes {
            row(name, t);
        }
        let all = sum(self.classes.iter().map(|c| &c.1));
        row("together", &all);
        all
    }

    pub fn table(&self, seed: u64, count: u64) {
        println!("seed {seed}, {count} books\n");
        let all = self.rows();
        for (what, of) in [("merges", Of::Merges), ("regions alone", Of::Regions)] {
            let t = self.sum_of(of);
            println!("\n{what}: {}, put to the Rust {}, left {}; accepted {}, of them by the Rust {}", t.cases, t.rust, t.left, t.accepted, t.accepted - t.left_accepted);
        }
        println!("\nlisted differences: equal keys in another order {}, counts of an earlier merge {}", self.keys_moved, self.earlier_counts);
        println!("left to the list of differences: blank line lost at the end cut {}, mark of no width at an empty region {}", all.left - self.marks_touched, self.marks_touched);
        println!("marks of no width: in {} of the {count} books, in {} of their readings", self.marked[0], self.marked[1]);
        println!("lookups: {}, regions of books by document 01: {}", self.lookups, self.regions_of_books);
        let met: Vec<String> = MET.iter().zip(self.met).map(|(what, n)| format!("{what} {n}")).collect();
        println!("accepted merges with {}", met.join(", "));
        self.unmet();
    }

    pub fn unmet(&self) {
        let unmet: Vec<&str> = crate::damage::ALL.iter().map(|d| d.0).filter(|n| self.aims.get(n).is_none_or(|k| *k == 0)).collect();
        println!("damages that were never possible: {unmet:?}");
    }
}

fn sum<'a>(tallies: impl Iterator<Item = &'a Tally>) -> Tally {
    let mut all = Tally::default();
    for t in tallies {
        all.cases += t.cases;
        all.accepted += t.accepted;
        all.rust += t.rust;
        all.left += t.left;
        all.left_accepted += t.left_accepted;
        all.differences += t.differences;
        for (a, b) in all.refused.iter_mut().zip(t.refused) {
            *a += b;
        }
    }
    all
}

fn row(name: &str, t: &Tally) {
    let numbers: Vec<String> = (1..19).filter(|n| t.refused[*n] > 0).map(|n| format!("{n} ({})", t.refused[n])).collect();
    println!("| {name} | {} | {} | {} | {} | {} | {} |", t.cases, t.accepted, t.rust, t.left, numbers.join(", "), t.differences);
}

/// Whether the Rust's result is one of those that document 01 refuses with 18.
fn over(a: &Answer, room: Room) -> bool {
    let lent = a.tape.len() > room[0] || a.bytes.len() > room[1] || room[2] < 16384;
    lent || a.counts[3] > 3583 || doc01::read(&a.tape, &a.bytes).is_ok_and(|b| !doc01::within_limits(&b))
}
