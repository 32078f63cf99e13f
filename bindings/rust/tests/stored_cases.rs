//! The stored cases of the repository, replayed: what the programs print is what this crate
//! answers.
#![allow(missing_docs, clippy::pedantic)]

mod common;

use aozora_incremental::*;
use common::{
    Lent, Parts, cases, desk_agrees, desk_agrees_within, file, flat_agrees, fx_hash, price_agrees,
    repository,
};
use std::fmt::Write;

type Answer = Result<Merged<Lengths>, Refusal>;

/// As crates/vectors prints a merge: it lends buffers without a zero, as long as the case says.
fn vector_line(case: &common::Case<'_>) -> String {
    let mut parts = Parts(case.replacement);
    let [tape, bytes, words, replacement, reading] = [(); 5].map(|()| parts.word() as usize);
    let edit = Edit::new(case.start, case.end, parts.take(replacement));
    let reading = Stored::new(parts.take(reading), parts.0);
    let room = Lengths { tape, bytes };
    desk_agrees_within(case.book, edit, reading, room, words);
    let mut lent = Lent::new(room, words);
    let answer = lent.merge(case.book, edit, reading);
    let made = made(&answer, &lent);
    the_convenient_form_agrees(case.book, edit, reading, &answer, made);
    _ = price_agrees(case.book, edit, reading);
    let shown = shown(&answer, made, Merged::to_string);
    format!("{}: {shown}, {}", case.label, rest(&lent, made))
}

/// The book that a merge made in lent buffers. A refusal's is empty.
fn made<'a>(answer: &Answer, lent: &'a Lent) -> Stored<'a> {
    let Lengths { tape, bytes } = answer.map(|m| m.book).unwrap_or_default();
    Stored::new(&lent.tape[..tape], &lent.bytes[..bytes])
}

/// What is told of an accepted merge, and the hashes of its book; or the number.
fn shown(answer: &Answer, made: Stored<'_>, told: impl Fn(&Merged<Lengths>) -> String) -> String {
    let (tape, bytes) = (fx_hash(made.tape), fx_hash(made.bytes));
    match answer {
        Ok(m) => format!("{}, tape {tape:016x} bytes {bytes:016x}", told(m)),
        Err(refusal) => format!("refused {}", refusal.number()),
    }
}

/// How many bytes and words are not zero behind the book.
fn rest(lent: &Lent, made: Stored<'_>) -> String {
    let rest = |s: &[u8]| s.iter().filter(|&&b| b != 0).count();
    let tape = rest(&lent.tape[made.tape.len()..]);
    let bytes = rest(&lent.bytes[made.bytes.len()..]);
    format!("rest {tape} {bytes} {}", lent.work.iter().filter(|&&w| w != 0).count())
}

/// With memory of its own a merge answers the same, or accepts what was refused for want of room.
fn the_convenient_form_agrees(
    book: Stored<'_>,
    edit: Edit<'_>,
    reading: Stored<'_>,
    answer: &Answer,
    made: Stored<'_>,
) {
    match (merge(book, edit, reading), answer) {
        (Ok(ours), Ok(theirs)) => {
            assert_eq!(ours.book.as_stored(), made);
            assert_eq!(
                (ours.region, ours.reused, ours.reread, ours.stats),
                (theirs.region, theirs.reused, theirs.reread, theirs.stats)
            );
            let book = Book::new(&ours.book).unwrap();
            assert_eq!(BookBuilder::from_book(&book).stored().unwrap(), ours.book);
        }
        (ours, Err(Refusal::NoRoom)) => assert!(matches!(ours, Ok(_) | Err(Refusal::NoRoom))),
        (ours, theirs) => assert_eq!(ours.map(|_| ()), theirs.map(|_| ())),
    }
}

fn replay(name: &str, line: impl FnMut(&common::Case<'_>) -> String) {
    let (input, output) =
        (file(&format!("crates/{name}/stdin")), file(&format!("crates/{name}/stdout")));
    let ours: Vec<String> = cases(&input).iter().map(line).collect();
    let theirs = String::from_utf8(output).unwrap();
    assert!(ours.len() > 20);
    assert_eq!(ours.join("\n") + "\n", theirs);
}

#[test]
fn vectors() {
    replay("vectors", vector_line);
}

/// What a case of crates/desk_run leaves to the next: its ledger, and its book, or the merged one
/// where it was accepted.
#[derive(Default)]
struct Left {
    ledger: Vec<u32>,
    book: StoredBook,
}

impl Left {
    /// A case brings what it does not keep of the one before: bit 0 is the ledger, bit 1 the book.
    fn bring(&mut self, kept: usize, ledger: Vec<u32>, book: Stored<'_>) {
        if kept & 1 == 0 {
            self.ledger = ledger;
        }
        if kept & 2 == 0 {
            self.book = book.into();
        }
    }
}

/// As crates/desk_run prints a merge for a desk: it lends buffers as crates/vectors does.
fn desk_line(left: &mut Left, case: &common::Case<'_>) -> String {
    let mut parts = Parts(case.replacement);
    let [tape, bytes, words, desk, kept, totals, ledger, replacement, reading] =
        [(); 9].map(|()| parts.word() as usize);
    left.bring(kept, ledger_of(parts.take(ledger), totals), case.book);
    let edit = Edit::new(case.start, case.end, parts.take(replacement));
    let reading = Stored::new(parts.take(reading), parts.0);
    let (before, book) = (left.ledger.clone(), left.book.as_stored());
    let mut lent = Lent::new(Lengths { tape, bytes }, words);
    let answer = lent.merge_for_desk(desk as u32, &mut left.ledger, book, edit, reading);
    let made = made(&answer, &lent);
    if answer.is_ok() {
        left.book = made.into();
    }
    let (shown, ledger) = (shown(&answer, made, without_counts), in_desks(&left.ledger, &before));
    format!("{}: {shown}, {ledger}, {}", case.label, rest(&lent, made))
}

/// A ledger of so many totals. Zeros at its end are not written.
fn ledger_of(written: &[u8], len: usize) -> Vec<u32> {
    let mut bytes = written.to_vec();
    bytes.resize(4 * len, 0);
    let mut parts = Parts(&bytes);
    (0..len).map(|_| parts.word()).collect()
}

/// What crates/desk_run tells of a merge: nothing of the interner.
fn without_counts(m: &Merged<Lengths>) -> String {
    let Span { start, end } = m.region;
    format!("region {start} {end} reused {} reread {}", m.reused, m.reread)
}

/// A ledger as crates/desk_run prints it: which desks have what, zeros left out, and the sum.
fn in_desks(ledger: &[u32], before: &[u32]) -> String {
    let as_before = if ledger == before { " as before" } else { "" };
    let mut out = format!("ledger of {}{as_before}", ledger.len());
    let mut first = 0;
    for run in ledger.chunk_by(|a, b| a == b) {
        let last = first + run.len() - 1;
        match (run[0], run.len()) {
            (0, _) => {}
            (total, 1) => out += &format!(", desk {first} has {total}"),
            (total, _) => out += &format!(", desks {first} to {last} have {total}"),
        }
        first = last + 1;
    }
    let sum: u64 = ledger.iter().map(|&total| u64::from(total)).sum();
    out + &format!(", sum {sum}")
}

#[test]
fn desk_run() {
    let mut left = Left::default();
    replay("desk_run", |case| desk_line(&mut left, case));
}

/// As crates/flatten_run prints a flattening: a case brings a book, or has the one that the case
/// before left; its correction, if it has one, is merged into the book and into the flat one.
fn flat_line(left: &mut StoredBook, case: &common::Case<'_>) -> String {
    let mut parts = Parts(case.replacement);
    let [tape, bytes, words, kept, replacement, reading] = [(); 6].map(|()| parts.word() as usize);
    if kept & 2 == 0 {
        *left = case.book.into();
    }
    let lend = || Lent::new(Lengths { tape, bytes }, words);
    let mut lent = lend();
    let answer = lent.flatten(left.as_stored());
    the_grown_form_agrees(left, &answer, &lent);
    let Lengths { tape, bytes } = answer.unwrap_or_default();
    let made = Stored::new(&lent.tape[..tape], &lent.bytes[..bytes]);
    let mut out = match answer {
        Ok(_) => {
            let hashes = (fx_hash(made.tape), fx_hash(made.bytes));
            format!("{tape} and {bytes} bytes, tape {:016x} bytes {:016x}", hashes.0, hashes.1)
        }
        Err(refusal) => format!("refused {}", refusal.number()),
    };
    out = format!("{}: {out}, {}", case.label, rest(&lent, made));
    let mut flat = StoredBook::from(made);
    if answer.is_ok() {
        let number = check_book(&flat).map_or_else(Refusal::number, |()| 0);
        let mut twice = lend();
        assert_eq!(twice.flatten(flat.as_stored()), answer);
        let same = if twice == lent { "the same" } else { "another" };
        write!(out, ", check {number}, again {same}").unwrap();
    }
    if reading > 0 {
        let edit = Edit::new(case.start, case.end, parts.take(replacement));
        let reading = Stored::new(parts.take(reading), parts.0);
        out += &format!("\n  merge before: {}", correct(left, edit, reading, lend));
        if answer.is_ok() {
            out += &format!("\n  merge after: {}", correct(&mut flat, edit, reading, lend));
        }
    }
    if answer.is_ok() {
        *left = flat;
    }
    out
}

/// A correction of a book, in lent buffers. Accepted, it stands in the book's place.
fn correct(
    book: &mut StoredBook,
    edit: Edit<'_>,
    reading: Stored<'_>,
    lent: impl Fn() -> Lent,
) -> String {
    let mut lent = lent();
    let answer = lent.merge(book.as_stored(), edit, reading);
    let made = made(&answer, &lent);
    let shown = shown(&answer, made, Merged::to_string);
    if answer.is_ok() {
        *book = made.into();
    }
    shown
}

/// With memory of its own a flattening answers the same, or accepts what was refused for want of
/// room.
fn the_grown_form_agrees(book: &StoredBook, answer: &Result<Lengths, Refusal>, lent: &Lent) {
    let ours = flatten_book(book);
    match (&ours, answer) {
        (Ok(ours), Ok(taken)) => {
            let made = Stored::new(&lent.tape[..taken.tape], &lent.bytes[..taken.bytes]);
            assert!(ours.as_stored() == made);
        }
        (Ok(_) | Err(Refusal::NoRoom), Err(Refusal::NoRoom)) => {}
        (ours, theirs) => assert_eq!(ours.as_ref().map(|_| ()), theirs.as_ref().map(|_| ())),
    }
    if ours.is_ok_and(|flat| flat.tape.len() < 1 << 20) {
        flat_agrees(book.as_stored());
    }
}

#[test]
fn flatten_run() {
    let mut left = StoredBook::default();
    replay("flatten_run", |case| flat_line(&mut left, case));
}

/// As crates/estimate_run prints a price: the program lends words that are all seven.
#[test]
fn estimate_run() {
    let mut numbers = std::collections::BTreeMap::new();
    let input = file("crates/estimate_run/stdin");
    let lines: Vec<String> = cases(&input)
        .iter()
        .map(|case| {
            let mut parts = Parts(case.replacement);
            let [words, replacement, reading] = [(); 3].map(|()| parts.word() as usize);
            let edit = Edit::new(case.start, case.end, parts.take(replacement));
            let reading = Stored::new(parts.take(reading), parts.0);
            let mut work = vec![7; words];
            let price = raw::estimate(case.book, edit, reading, &mut work);
            // tests/memory.rs merges the large ones
            if !price.is_ok_and(|price| price.calls.max(price.contents) > 10_000) {
                let merged = price_agrees(case.book, edit, reading);
                desk_agrees(case.book, edit, reading, &merged);
                *numbers.entry(merged.map_or_else(Refusal::number, |_| 0)).or_insert(0) += 1;
            }
            let shown = price.map_or_else(
                |refusal| format!("refused {}", refusal.number()),
                |price| price.to_string(),
            );
            let rest = work.iter().filter(|&&w| w != 0).count();
            format!("{}: {shown}, rest {rest}", case.label)
        })
        .collect();
    let stored = String::from_utf8(file("crates/estimate_run/stdout")).unwrap();
    assert_eq!(lines.join("\n") + "\n", stored);
    assert!((0..=18).all(|n| numbers.contains_key(&n)), "{numbers:?}");
}

#[test]
fn tape_run() {
    replay("tape_run", |case| {
        let number = |answer: Result<(), Refusal>| answer.map_or_else(Refusal::number, |()| 0);
        let mut out = format!(
            "{}: check {}, reading {}",
            case.label,
            number(check_book(case.book)),
            number(check_reading(case.book))
        );
        if check_book(case.book).is_ok() {
            out += &asked(case);
        }
        out
    });
}

/// What tape_run asks of an accepted book.
fn asked(case: &common::Case<'_>) -> String {
    let (book, a, b) = (case.book, case.start, case.end);
    let (mut tape, mut bytes) = ([7; 2048], [7; 64]);
    let copied = match raw::copy_book(book, Room::new(&mut tape, &mut bytes)) {
        Ok(lengths) => format!("{} {}", lengths.tape, lengths.bytes),
        Err(refusal) => format!("refused {}", refusal.number()),
    };
    let hex = |s: &[u8]| {
        s[..16]
            .iter()
            .fold(String::new(), |mut out, b| write!(out, "{b:02x}").map(|()| out).unwrap())
    };
    let run = |run: Option<raw::Run>| match run {
        None => "none".to_owned(),
        Some(raw::Run { count: 0, .. }) => "0".to_owned(),
        Some(raw::Run { place, count }) => format!("{count} at {place}"),
    };
    let allowed = if diagnostics_allow_incremental(book).unwrap() { "yes" } else { "no" };
    let node = node_at_source(book, a)
        .unwrap()
        .map_or_else(|| "none".to_owned(), |place| place.to_string());
    let string = lookup_str(book, StrId(a))
        .unwrap()
        .map_or_else(|| "none".to_owned(), |s| format!("\"{s}\""));
    let contents = run(raw::lookup_contents(book, ContentRange { start: a, len: b }).unwrap());
    let segments = run(raw::lookup_segments(book, SegRange { start: a, len: b }).unwrap());
    format!(
        "\n  copy: {copied}, {} {}\n  diagnostics: {allowed}\n  node at {a}: {node}\n  string {a}: {string}\n  contents {a} {b}: {contents}\n  segments {a} {b}: {segments}",
        hex(&tape),
        hex(&bytes)
    )
}

#[test]
fn region_run() {
    replay("region_run", |case| {
        let shown =
            match choose_region(case.book, Edit::new(case.start, case.end, case.replacement)) {
                Err(refusal) => format!("refused {}", refusal.number()),
                Ok(region) => {
                    let text =
                        Book::new(case.book).unwrap().source(region).unwrap().replace('\n', "\\n");
                    format!("region {} {} \"{text}\"", region.start, region.end)
                }
            };
        format!("{}: {shown}", case.label)
    });
}

/// The program `merge` of document 01, section Runs.
fn program(input: &[u8]) -> String {
    match answer(input) {
        Ok(merged) => format!("{merged}\n"),
        Err(refusal) => format!("refused {}\n", refusal.number()),
    }
}

fn answer(input: &[u8]) -> Answer {
    if input.len() < 28 {
        return Err(Refusal::Layout);
    }
    let mut parts = Parts(input);
    let [tape, bytes, start, end, replacement, reading_tape, reading_bytes] =
        [(); 7].map(|()| parts.word());
    let lengths = [tape, bytes, replacement, reading_tape, reading_bytes].map(|n| n as usize);
    if lengths.iter().any(|&n| n > 65536) {
        return Err(Refusal::OverLimit);
    }
    if parts.0.len() != lengths.iter().sum::<usize>() {
        return Err(Refusal::Layout);
    }
    let [tape, bytes, replacement, reading_tape, reading_bytes] = lengths.map(|n| parts.take(n));
    let (book, edit, reading) = (
        Stored::new(tape, bytes),
        Edit::new(start, end, replacement),
        Stored::new(reading_tape, reading_bytes),
    );
    let mut lent = Lent::new(Lengths { tape: 65536, bytes: 65536 }, WORK_WORDS);
    let answer = lent.merge(book, edit, reading);
    the_convenient_form_agrees(book, edit, reading, &answer, made(&answer, &lent));
    answer
}

#[test]
fn merge_run() {
    assert_eq!(program(&file("crates/merge/stdin")).as_bytes(), file("crates/merge/stdout"));
}

/// The inputs of the program with the Rust's answers.
#[test]
fn oracle_cases() {
    let mut count = 0;
    for entry in std::fs::read_dir(repository().join("oracle/cases")).unwrap() {
        let input = entry.unwrap().path();
        if input.extension().is_some_and(|e| e == "in") {
            let expected = std::fs::read_to_string(input.with_extension("out")).unwrap();
            assert_eq!(program(&std::fs::read(&input).unwrap()), expected, "{}", input.display());
            count += 1;
        }
    }
    assert!(count >= 60, "{count}");
}
