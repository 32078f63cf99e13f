//! Each number 1 to 20 is reached, and means what documents 01 and 02 say.
#![allow(missing_docs, clippy::pedantic)]

mod common;

use aozora_incremental::*;
use common::{ABC, desk_agrees, plain, price_agrees, ruby_reading};
use std::collections::BTreeSet;

/// P5 with another old book, edit or reading.
fn p5<'a>(old: impl Into<Stored<'a>>, edit: Edit<'_>, reading: impl Into<Stored<'a>>) -> Refusal {
    let (old, reading) = (old.into(), reading.into());
    let merged = price_agrees(old, edit, reading);
    desk_agrees(old, edit, reading, &merged);
    merged.unwrap_err()
}

/// P5 for a desk, with this total in each place of the ledger.
fn p5_for(desk: u32, total: u32) -> Refusal {
    let mut ledger = Ledger::from([total; DESKS]);
    merge_for_desk(&mut ledger, desk, &plain(ABC), x(), &ruby_reading()).unwrap_err()
}

fn x() -> Edit<'static> {
    Edit::new(4, 5, "x")
}

fn built(f: impl FnOnce(&mut BookBuilder)) -> StoredBook {
    let mut b = BookBuilder::new();
    f(&mut b);
    b.stored().unwrap()
}

fn layers(n: usize) -> StoredBook {
    built(|b| {
        b.text(ABC);
        for _ in 1..n {
            b.layer();
        }
    })
}

fn inline(node: Node) -> NodeRef {
    NodeRef::Inline(node)
}

fn ruby(b: &mut BookBuilder, base: &str) -> NodeRef {
    inline(Node::Ruby { base: b.plain(base), reading: b.plain("") })
}

fn format(b: &mut BookBuilder, target: &str) -> NodeRef {
    inline(Node::Format {
        target: b.plain(target),
        origin: ForwardOrigin::Referenced,
        payload: ForwardPayload::None,
    })
}

fn diagnostic(kind: DiagnosticKind, start: u32, end: u32) -> Diagnostic {
    Diagnostic { kind, code_rank: 0, span: Span::new(start, end), plain: 0 }
}

/// The refusals that the cases below reach, each with its number.
fn reached() -> Vec<(u32, Refusal)> {
    let (old, reading) = (plain(ABC), ruby_reading());
    let mut all: Vec<(u32, Refusal)> = Vec::new();
    let mut case = |number, refusal| all.push((number, refusal));

    case(1, p5(Stored::new(&[], &[]), x(), &reading));
    case(1, p5(&old, x(), &layers(2)));
    case(1, built(|b| _ = b.layer()).as_stored_reading());
    case(2, p5(&old, Edit::new(4, 5, b"\xff"), &reading));
    case(2, check_book(Stored::new(&[1, 1, 0, 0, 0, 1, 0, 0, 0, 2, 10], b"\x80a")).unwrap_err());
    case(3, p5(&layers(33), x(), &reading));
    case(4, p5(&built(|b| _ = b.text(ABC).contents(&[Content::Plain(StrId(0))])), x(), &reading));
    case(
        5,
        p5(&built(|b| _ = b.text(ABC).segments(&[Segment::node(0, Node::Line)])), x(), &reading),
    );
    case(
        6,
        p5(
            &built(|b| _ = b.text(ABC).diagnostic(diagnostic(DiagnosticKind::Other, 2, 1))),
            x(),
            &reading,
        ),
    );
    case(7, p5(&built(|b| _ = b.raw_texts(ABC, "")), x(), &reading));
    case(8, p5(&old, Edit::new(5, 4, "x"), &reading));
    case(8, p5(&old, Edit::new(4, 11, "x"), &reading));
    case(8, p5(&plain("é\n\nb"), Edit::new(1, 2, "x"), &reading));
    case(9, p5(&old, Edit::new(4, 5, "b"), &reading));
    let dependent = built(|b| {
        let ruby = ruby(b, "a");
        let format = format(b, "a");
        b.node("a", ruby).text("\n\n").node("b", format).text("\n\n");
    });
    case(10, p5(&dependent, Edit::new(3, 3, "x"), &reading));
    case(11, p5(&plain("abc"), Edit::new(0, 1, "x"), &reading));
    case(12, p5(&old, x(), &plain("xc\n\n")));
    case(
        13,
        p5(
            &old,
            x(),
            &built(|b| _ = b.node("x", NodeRef::BlockOpen { inline: false }).text("b\n\n")),
        ),
    );
    for kind in [DiagnosticKind::UnclosedBracket, DiagnosticKind::UnmatchedClose] {
        case(
            14,
            p5(&old, x(), &built(|b| _ = b.text("xb\n\n").diagnostic(diagnostic(kind, 0, 1)))),
        );
    }
    let marked = built(|b| _ = b.text("aa\n").diagnostic(diagnostic(DiagnosticKind::Other, 3, 3)));
    case(14, p5(&marked, Edit::new(3, 3, "x"), &plain("x")));
    let behind = built(|b| {
        let format = format(b, "q");
        b.text("aa\n\nbb\n\n").node("c", format).text("c");
    });
    case(15, p5(&behind, x(), &reading));
    case(
        16,
        p5(&built(|b| _ = b.raw_texts("aaa\n\nb", "漢漢")), Edit::new(5, 6, "x"), &plain("x")),
    );
    case(17, p5(&layers(32), x(), &reading));
    case(18, copied_short());
    let strings = built(|b| {
        let contents: Vec<Content> =
            (0..3584).map(|i| Content::Plain(b.string(&i.to_string()))).collect();
        let content = b.contents(&contents);
        b.node("xb", inline(Node::AngleQuote { content })).text("\n\n");
    });
    case(18, p5(&old, x(), &strings));
    case(19, p5_for(64, 0));
    case(20, p5_for(63, u32::MAX));
    all
}

trait AsReading {
    fn as_stored_reading(&self) -> Refusal;
}

impl AsReading for StoredBook {
    fn as_stored_reading(&self) -> Refusal {
        check_reading(self).unwrap_err()
    }
}

fn copied_short() -> Refusal {
    let old = plain(ABC);
    let (mut tape, mut bytes) = ([7; 10], [7; 100]);
    let refusal = raw::copy_book(old.as_stored(), Room::new(&mut tape, &mut bytes)).unwrap_err();
    assert!(tape.iter().chain(&bytes).all(|&b| b == 0));
    refusal
}

#[test]
fn every_number_is_reached() {
    let reached = reached();
    for (number, refusal) in &reached {
        assert_eq!(refusal.number(), *number, "{refusal}");
    }
    let numbers: BTreeSet<u32> = reached.iter().map(|r| r.0).collect();
    assert_eq!(numbers, (1..=20).collect());
}

#[test]
fn numbers_and_messages() {
    for (number, refusal) in (1..).zip(Refusal::ALL) {
        assert_eq!((refusal.number(), Refusal::try_from(number)), (number, Ok(refusal)));
        assert_eq!(refusal.to_string(), format!("refused {number}: {}", refusal.message()));
        assert!(refusal.message().len() > 40);
    }
    for number in [0, 21, u32::MAX] {
        assert_eq!(Refusal::try_from(number), Err(NotARefusal(number)));
    }
    let messages: BTreeSet<&str> = Refusal::ALL.iter().map(|r| r.message()).collect();
    assert_eq!(messages.len(), 20);
}

/// The C header has the same names, numbers and messages.
#[test]
fn the_header_has_the_same_numbers() {
    let header = String::from_utf8(common::file("bindings/c/aozora.h")).unwrap();
    for refusal in Refusal::ALL {
        let mut name = String::new();
        for c in format!("{refusal:?}").chars() {
            if c.is_uppercase() && !name.is_empty() {
                name.push('_');
            }
            name.extend(c.to_uppercase());
        }
        let line = format!("    AOZORA_{name} = {}", refusal.number());
        assert!(
            header
                .lines()
                .any(|l| l.strip_prefix(&line).is_some_and(|rest| rest.starts_with([',', ' ']))),
            "{line}"
        );
        let message = format!("case AOZORA_{name}: return \"{}\";", refusal.message());
        assert!(header.contains(&message), "{message}");
    }
}

/// So has the crate `refusal`, and no others.
#[test]
fn the_archive_has_the_same_numbers() {
    let source = String::from_utf8(common::file("crates/refusal/src/lib.rt")).unwrap();
    let is_variant = |line: &&str| line.ends_with(',') && line.contains(" = ");
    let theirs: Vec<&str> = source.lines().map(str::trim).filter(is_variant).collect();
    assert_eq!(theirs, Refusal::ALL.map(|refusal| format!("{refusal:?} = {},", refusal.number())));
    let source = source.split_whitespace().collect::<Vec<_>>().join(" ");
    for refusal in Refusal::ALL {
        let message = format!("Refusal::{refusal:?} => {{ \"{}\" }}", refusal.message());
        assert!(source.contains(&message), "{message}");
    }
}

/// After a refusal every lent buffer is zeros; accepted, all behind the result is, and all work
/// words.
#[test]
fn lent_buffers() {
    let (old, reading) = (plain(ABC), ruby_reading());
    let mut work = vec![7; WORK_WORDS];
    let (mut tape, mut bytes) = ([7; 256], [7; 256]);
    let merged = raw::merge(
        old.as_stored(),
        x(),
        reading.as_stored(),
        Room::new(&mut tape, &mut bytes),
        &mut work,
    )
    .unwrap();
    assert_eq!(merged.book, Lengths { tape: 91, bytes: 23 });
    assert!(tape[91..].iter().chain(&bytes[23..]).all(|&b| b == 0) && work.iter().all(|&w| w == 0));
    assert_eq!(
        merge(&old, x(), &reading).unwrap().book.as_stored(),
        Stored::new(&tape[..91], &bytes[..23])
    );

    let (mut tape, mut bytes, mut few) = ([7; 256], [7; 256], vec![7; WORK_WORDS - 1]);
    let refusal = raw::merge(
        old.as_stored(),
        x(),
        reading.as_stored(),
        Room::new(&mut tape, &mut bytes),
        &mut few,
    );
    assert_eq!(refusal, Err(Refusal::NoRoom));
    assert!(tape.iter().chain(&bytes).all(|&b| b == 0) && few.iter().all(|&w| w == 0));

    for words in [0, 1, 2, 100] {
        let mut lent = vec![7; words];
        assert_eq!(raw::choose_region(old.as_stored(), x(), &mut lent), Ok(Span::new(4, 8)));
        assert!(lent.iter().all(|&w| w == 0));
    }
}

#[test]
fn diagnostics() {
    for kind in DiagnosticKind::ALL {
        let book = built(|b| _ = b.text("a").diagnostic(diagnostic(*kind, 0, 1)));
        assert_eq!(
            diagnostics_allow_incremental(&book),
            Ok(*kind < DiagnosticKind::UnclosedBracket)
        );
    }
    assert_eq!(diagnostics_allow_incremental(&plain("")), Ok(true));
}
