//! The result buffers grow to what a result needs.
#![allow(missing_docs, clippy::pedantic)]

mod common;

use aozora_incremental::*;
use common::{doubled, lavish, plain};

fn doubling(levels: usize, text: &str) -> StoredBook {
    doubled(levels, |b| Segment::text(b.string(text)))
}

fn edit() -> Edit<'static> {
    Edit::new(0, 1, "x")
}

#[test]
fn shared_runs() {
    let old = plain("a\n\nb\n\nc");
    for levels in 0..16 {
        let reading = doubling(levels, "語");
        let merged = merge(&old, edit(), &reading).unwrap();
        assert_eq!(merged.stats.calls, 2 << levels);
        assert_eq!(merged.stats.allocs, 2);
        let book = Book::new(&merged.book).unwrap();
        let node = book.node(0).unwrap();
        assert!(book.tree_within(&node, 1 << 18).unwrap().is_some());
    }
    // 2 to the 20 texts and as many others pass the limit of a pool
    assert_eq!(merge(&old, edit(), &doubling(20, "語")), Err(Refusal::NoRoom));
}

/// A string of more than 64 bytes is stored again each time.
#[test]
fn long_strings() {
    let old = plain("a\n\nb\n\nc");
    let long = "長".repeat(2000);
    let merged = merge(&old, edit(), &doubling(10, &long)).unwrap();
    assert_eq!((merged.stats.long_bypass, merged.stats.allocs), (1 << 10, 1 + (1 << 10)));
    assert!(merged.book.bytes.len() > 6000 << 10);
    assert_eq!(Book::new(&merged.book).unwrap().string_count(), 1 + (1 << 10));
    assert_eq!(merge(&old, edit(), &doubling(12, &long)), Err(Refusal::NoRoom), "4097 strings");
}

/// For a desk, the merge is made again with more room where the first is too small, and is charged
/// once.
#[test]
fn charged_once() {
    let (old, reading) = (plain("a\n\nb\n\nc"), doubling(9, "語"));
    let mut ledger = Ledger::new();
    let merged = merge_for_desk(&mut ledger, 5, &old, edit(), &reading);
    assert_eq!(merged, merge(&old, edit(), &reading));
    assert!(ledger.charged().eq([(5, 1)]));
    let too_many = merge_for_desk(&mut ledger, 5, &old, edit(), &doubling(20, "語"));
    assert_eq!((too_many, ledger.total(5)), (Err(Refusal::NoRoom), Some(1)));
    let mut full = Ledger::from([u32::MAX; DESKS]);
    let answer = merge_for_desk(&mut full, 5, &old, edit(), &reading);
    assert_eq!((answer, full), (Err(Refusal::TotalFull), Ledger::from([u32::MAX; DESKS])));
}

#[test]
fn both_orders() {
    let old = plain("a\n\nb\n\nc\n\n");
    let (first, last) = (doubling(9, "語"), doubling(8, &"長".repeat(30)));
    let later = Edit::new(6, 7, "x");
    let orders =
        merge_both_orders(&old, Correction::new(edit(), &first), Correction::new(later, &last))
            .all()
            .unwrap();
    assert_eq!(orders.earlier_first, merge(&old, edit(), &first).unwrap());
    assert_eq!(orders.later_second, merge(&orders.earlier_first.book, later, &last).unwrap());
    assert_eq!(orders.later_first, merge(&old, later, &last).unwrap());
    assert_eq!(orders.earlier_second, merge(&orders.later_first.book, edit(), &first).unwrap());
    let (one, other) = (
        Book::new(&orders.later_second.book).unwrap(),
        Book::new(&orders.earlier_second.book).unwrap(),
    );
    assert_eq!(one.shows_the_same(&other, MAX_TREE_ITEMS), Ok(true));
}

#[test]
fn both_orders_that_pass_a_limit() {
    let old = plain("a\n\nb\n\nc\n\n");
    let (first, last) = (doubling(20, "語"), doubling(1, "語"));
    let orders = merge_both_orders(
        &old,
        Correction::new(edit(), &first),
        Correction::new(Edit::new(6, 7, "x"), &last),
    );
    let numbers = orders.map(|answer| answer.map_or_else(Refusal::number, |_| 0));
    assert_eq!(
        numbers,
        Orders { earlier_first: 18, later_second: 1, later_first: 0, earlier_second: 18 }
    );
}

#[test]
fn within_a_limit() {
    let (old, reading) = (plain("a\n\nb\n\nc"), doubling(8, "語"));
    let merged = merge(&old, edit(), &reading).unwrap();
    let exact = Lengths { tape: merged.book.tape.len(), bytes: merged.book.bytes.len() };
    assert_eq!(merge_within(&old, edit(), &reading, exact), Ok(merged));
    for limit in [
        Lengths { tape: exact.tape - 1, ..exact },
        Lengths { bytes: exact.bytes - 1, ..exact },
        Lengths::default(),
    ] {
        assert_eq!(merge_within(&old, edit(), &reading, limit), Err(Refusal::NoRoom));
    }
}

/// Every field of every kind counts: a run of many contents or segments, or a long string.
#[test]
fn every_field() {
    let old = plain("a\n\nb\n\nc");
    let long = "長".repeat(100);
    let none = |file| Illustration {
        file,
        number: None,
        dimensions: None,
        caption: None,
        description: None,
    };
    let empty = ContentRange::default();
    let origin = ForwardOrigin::Detached;
    let ranges: [fn(ContentRange, SegRange, StrId) -> Node; 8] = [
        |base, _, _| Node::Ruby { base, reading: ContentRange::default() },
        |reading, _, _| Node::Ruby { base: ContentRange::default(), reading },
        |target, _, _| Node::Format {
            target,
            origin: ForwardOrigin::Detached,
            payload: ForwardPayload::None,
        },
        |text, _, _| Node::Heading { text },
        |content, _, _| Node::AngleQuote { content },
        |base, _, _| Node::MarginNote { base, note: ContentRange::default() },
        |note, _, _| Node::MarginNote { base: ContentRange::default(), note },
        |_, run, file| {
            let caption = Some(Content::Segments(run));
            Node::Illustration(Illustration {
                file,
                number: None,
                dimensions: None,
                caption,
                description: None,
            })
        },
    ];
    for (place, make) in ranges.into_iter().enumerate() {
        let reading = doubled(6, |b| {
            let s = b.string("s");
            let contents = b.contents(&[Content::Plain(s); 50]);
            let segments = b.segments(&[Segment::text(s); 50]);
            b.node_segment(make(contents, segments, s))
        });
        let merged = merge(&old, edit(), &reading);
        assert_eq!(merged, lavish(&old, edit(), &reading, 1 << 20), "{place}");
        assert!(merged.unwrap().book.tape.len() > 64 * 50 * 10);
    }
    let format = |payload| Node::Format { target: empty, origin, payload };
    let gaiji = |hint, canonical| Node::Gaiji(Gaiji { hint, canonical });
    let strings: Vec<Box<dyn Fn(StrId, StrId) -> Node>> = vec![
        Box::new(|s, _| Node::HeadingHint { target: s }),
        Box::new(|s, _| Node::Kaeriten { mark: s }),
        Box::new(|s, _| Node::Directive(Directive { raw: s, kind: DirectiveKind::Sic })),
        Box::new(|s, _| gaiji(s, GaijiCanonical::Unicode)),
        Box::new(|s, t| gaiji(t, GaijiCanonical::Unresolved { mencode: Some(s) })),
        Box::new(|s, _| format(ForwardPayload::AccentBody(s))),
        Box::new(|s, _| format(ForwardPayload::QuotedTarget(s))),
        Box::new(|s, _| Node::Illustration(none(s))),
        Box::new(|s, t| Node::Illustration(Illustration { number: Some(s), ..none(t) })),
        Box::new(|s, t| Node::Illustration(Illustration { dimensions: Some(s), ..none(t) })),
        Box::new(|s, t| Node::Illustration(Illustration { description: Some(s), ..none(t) })),
        Box::new(|s, t| {
            Node::Illustration(Illustration { caption: Some(Content::Plain(s)), ..none(t) })
        }),
    ];
    for (place, make) in strings.iter().enumerate() {
        let reading = doubled(6, |b| {
            let (s, t) = (b.string(&long), b.string("t"));
            b.node_segment(make(s, t))
        });
        let merged = merge(&old, edit(), &reading);
        assert_eq!(merged, lavish(&old, edit(), &reading, 1 << 20), "{place}");
        assert!(merged.unwrap().book.bytes.len() > 64 * long.len());
    }
}

/// A large merge, in the room that its price says.
fn merged_by_price(reading: &StoredBook) -> (Estimate, Result<Merged<Lengths>, Refusal>) {
    let old = plain("a\n\nb\n\nc");
    let price = estimate(&old, edit(), reading).unwrap();
    let Lengths { tape, bytes } = price.room(&old, reading);
    let (mut tape, mut bytes, mut work) = (vec![7; tape], vec![7; bytes], vec![7; WORK_WORDS]);
    let room = Room::new(&mut tape, &mut bytes);
    (price, raw::merge(old.as_stored(), edit(), reading.as_stored(), room, &mut work))
}

/// The room of a price is exact where nothing is dropped or found again, and one byte less is not
/// enough.
#[test]
fn exact_room() {
    let (old, reading) = (plain(common::ABC), common::ruby_reading());
    let edit = Edit::new(4, 5, "x");
    let exact = estimate(&old, edit, &reading).unwrap().room(&old, &reading);
    assert_eq!(exact, Lengths { tape: 91, bytes: 23 });
    assert!(merge_within(&old, edit, &reading, exact).is_ok());
    for limit in
        [Lengths { tape: exact.tape - 1, ..exact }, Lengths { bytes: exact.bytes - 1, ..exact }]
    {
        assert_eq!(merge_within(&old, edit, &reading, limit), Err(Refusal::NoRoom));
    }
    // two long strings in turn are stored each time
    let long = doubled(3, |b| Segment::text(b.string(&"長".repeat(40))));
    let (price, merged) = merged_by_price(&long);
    assert_eq!(price.room(&plain("a\n\nb\n\nc"), &long).bytes, merged.unwrap().book.bytes);
    // without nodes nothing is grafted
    let none = BookBuilder::new().text("x\n\n").build_reading().unwrap();
    let (price, merged) = merged_by_price(&none);
    assert_eq!(price.room(&plain("a\n\nb\n\nc"), &none), merged.unwrap().book);
}

#[test]
fn large_prices() {
    let of = |levels| merged_by_price(&doubling(levels, "語"));
    let (price, merged) = of(17);
    let merged = merged.unwrap();
    assert_eq!(merged.stats.calls, 1 << 18);
    assert_eq!(
        (price.calls, price.contents, price.segments, price.is_over()),
        (1 << 18, (1 << 18) - 1, (1 << 18) + (1 << 17) - 1, false)
    );
    // 2 to the 19 texts and as many others: segments are over
    let (price, merged) = of(19);
    assert_eq!((price.is_over(), merged), (true, Err(Refusal::NoRoom)));
    assert_eq!((price.reread, price.segments), (1, Estimate::OVER));
    // 2 to the 32 of both
    let reading = doubling(31, "語");
    let old = plain("a\n\nb\n\nc");
    let price = estimate(&old, edit(), &reading).unwrap();
    assert_eq!((price.is_over(), price.byte_length), (true, 16));
}

/// Calls alone may be over: the merge is accepted.
#[test]
fn calls_over() {
    let reading = doubled(18, |b| {
        let s = b.string("s");
        let (some, none) = (Some(s), None);
        b.node_segment(Node::Illustration(Illustration {
            file: s,
            number: some,
            dimensions: some,
            caption: none,
            description: some,
        }))
    });
    let (price, merged) = merged_by_price(&reading);
    let stats = merged.unwrap().stats;
    assert!(stats.calls > MAX_POOL as u64, "{stats:?}");
    assert_eq!([price.calls, price.contents, price.segments], [Estimate::OVER; 3]);
}
