//! Built, checked, read and built again: the same bytes; and every kind of node with its fields.
#![allow(missing_docs, clippy::pedantic)]

mod common;

use aozora_incremental::*;
use common::{Random, file, plain, random_book, read_all, rounds};

fn rebuilt(stored: Stored<'_>) -> StoredBook {
    let book = Book::new(stored).unwrap();
    let built = BookBuilder::from_book(&book).build().unwrap();
    assert_eq!(built.as_stored(), stored);
    assert_eq!(copy_book(stored).unwrap(), built);
    built
}

/// One node of each kind, with each payload, origin, canonical form and caption; a text, a gaiji, a
/// directive and a node as segments.
#[test]
fn every_kind() {
    let mut b = BookBuilder::new();
    let strings: Vec<StrId> =
        ["s0", "s1", "s2", "s3", "s4", "s5", "s6"].map(|s| b.string(s)).into();
    let s = |i: usize| strings[i];
    let gaiji = Gaiji { hint: s(0), canonical: GaijiCanonical::Unresolved { mencode: Some(s(1)) } };
    let directive = Directive { raw: s(2), kind: DirectiveKind::Sic };
    let run = b.segments(&[
        Segment::text(s(3)).with_plain([1, 2]),
        Segment::new(SegmentItem::Gaiji(gaiji)),
        Segment::new(SegmentItem::Directive(directive)).with_plain([3, 4]),
    ]);
    let inner = b.contents(&[Content::Segments(run), Content::Plain(s(4))]);
    let deeper = b.node_segment(Node::AngleQuote { content: inner });
    assert_eq!(deeper.level, 1);
    let run = b.segments(&[deeper, Segment::text(s(5))]);
    let outer = b.contents(&[Content::Segments(run)]);
    let highest = Node::Heading { text: outer };
    assert_eq!(b.level_above(&highest), 2);
    let plain = b.plain("p");
    let empty = ContentRange::default();

    let mut nodes = vec![
        Node::Ruby { base: outer, reading: plain },
        Node::Line,
        Node::PageBreak,
        Node::SectionBreak,
        Node::BodyEnd,
        Node::ForcedBreak,
        highest,
        Node::HeadingHint { target: s(6) },
        Node::Kaeriten { mark: s(6) },
        Node::AngleQuote { content: empty },
        Node::MarginNote { base: plain, note: outer },
    ];
    for origin in ForwardOrigin::ALL {
        for payload in [
            ForwardPayload::None,
            ForwardPayload::NestedSource,
            ForwardPayload::AccentBody(s(0)),
            ForwardPayload::QuotedTarget(s(6)),
        ] {
            nodes.push(Node::Format { target: plain, origin: *origin, payload });
        }
    }
    for canonical in [
        GaijiCanonical::MenKuTen,
        GaijiCanonical::Unicode,
        GaijiCanonical::Unresolved { mencode: None },
        GaijiCanonical::Unresolved { mencode: Some(s(1)) },
    ] {
        nodes.push(Node::Gaiji(Gaiji { hint: s(3), canonical }));
    }
    for kind in DirectiveKind::ALL {
        nodes.push(Node::Directive(Directive { raw: s(2), kind: *kind }));
    }
    for caption in [None, Some(Content::Plain(s(5))), Some(Content::Segments(run))] {
        let some = Illustration {
            file: s(0),
            number: Some(s(1)),
            dimensions: Some(s(2)),
            caption,
            description: Some(s(4)),
        };
        nodes.push(Node::Illustration(some));
        nodes.push(Node::Illustration(Illustration { number: None, ..some }));
        nodes.push(Node::Illustration(Illustration { dimensions: None, ..some }));
        nodes.push(Node::Illustration(Illustration { description: None, ..some }));
    }
    let mut refs: Vec<NodeRef> =
        nodes.iter().flat_map(|n| [NodeRef::Inline(*n), NodeRef::BlockLeaf(*n)]).collect();
    refs.extend(
        [true, false]
            .into_iter()
            .flat_map(|inline| [NodeRef::BlockOpen { inline }, NodeRef::BlockClose { inline }]),
    );
    for (i, node) in (0..).zip(&refs) {
        b.node_with_plain("人", *node, [i, u32::MAX - i]).text("\n");
    }
    let stored = b.build().unwrap();
    assert_eq!(rebuilt(stored.as_stored()), stored);

    let book = Book::new(&stored).unwrap();
    let kinds: std::collections::BTreeSet<_> = nodes.iter().map(Node::kind).collect();
    assert_eq!(kinds.len(), NodeKind::ALL.len());
    assert!(book.nodes().map(|n| n.node).eq(refs));
    assert!(
        (0..)
            .zip(book.nodes())
            .all(|(i, n)| n.plain == [i, u32::MAX - i] && book.source(n.source_span) == Some("人"))
    );
    let ruby = book.tree(&book.node(0).unwrap()).unwrap().unwrap();
    let expected = "Ruby\n  base:\n    segments:\n      AngleQuote\n        content:\n          segments:\n            \"s3\"\n            Gaiji Unresolved\n              \
                    hint: \"s0\"\n              mencode: \"s1\"\n            Directive Sic\n              raw: \"s2\"\n          \"s4\"\n      \"s5\"\n  reading:\n    \"p\"";
    assert_eq!(ruby.to_string(), expected);
    read_all(&book, &mut Random::new(1));
}

/// Bodies written by hand from the table of docs/FORMAT.md: kind, tag, words 1 to 6.
#[test]
fn fields_of_bodies() {
    let contents = |start, len| ContentRange { start, len };
    let segments = |start, len| SegRange { start, len };
    let s = StrId;
    let format = |origin, payload| Node::Format { target: contents(1, 2), origin, payload };
    let gaiji = |canonical| Node::Gaiji(Gaiji { hint: s(5), canonical });
    let directive = |kind| Node::Directive(Directive { raw: s(4), kind });
    let picture = |number, dimensions, description, caption| {
        Node::Illustration(Illustration { file: s(1), number, dimensions, caption, description })
    };
    const NO: u32 = 0xFFFF_FFFF;
    let table: [(u8, u8, [u32; 6], Node); 31] = [
        (1, 0, [1, 2, 3, 4, 0, 0], Node::Ruby { base: contents(1, 2), reading: contents(3, 4) }),
        (2, 0, [1, 2, 0, 0, 0, 0], format(ForwardOrigin::Reclaimed, ForwardPayload::None)),
        (2, 5, [1, 2, 0, 0, 0, 0], format(ForwardOrigin::Referenced, ForwardPayload::NestedSource)),
        (
            2,
            10,
            [1, 2, 3, 0, 0, 0],
            format(ForwardOrigin::SelfContained, ForwardPayload::AccentBody(s(3))),
        ),
        (
            2,
            15,
            [1, 2, 3, 0, 0, 0],
            format(ForwardOrigin::Detached, ForwardPayload::QuotedTarget(s(3))),
        ),
        (3, 0, [5, 0, 0, 0, 0, 0], gaiji(GaijiCanonical::MenKuTen)),
        (3, 1, [5, 0, 0, 0, 0, 0], gaiji(GaijiCanonical::Unicode)),
        (3, 2, [5, 6, 0, 0, 0, 0], gaiji(GaijiCanonical::Unresolved { mencode: Some(s(6)) })),
        (3, 2, [5, NO, 0, 0, 0, 0], gaiji(GaijiCanonical::Unresolved { mencode: None })),
        (4, 0, [0; 6], Node::Line),
        (5, 0, [0; 6], Node::PageBreak),
        (6, 0, [0; 6], Node::SectionBreak),
        (7, 0, [0; 6], Node::BodyEnd),
        (8, 0, [0; 6], Node::ForcedBreak),
        (9, 0, [6, 1, 0, 0, 0, 0], Node::Heading { text: contents(6, 1) }),
        (10, 0, [3, 0, 0, 0, 0, 0], Node::HeadingHint { target: s(3) }),
        (11, 0, [1, 2, 3, 4, 0, 0], picture(Some(s(2)), Some(s(3)), Some(s(4)), None)),
        (
            11,
            1,
            [1, NO, 3, 4, 5, 0],
            picture(None, Some(s(3)), Some(s(4)), Some(Content::Plain(s(5)))),
        ),
        (
            11,
            2,
            [1, 2, NO, 4, 5, 2],
            picture(Some(s(2)), None, Some(s(4)), Some(Content::Segments(segments(5, 2)))),
        ),
        (11, 0, [1, 2, 3, NO, 0, 0], picture(Some(s(2)), Some(s(3)), None, None)),
        (12, 0, [7, 0, 0, 0, 0, 0], Node::Kaeriten { mark: s(7) }),
        (13, 0, [4, 0, 0, 0, 0, 0], directive(DirectiveKind::NonCanonical)),
        (13, 2, [4, 0, 0, 0, 0, 0], directive(DirectiveKind::Sic)),
        (13, 4, [4, 0, 0, 0, 0, 0], directive(DirectiveKind::WarichuOpen)),
        (13, 5, [4, 0, 0, 0, 0, 0], directive(DirectiveKind::WarichuClose)),
        (13, 7, [4, 0, 0, 0, 0, 0], directive(DirectiveKind::EditorNote)),
        (13, 9, [4, 0, 0, 0, 0, 0], directive(DirectiveKind::RubyRetarget)),
        (13, 11, [4, 0, 0, 0, 0, 0], directive(DirectiveKind::RubyPairClose)),
        (13, 13, [4, 0, 0, 0, 0, 0], directive(DirectiveKind::MarginNotePairClose)),
        (14, 0, [2, 3, 0, 0, 0, 0], Node::AngleQuote { content: contents(2, 3) }),
        (
            15,
            0,
            [1, 2, 3, 4, 0, 0],
            Node::MarginNote { base: contents(1, 2), note: contents(3, 4) },
        ),
    ];
    let words = |words: &[u32]| words.iter().flat_map(|w| w.to_le_bytes()).collect::<Vec<u8>>();
    for (kind, tag, body, node) in table {
        // 8 empty strings, 8 contents and 8 texts; one node over the text's only byte
        let head = [&[1][..], &words(&[1, 3]), &[2], &[3, 0, 0, 0, 0].repeat(8)].concat();
        let text = [&[5, 0, 0, 0, 0][..], &words(&[0, 0, 7, 0, 0, 0, 0, 0])].concat();
        let pools = [[&[4, 0][..], &words(&[3, 0])].concat().repeat(8), text.repeat(8)].concat();
        let record = [
            &[6, 0, 0][..],
            &words(&[0, 1, 2]),
            &[kind, tag],
            &words(&[8, 9]),
            &words(&body),
            &[10],
        ]
        .concat();
        let tape = [head, pools, record].concat();
        let stored = Stored::new(&tape, b"annn");
        let book = Book::new(stored).unwrap_or_else(|refusal| panic!("{node:?}: {refusal}"));
        let places = (Span::new(0, 1), NormalizedOffset(2), [8, 9]);
        let read = book.node(0).unwrap();
        assert_eq!(
            (read.node, (read.source_span, read.normalized_offset, read.plain)),
            (NodeRef::Inline(node), places)
        );
        assert!(
            book.segments().all(|s| s == Segment::text(StrId(7)))
                && book.contents().all(|c| c == Content::Plain(StrId(3)))
        );
        rebuilt(stored);
    }
}

/// Lists written by hand: a pair, a container, two diagnostics, one of them of no width, a block's
/// open and close.
#[test]
fn fields_of_lists() {
    let words = |words: &[u32]| words.iter().flat_map(|w| w.to_le_bytes()).collect::<Vec<u8>>();
    let open =
        [&[6, 2, 1][..], &words(&[0, 1, 0]), &[0, 0], &words(&[1, 2, 0, 0, 0, 0, 0, 0])].concat();
    let close =
        [&[6, 3, 0][..], &words(&[1, 2, 5]), &[0, 0], &words(&[3, 4, 0, 0, 0, 0, 0, 0])].concat();
    let pair = [&[7, 3][..], &words(&[0, 1, 2, 4])].concat();
    let container = [&[8][..], &words(&[11, 5, 6])].concat();
    let wide = [&[9, 1][..], &words(&[12, 2, 4, 13])].concat();
    let mark = [&[9, 4][..], &words(&[14, 5, 5, 15])].concat();
    let diagnostics = [wide, mark].concat();
    let tape =
        [&[1][..], &words(&[5, 13]), &[2], &open, &close, &pair, &container, &diagnostics, &[10]]
            .concat();
    let bytes = b"abcdennnnnnnnnncde".to_vec();
    let stored = Stored::new(&tape, &bytes);
    let book = Book::new(stored).unwrap();
    let nodes: Vec<_> =
        book.nodes().map(|n| (n.node, n.source_span, n.normalized_offset.0, n.plain)).collect();
    assert_eq!(nodes[0], (NodeRef::BlockOpen { inline: true }, Span::new(0, 1), 0, [1, 2]));
    assert_eq!(nodes[1], (NodeRef::BlockClose { inline: false }, Span::new(1, 2), 5, [3, 4]));
    let pair = PairLink { kind: PairKind::Tortoise, open: Span::new(0, 1), close: Span::new(2, 4) };
    assert!(book.pairs().eq([pair]));
    assert!(book.containers().eq([ContainerPair {
        plain: 11,
        open: NormalizedOffset(5),
        close: NormalizedOffset(6)
    }]));
    let (kind, span) = (DiagnosticKind::NonCanonicalDirective, Span::new(2, 4));
    let wide = Diagnostic { kind, code_rank: 12, span, plain: 13 };
    let (kind, span) = (DiagnosticKind::Other, Span::new(5, 5));
    let mark = Diagnostic { kind, code_rank: 14, span, plain: 15 };
    assert!(book.diagnostics().eq([wide, mark]));
    rebuilt(stored);
}

#[test]
fn random_books_are_never_refused() {
    for seed in 0..rounds(1500) {
        let r = &mut Random::new(seed);
        let layers = 1 + r.below(4);
        let stored = random_book(r, layers)
            .build()
            .unwrap_or_else(|refusal| panic!("seed {seed}: {refusal}"));
        rebuilt(stored.as_stored());
        read_all(&Book::new(&stored).unwrap(), r);
        assert_eq!(check_reading(&stored).is_ok(), layers == 1);
    }
}

/// The accepted books of the stored cases, which another program wrote.
#[test]
fn stored_books() {
    let mut accepted = 0;
    for name in ["tape_run", "region_run", "vectors"] {
        let input = file(&format!("crates/{name}/stdin"));
        for case in common::cases(&input) {
            match Book::new(case.book) {
                Ok(book) => {
                    accepted += 1;
                    rebuilt(case.book);
                    read_all(&book, &mut Random::new(accepted));
                }
                Err(refusal) => assert_eq!(check_book(case.book), Err(refusal)),
            }
        }
    }
    assert!(accepted > 100, "{accepted}");
}

#[test]
fn places_of_your_own() {
    let node = |normalized_offset| SourceNode {
        source_span: Span::new(1, 2),
        normalized_offset: NormalizedOffset(normalized_offset),
        node: NodeRef::Inline(Node::PageBreak),
        plain: [0; 2],
    };
    for (offset, answer) in
        [(0, Err(Refusal::Place)), (1, Ok(())), (3, Ok(())), (4, Err(Refusal::Place))]
    {
        let mut b = BookBuilder::new();
        b.raw_texts("abc", "annnc").raw_node(node(offset));
        assert_eq!(b.build().map(|book| _ = rebuilt(book.as_stored())), answer);
    }
    assert_eq!(
        BookBuilder::new().node("", NodeRef::Inline(Node::Line)).build(),
        Err(Refusal::Place)
    );
    assert_eq!(BookBuilder::new().layer().build_reading(), Err(Refusal::Layout));
    assert_eq!(BookBuilder::new().raw_texts("a", "").build(), Err(Refusal::NormalizedLength));
    assert_eq!(BookBuilder::new().build().unwrap(), plain(""));
}

/// A span may cut a character; the text is then given as bytes only.
#[test]
fn a_span_inside_a_character() {
    let mut b = BookBuilder::new();
    b.text("人").diagnostic(Diagnostic {
        kind: DiagnosticKind::Other,
        code_rank: 0,
        span: Span::new(1, 2),
        plain: 0,
    });
    let stored = b.build().unwrap();
    let book = Book::new(&stored).unwrap();
    let span = book.diagnostics().next().unwrap().span;
    assert_eq!((book.source(span), book.source_bytes(span)), (None, Some(&"人".as_bytes()[1..2])));
}

/// 32 Rubies one in the other, each naming the next twice: 2 to the 33 contents, more than any tree
/// may have. The graft of it passes a limit.
#[test]
fn a_tree_that_is_too_large() {
    let mut b = BookBuilder::new();
    let mut range = b.plain("語");
    for _ in 0..32 {
        let node = b.node_segment(Node::Ruby { base: range, reading: range });
        let run = b.segments(&[node]);
        range = b.contents(&[Content::Segments(run), Content::Segments(run)]);
    }
    b.node("x", NodeRef::Inline(Node::AngleQuote { content: range })).text("\n\n");
    let reading = b.build_reading().unwrap();
    let book = Book::reading(&reading).unwrap();
    let node = book.node(0).unwrap();
    assert_eq!(book.tree(&node), Err(TooLarge { limit: MAX_TREE_ITEMS }));
    assert_eq!(book.tree_within(&node, 100), Err(TooLarge { limit: 100 }));
    assert_eq!(book.shows_the_same(&book, 1000), Err(TooLarge { limit: 1000 }));
    assert_eq!(merge(&plain("a\n\nb"), Edit::new(0, 1, "x"), &reading), Err(Refusal::NoRoom));
}
