//! What several tests use.
#![allow(dead_code, missing_docs, clippy::pedantic)]

use aozora_incremental::*;
use std::collections::{BTreeSet, HashMap};
use std::path::{Path, PathBuf};

pub const ABC: &str = "aa\n\nbb\n\ncc";

/// A book of one text, with one empty layer.
pub fn plain(text: &str) -> StoredBook {
    BookBuilder::new().text(text).build().unwrap()
}

/// P5's reading: "xb\n\n" with a Ruby at 0..2.
pub fn ruby_reading() -> StoredBook {
    let mut b = BookBuilder::new();
    let (base, reading) = (b.plain("x"), b.plain("b"));
    b.node("xb", NodeRef::Inline(Node::Ruby { base, reading })).text("\n\n");
    b.build_reading().unwrap()
}

/// A reading of "x\n\n" whose only node names the same run twice, level by level: 2 to the `levels`
/// times what `inner` gives, between other texts.
pub fn doubled(levels: usize, inner: impl FnOnce(&mut BookBuilder) -> Segment) -> StoredBook {
    let mut b = BookBuilder::new();
    let (inner, other) = (inner(&mut b), b.string("other"));
    let mut run = b.segments(&[inner, Segment::text(other)]);
    for _ in 0..levels {
        let twice = b.contents(&[Content::Segments(run), Content::Segments(run)]);
        let node = b.node_segment(Node::AngleQuote { content: twice });
        run = b.segments(&[node]);
    }
    let content = b.contents(&[Content::Segments(run)]);
    b.node("x", NodeRef::Inline(Node::AngleQuote { content })).text("\n\n");
    b.build_reading().unwrap()
}

pub fn repository() -> PathBuf {
    Path::new(env!("CARGO_MANIFEST_DIR")).join("../..")
}

pub fn file(path: &str) -> Vec<u8> {
    std::fs::read(repository().join(path)).unwrap_or_else(|e| panic!("{path}: {e}"))
}

/// The hash of section 2, which the stored outputs show results by.
pub fn fx_hash(bytes: &[u8]) -> u64 {
    bytes
        .iter()
        .fold(0, |h: u64, &b| (h.rotate_left(5) ^ u64::from(b)).wrapping_mul(0x517c_c1b7_2722_0a95))
}

/// Parts of a file, from the front.
pub struct Parts<'a>(pub &'a [u8]);

impl<'a> Parts<'a> {
    pub fn word(&mut self) -> u32 {
        u32::from_le_bytes(self.take(4).try_into().unwrap())
    }

    pub fn take(&mut self, len: usize) -> &'a [u8] {
        let (taken, rest) = self.0.split_at(len);
        self.0 = rest;
        taken
    }
}

/// A case of the crate `cases`: six words, then label, tape, bytes, replacement.
pub struct Case<'a> {
    pub label: &'a str,
    pub book: Stored<'a>,
    pub start: u32,
    pub end: u32,
    pub replacement: &'a [u8],
}

pub fn cases(input: &[u8]) -> Vec<Case<'_>> {
    let mut parts = Parts(input);
    let mut out = Vec::new();
    while !parts.0.is_empty() {
        let [label, tape, bytes, start, end, replacement] = [(); 6].map(|()| parts.word());
        let mut part = |len: u32| parts.take(len as usize);
        let (label, tape, bytes, replacement) =
            (part(label), part(tape), part(bytes), part(replacement));
        out.push(Case {
            label: str::from_utf8(label).unwrap(),
            book: Stored::new(tape, bytes),
            start,
            end,
            replacement,
        });
    }
    out
}

/// How many rounds a random test makes: AOZORA_ROUNDS times as many as usual.
pub fn rounds(usual: u64) -> u64 {
    let times = std::env::var("AOZORA_ROUNDS").map_or(1, |n| n.parse().unwrap());
    usual * times
}

/// Numbers that are the same in each run.
pub struct Random(u64);

impl Random {
    pub fn new(seed: u64) -> Self {
        Self(seed.wrapping_mul(0x9e37_79b9_7f4a_7c15) | 1)
    }

    pub fn next(&mut self) -> u64 {
        self.0 ^= self.0 << 13;
        self.0 ^= self.0 >> 7;
        self.0 ^= self.0 << 17;
        self.0.wrapping_mul(0x2545_f491_4f6c_dd1d) >> 11
    }

    pub fn below(&mut self, n: usize) -> usize {
        (self.next() % n.max(1) as u64) as usize
    }

    pub fn word(&mut self) -> u32 {
        match self.below(4) {
            0 => 0,
            1 => self.below(5) as u32,
            2 => u32::MAX,
            _ => self.next() as u32,
        }
    }

    pub fn pick<T: Copy>(&mut self, items: &[T]) -> T {
        items[self.below(items.len())]
    }

    /// A piece of text that is not empty.
    pub fn text(&mut self) -> &'static str {
        self.pick(&["a", "人", "\n\n", "𠮷", "《》", "é\n"])
    }

    pub fn bytes(&mut self, most: usize) -> Vec<u8> {
        let len = self.below(most);
        (0..len).map(|_| self.next() as u8).collect()
    }
}

/// The same merge in buffers that are far too large: the memory that `merge` takes is enough.
pub fn lavish(
    old: &StoredBook,
    edit: Edit<'_>,
    reading: &StoredBook,
    room: usize,
) -> Result<Merged, Refusal> {
    let (mut tape, mut bytes, mut work) = (vec![7; room], vec![7; room], vec![7; WORK_WORDS]);
    let room = Room::new(&mut tape, &mut bytes);
    let answer = raw::merge(old.as_stored(), edit, reading.as_stored(), room, &mut work)?;
    tape.truncate(answer.book.tape);
    bytes.truncate(answer.book.bytes);
    let Merged { region, reused, reread, stats, .. } = answer;
    Ok(Merged { book: StoredBook { tape, bytes }, region, reused, reread, stats })
}

/// The price of a merge beside the merge: the same number 1 to 17, or what the merge made; and the
/// room that it says is enough. Its counts are under the ceiling. What the merge answered.
pub fn price_agrees(
    book: Stored<'_>,
    edit: Edit<'_>,
    reading: Stored<'_>,
) -> Result<Merged, Refusal> {
    let (price, merged) = (estimate(book, edit, reading), merge(book, edit, reading));
    for words in [0, 1, 100] {
        let mut work = vec![7; words];
        assert_eq!(raw::estimate(book, edit, reading, &mut work), price);
        assert!(work.iter().all(|&w| w == 0));
    }
    let price = match price {
        Ok(price) => price,
        Err(refusal) => {
            assert_ne!(refusal, Refusal::NoRoom);
            assert_eq!(merged, Err(refusal));
            return merged;
        }
    };
    let Lengths { tape, bytes } = price.room(book, reading);
    let (mut tape, mut bytes, mut work) = (vec![7; tape], vec![7; bytes], vec![7; WORK_WORDS]);
    let room = Room::new(&mut tape, &mut bytes);
    let within = raw::merge(book, edit, reading, room, &mut work);
    match &merged {
        Err(refusal) => {
            assert_eq!((*refusal, within), (Refusal::NoRoom, Err(Refusal::NoRoom)));
        }
        Ok(merged) => {
            let lengths = Lengths { tape: merged.book.tape.len(), bytes: merged.book.bytes.len() };
            assert_eq!(within.unwrap().book, lengths);
            assert_eq!(price, price_of(&Book::new(book).unwrap(), merged));
            within_ceiling(reading, &merged.stats);
            let header = header_room(&price, book, reading);
            assert!(lengths.tape <= header.tape && lengths.bytes <= header.bytes);
        }
    }
    merged
}

/// Buffers to lend, full of what is not zero.
#[derive(Debug, PartialEq)]
pub struct Lent {
    pub tape: Vec<u8>,
    pub bytes: Vec<u8>,
    pub work: Vec<u32>,
}

impl Lent {
    pub fn new(room: Lengths, words: usize) -> Self {
        let (tape, bytes) = (vec![0xAA; room.tape], vec![0xAA; room.bytes]);
        Self { tape, bytes, work: vec![0xAAAA_AAAA; words] }
    }

    pub fn is_zero(&self) -> bool {
        self.tape.iter().chain(&self.bytes).all(|&b| b == 0) && self.work.iter().all(|&w| w == 0)
    }

    pub fn merge(
        &mut self,
        book: Stored<'_>,
        edit: Edit<'_>,
        reading: Stored<'_>,
    ) -> Result<Merged<Lengths>, Refusal> {
        let room = Room::new(&mut self.tape, &mut self.bytes);
        raw::merge(book, edit, reading, room, &mut self.work)
    }

    pub fn merge_for_desk(
        &mut self,
        desk: u32,
        ledger: &mut [u32],
        book: Stored<'_>,
        edit: Edit<'_>,
        reading: Stored<'_>,
    ) -> Result<Merged<Lengths>, Refusal> {
        let room = Room::new(&mut self.tape, &mut self.bytes);
        raw::merge_for_desk(desk, ledger, book, edit, reading, room, &mut self.work)
    }

    pub fn flatten(&mut self, book: Stored<'_>) -> Result<Lengths, Refusal> {
        let room = Room::new(&mut self.tape, &mut self.bytes);
        raw::flatten_book(book, room, &mut self.work)
    }
}

/// The merge for a desk beside the merge, whose answer is given: the same answer, and its rereads
/// in the desk's total.
pub fn desk_agrees(
    book: Stored<'_>,
    edit: Edit<'_>,
    reading: Stored<'_>,
    merged: &Result<Merged, Refusal>,
) {
    let mut ledger = Ledger::new();
    assert_eq!(merge_for_desk(&mut ledger, 63, book, edit, reading), *merged);
    let mut totals = [0; DESKS];
    totals[63] = merged.as_ref().map_or(0, |merged| merged.reread);
    assert_eq!(ledger, Ledger::from(totals));
    let room = merged.as_ref().map_or(Lengths { tape: 100, bytes: 100 }, |merged| Lengths {
        tape: merged.book.tape.len(),
        bytes: merged.book.bytes.len() + 1,
    });
    desk_agrees_within(book, edit, reading, room, WORK_WORDS);
}

/// The same on lent buffers of these lengths, in which both leave the same bytes. At a full total a
/// merge with rereads is refused with 20; with a wrong desk or ledger it is always refused with 19.
/// After a refusal the ledger is as it was, and all else is zeros.
pub fn desk_agrees_within(
    book: Stored<'_>,
    edit: Edit<'_>,
    reading: Stored<'_>,
    room: Lengths,
    words: usize,
) {
    let mut expected = Lent::new(room, words);
    let merged = expected.merge(book, edit, reading);
    let reread = merged.map_or(0, |merged| merged.reread);
    assert!(merged.is_ok() || expected.is_zero());
    let ask = |desk: usize, ledger: &mut [u32]| {
        let mut lent = Lent::new(room, words);
        let answer = lent.merge_for_desk(desk as u32, ledger, book, edit, reading);
        (answer, lent)
    };

    let desk = (book.tape.len() + reading.tape.len() + edit.start as usize) % DESKS;
    let mut totals: [u32; DESKS] = std::array::from_fn(|i| 1000 * i as u32);
    let mut ledger = totals;
    assert_eq!(ask(desk, &mut ledger), (merged, expected));
    totals[desk] += reread;
    assert_eq!(ledger, totals);

    totals[desk] = u32::MAX;
    ledger = totals;
    let (answer, lent) = ask(desk, &mut ledger);
    assert_eq!(answer, if reread > 0 { Err(Refusal::TotalFull) } else { merged });
    assert!(answer.is_ok() || lent.is_zero());
    assert_eq!(ledger, totals);

    for (desk, len) in [(DESKS, DESKS), (desk, DESKS - 1), (desk, DESKS + 1)] {
        let mut ledger = vec![5; len];
        let (answer, lent) = ask(desk, &mut ledger);
        assert_eq!(answer, Err(Refusal::DeskOrLedger));
        assert!(lent.is_zero() && ledger == vec![5; len]);
    }
}

/// The buffers that bindings/c/aozora.h says are enough.
fn header_room(price: &Estimate, book: Stored<'_>, reading: Stored<'_>) -> Lengths {
    let (contents, segments) = (price.contents as usize, price.segments as usize);
    let new = Book::reading(reading).unwrap();
    let longest = new.strings().map(str::len).max().unwrap_or(0);
    let strings = if longest > 64 { 3583 * longest } else { reading.bytes.len() };
    Lengths {
        tape: book.tape.len() + reading.tape.len() + 17916 + 10 * contents + 37 * segments,
        bytes: price.byte_length + strings,
    }
}

/// The price of a merge, from its result.
pub fn price_of(old: &Book<'_>, merged: &Merged) -> Estimate {
    let new = Book::new(&merged.book).unwrap();
    let counts = [
        usize::try_from(merged.stats.calls).unwrap(),
        new.content_count() - old.content_count(),
        new.segment_count() - old.segment_count(),
    ];
    let over = counts.iter().any(|&n| n > MAX_POOL);
    let told = |n: usize| if over { Estimate::OVER } else { n as u32 };
    let strings: usize = new.strings().skip(old.string_count()).map(str::len).sum();
    Estimate {
        reread: merged.reread,
        calls: told(counts[0]),
        contents: told(counts[1]),
        segments: told(counts[2]),
        byte_length: merged.book.bytes.len() - strings,
    }
}

/// Document 02, wish 7: probes are at most calls × m, m being how many distinct strings of at most
/// 64 bytes there are in the list of calls that grafting makes; and none if m is 0. That list is
/// found here from the reading's trees.
pub fn within_ceiling(reading: Stored<'_>, stats: &InternStats) {
    let book = Book::reading(reading).unwrap();
    let mut calls = Calls::default();
    for node in book.nodes() {
        if let Some(tree) = book.tree_within(&node, 2 * MAX_POOL).unwrap() {
            calls.node(&tree.node);
        }
    }
    let short: BTreeSet<&str> = calls.0.iter().copied().filter(|s| s.len() <= 64).collect();
    assert_eq!(stats.calls, calls.0.len() as u64);
    assert!(stats.probe_steps <= stats.calls * short.len() as u64, "{stats:?} {}", short.len());
}

/// The strings of trees in the order of section 5, in which grafting calls the interner.
#[derive(Default)]
struct Calls<'a>(Vec<&'a str>);

impl<'a> Calls<'a> {
    fn contents(&mut self, contents: &[TreeContent<'a>]) {
        contents.iter().for_each(|content| self.content(content));
    }

    fn content(&mut self, content: &TreeContent<'a>) {
        match content {
            Content::Plain(string) => self.0.push(string),
            Content::Segments(segments) => segments.iter().for_each(|s| self.segment(s)),
        }
    }

    fn segment(&mut self, segment: &TreeSegment<'a>) {
        match &segment.item {
            SegmentItem::Text(string) => self.0.push(string),
            SegmentItem::Gaiji(gaiji) => self.gaiji(gaiji),
            SegmentItem::Directive(directive) => self.0.push(directive.raw),
            SegmentItem::Node(node) => self.node(node),
        }
    }

    fn gaiji(&mut self, gaiji: &Gaiji<&'a str>) {
        if let GaijiCanonical::Unresolved { mencode } = gaiji.canonical {
            self.0.extend(mencode);
        }
        self.0.push(gaiji.hint);
    }

    fn illustration(&mut self, i: &Illustration<&'a str, Vec<TreeSegment<'a>>>) {
        self.0.push(i.file);
        self.0.extend(i.number);
        self.0.extend(i.dimensions);
        i.caption.iter().for_each(|caption| self.content(caption));
        self.0.extend(i.description);
    }

    fn node(&mut self, node: &TreeNode<'a>) {
        match node {
            Node::Ruby { base, reading: second } | Node::MarginNote { base, note: second } => {
                self.contents(base);
                self.contents(second);
            }
            Node::Format { target, payload, .. } => {
                self.contents(target);
                if let ForwardPayload::AccentBody(s) | ForwardPayload::QuotedTarget(s) = payload {
                    self.0.push(s);
                }
            }
            Node::Gaiji(gaiji) => self.gaiji(gaiji),
            Node::Heading { text: contents } | Node::AngleQuote { content: contents } => {
                self.contents(contents);
            }
            Node::HeadingHint { target: string } | Node::Kaeriten { mark: string } => {
                self.0.push(string);
            }
            Node::Illustration(illustration) => self.illustration(illustration),
            Node::Directive(directive) => self.0.push(directive.raw),
            Node::Line
            | Node::PageBreak
            | Node::SectionBreak
            | Node::BodyEnd
            | Node::ForcedBreak => {}
        }
    }
}

/// Document 02, wish 6, of a book that can be flattened: one layer, the same shown, the bytes that its
/// trees make; itself when it is flattened again; and in lent buffers of just its lengths or more,
/// with few words or many. One byte less, or a word too few, is 18.
pub fn flat_agrees(book: Stored<'_>) -> StoredBook {
    let flat = flatten_book(book).unwrap();
    let (old, new) = (Book::new(book).unwrap(), Book::new(&flat).unwrap());
    assert_eq!(new.layers().len(), 1);
    assert_eq!(old.shows_the_same(&new, 4 * MAX_POOL), Ok(true));
    assert_eq!(flat, flat_by_trees(&old));
    assert_eq!(flatten_book(&flat).unwrap(), flat);

    let (tape, bytes) = (flat.tape.len(), flat.bytes.len());
    // what README, the header and `raw` call enough for every book
    assert_eq!(49_300_940, 5 * MAX_NEW_STRINGS + 47 * MAX_POOL);
    let longest = old.strings().map(str::len).max().unwrap_or(0);
    let more = if longest > 64 { MAX_NEW_STRINGS * longest } else { 0 };
    assert!(tape <= book.tape.len() + 49_300_940 && bytes <= book.bytes.len() + more);
    for (more, words) in [(0, WORK_WORDS), (1, WORK_WORDS + 1), (100, 2 * WORK_WORDS)] {
        let mut lent = Lent::new(Lengths { tape: tape + more, bytes: bytes + more }, words);
        assert_eq!(lent.flatten(book), Ok(Lengths { tape, bytes }));
        assert_eq!(Stored::new(&lent.tape[..tape], &lent.bytes[..bytes]), flat.as_stored());
        lent.tape.drain(..tape);
        lent.bytes.drain(..bytes);
        assert!(lent.is_zero());
    }
    let fewer_bytes = bytes.checked_sub(1).map(|bytes| (tape, bytes, WORK_WORDS));
    let others = [(tape - 1, bytes, WORK_WORDS), (tape, bytes, WORK_WORDS - 1), (0, 0, 0)];
    for (tape, bytes, words) in others.into_iter().chain(fewer_bytes) {
        let mut lent = Lent::new(Lengths { tape, bytes }, words);
        assert_eq!(lent.flatten(book), Err(Refusal::NoRoom));
        assert!(lent.is_zero());
    }
    flat
}

/// The flat book, made of the trees of a book: its strings and lists in the order of section 5.
pub fn flat_by_trees(book: &Book<'_>) -> StoredBook {
    let mut flat = Flat::default();
    for node in book.nodes() {
        let tree = book.tree_within(&node, 4 * MAX_POOL).unwrap();
        let grafted = tree.map(|tree| flat.node(&tree.node));
        let grafted = match (node.node, grafted) {
            (NodeRef::Inline(_), Some(grafted)) => NodeRef::Inline(grafted),
            (NodeRef::BlockLeaf(_), Some(grafted)) => NodeRef::BlockLeaf(grafted),
            (other, _) => other,
        };
        flat.b.raw_node(SourceNode { node: grafted, ..node });
    }
    let mut b = flat.b;
    b.raw_texts(book.text(), book.normalized());
    book.pairs().for_each(|pair| _ = b.pair(pair));
    book.containers().for_each(|container| _ = b.container(container));
    book.diagnostics().for_each(|diagnostic| _ = b.diagnostic(diagnostic));
    b.build().unwrap()
}

/// A layer that grafting fills.
#[derive(Default)]
struct Flat {
    b: BookBuilder,
    short: HashMap<String, StrId>,
    last: Option<(String, StrId)>,
}

impl Flat {
    /// Section 2: the last answer's string again; a long one is new; a short one is new once.
    fn string(&mut self, string: &str) -> StrId {
        let id = match &self.last {
            Some((last, id)) if last == string => *id,
            _ if string.len() > 64 => self.b.string(string),
            _ => {
                let Self { b, short, .. } = self;
                *short.entry(string.to_owned()).or_insert_with(|| b.string(string))
            }
        };
        self.last = Some((string.to_owned(), id));
        id
    }

    fn contents(&mut self, contents: &[TreeContent<'_>]) -> ContentRange {
        let contents: Vec<Content> = contents.iter().map(|content| self.content(content)).collect();
        self.b.contents(&contents)
    }

    fn content(&mut self, content: &TreeContent<'_>) -> Content {
        match content {
            Content::Plain(string) => Content::Plain(self.string(string)),
            Content::Segments(segments) => {
                let segments: Vec<Segment> = segments.iter().map(|s| self.segment(s)).collect();
                Content::Segments(self.b.segments(&segments))
            }
        }
    }

    fn segment(&mut self, segment: &TreeSegment<'_>) -> Segment {
        let item = match &segment.item {
            SegmentItem::Text(string) => SegmentItem::Text(self.string(string)),
            SegmentItem::Gaiji(gaiji) => SegmentItem::Gaiji(self.gaiji(gaiji)),
            SegmentItem::Directive(d) => SegmentItem::Directive(self.directive(*d)),
            SegmentItem::Node(node) => SegmentItem::Node(self.node(node)),
        };
        Segment { level: segment.level, item, plain: segment.plain }
    }

    fn gaiji(&mut self, gaiji: &Gaiji<&str>) -> Gaiji {
        let canonical = match gaiji.canonical {
            GaijiCanonical::MenKuTen => GaijiCanonical::MenKuTen,
            GaijiCanonical::Unicode => GaijiCanonical::Unicode,
            GaijiCanonical::Unresolved { mencode } => {
                GaijiCanonical::Unresolved { mencode: mencode.map(|s| self.string(s)) }
            }
        };
        Gaiji { hint: self.string(gaiji.hint), canonical }
    }

    fn directive(&mut self, directive: Directive<&str>) -> Directive {
        Directive { raw: self.string(directive.raw), kind: directive.kind }
    }

    fn illustration(&mut self, i: &Illustration<&str, Vec<TreeSegment<'_>>>) -> Illustration {
        Illustration {
            file: self.string(i.file),
            number: i.number.map(|s| self.string(s)),
            dimensions: i.dimensions.map(|s| self.string(s)),
            caption: i.caption.as_ref().map(|caption| self.content(caption)),
            description: i.description.map(|s| self.string(s)),
        }
    }

    fn node(&mut self, node: &TreeNode<'_>) -> Node {
        match node {
            Node::Ruby { base, reading } => {
                Node::Ruby { base: self.contents(base), reading: self.contents(reading) }
            }
            Node::MarginNote { base, note } => {
                Node::MarginNote { base: self.contents(base), note: self.contents(note) }
            }
            Node::Format { target, origin, payload } => {
                let target = self.contents(target);
                let payload = match payload {
                    ForwardPayload::None => ForwardPayload::None,
                    ForwardPayload::NestedSource => ForwardPayload::NestedSource,
                    ForwardPayload::AccentBody(s) => ForwardPayload::AccentBody(self.string(s)),
                    ForwardPayload::QuotedTarget(s) => ForwardPayload::QuotedTarget(self.string(s)),
                };
                Node::Format { target, origin: *origin, payload }
            }
            Node::Gaiji(gaiji) => Node::Gaiji(self.gaiji(gaiji)),
            Node::Heading { text } => Node::Heading { text: self.contents(text) },
            Node::AngleQuote { content } => Node::AngleQuote { content: self.contents(content) },
            Node::HeadingHint { target } => Node::HeadingHint { target: self.string(target) },
            Node::Kaeriten { mark } => Node::Kaeriten { mark: self.string(mark) },
            Node::Illustration(i) => Node::Illustration(self.illustration(i)),
            Node::Directive(directive) => Node::Directive(self.directive(*directive)),
            Node::Line => Node::Line,
            Node::PageBreak => Node::PageBreak,
            Node::SectionBreak => Node::SectionBreak,
            Node::BodyEnd => Node::BodyEnd,
            Node::ForcedBreak => Node::ForcedBreak,
        }
    }
}

/// Asks a book for everything that the reader has. How many items it saw.
pub fn read_all(book: &Book<'_>, random: &mut Random) -> usize {
    let mut seen = 0;
    let mut see = |n: usize| seen += n;
    see(book.text().len() + book.normalized().len());
    for layer in book.layers() {
        see(layer.strings().count() + layer.contents().count() + layer.segments().count());
    }
    assert_eq!(book.strings().count(), book.string_count());
    assert_eq!(book.contents().count(), book.content_count());
    assert_eq!(book.segments().count(), book.segment_count());
    for (id, string) in (0..).zip(book.strings()) {
        assert_eq!(book.resolve_str(StrId(id)), Some(string));
    }
    for content in book.contents() {
        match content {
            Content::Plain(id) => see(book.resolve_str(id).unwrap().len()),
            Content::Segments(range) => see(book.resolve_seg_range(range).unwrap().count()),
        }
    }
    let nodes: Vec<SourceNode> = book.nodes().collect();
    assert_eq!(nodes.len(), book.nodes().len());
    assert!(book.nodes().rev().eq(nodes.iter().rev().copied()));
    assert!((0..=nodes.len()).all(|place| book.nodes().nth(place) == nodes.get(place).copied()));
    for (place, node) in book.nodes().enumerate() {
        assert_eq!(book.node(place), Some(node));
        assert_eq!(book.node_at_source(node.source_span.start), Some(node));
        assert_eq!(
            book.source_bytes(node.source_span).unwrap().len(),
            node.source_span.len() as usize
        );
        see(book.source(node.source_span).map_or(0, str::len));
        if let Ok(Some(tree)) = book.tree_within(&node, 10_000) {
            see(tree.to_string().len() + format!("{tree:?}").len());
        }
    }
    see(book.pairs().rev().count()
        + book.containers().rev().count()
        + book.diagnostics().rev().count());
    for _ in 0..4 {
        let (a, b) = (random.word(), random.word());
        let (contents, segments) =
            (ContentRange { start: a, len: b }, SegRange { start: a, len: b });
        let stored = book.stored();
        assert_eq!(lookup_str(stored, StrId(a)).unwrap(), book.resolve_str(StrId(a)));
        let lists = |l: Option<Records<'_, Content>>| l.map(|l| l.collect::<Vec<_>>());
        assert_eq!(
            lists(lookup_contents(stored, contents).unwrap()),
            lists(book.resolve_content_range(contents))
        );
        let lists = |l: Option<Records<'_, Segment>>| l.map(|l| l.collect::<Vec<_>>());
        assert_eq!(
            lists(lookup_segments(stored, segments).unwrap()),
            lists(book.resolve_seg_range(segments))
        );
        let node = node_at_source(stored, a).unwrap();
        assert_eq!(node.and_then(|place| book.node(place)), book.node_at_source(a));
        see(book.source(Span::new(a, b)).map_or(0, str::len));
        see(book.content_range_as_plain(contents).map_or(0, str::len));
        see(book.node(a as usize).map_or(0, |_| 1)
            + book.source_bytes(Span::new(a, b)).map_or(0, <[u8]>::len));
    }
    seen
}

/// A random book by the rules of section 4: one that is never refused.
pub fn random_book(r: &mut Random, layers: usize) -> BookBuilder {
    let mut b = BookBuilder::new();
    let mut made = Made::default();
    for layer in 0..layers {
        if layer > 0 {
            b.layer();
            (made.contents, made.segments) = (Vec::new(), Vec::new());
        }
        fill(&mut b, r, &mut made);
    }
    for _ in 0..r.below(12) {
        if r.below(2) == 0 {
            b.text(r.text());
            continue;
        }
        let node = match r.below(4) {
            0 => NodeRef::BlockOpen { inline: r.below(2) == 0 },
            1 => NodeRef::BlockClose { inline: r.below(2) == 0 },
            2 => NodeRef::BlockLeaf(made.node(r, 33)),
            _ => NodeRef::Inline(made.node(r, 33)),
        };
        b.node_with_plain(r.text(), node, [r.word(), r.word()]);
    }
    lists(&mut b, r);
    b
}

/// Pairs, containers and diagnostics in their bounds.
fn lists(b: &mut BookBuilder, r: &mut Random) {
    let (text, normalized) = (b.text_len(), b.normalized_len());
    let places = |r: &mut Random, len: usize, n: usize| -> Option<Vec<u32>> {
        // n rising places with steps of one at least
        (len > n).then(|| {
            let mut at: Vec<u32> = (0..n).map(|_| r.below(len - n) as u32).collect();
            at.sort_unstable();
            (0..).zip(at).map(|(i, p)| p + i).collect()
        })
    };
    for _ in 0..r.below(4) {
        if let Some(&[a, e, c, d]) = places(r, text, 4).as_deref() {
            b.pair(PairLink {
                kind: r.pick(PairKind::ALL),
                open: Span::new(a, e),
                close: Span::new(c, d),
            });
        }
        if let Some(&[open, close]) = places(r, normalized, 2).as_deref() {
            b.container(ContainerPair {
                plain: r.word(),
                open: NormalizedOffset(open),
                close: NormalizedOffset(close),
            });
        }
        let kind = r.pick(DiagnosticKind::ALL);
        diagnostic(b, kind, r);
    }
}

/// A diagnostic somewhere in the text so far, often of no width, and at the text's end too.
pub fn diagnostic(b: &mut BookBuilder, kind: DiagnosticKind, r: &mut Random) {
    let start = r.below(b.text_len() + 1);
    let end = start + r.below((b.text_len() - start).min(2) + 1);
    let span = Span::new(start as u32, end as u32);
    b.diagnostic(Diagnostic { kind, code_rank: r.word(), span, plain: r.word() });
}

/// What may be named: all strings, and the runs of the layer with the highest level in them.
#[derive(Default)]
struct Made {
    strings: Vec<StrId>,
    contents: Vec<(ContentRange, u8)>,
    segments: Vec<(SegRange, u8)>,
}

fn fill(b: &mut BookBuilder, r: &mut Random, made: &mut Made) {
    for _ in 0..=r.below(4) {
        let long = "長い".repeat(12);
        made.strings.push(b.string(r.pick(&["", "a", "漢字", "é", "\0", long.as_str()])));
    }
    for _ in 0..r.below(6) {
        let level = made.segments.iter().map(|s| s.1).max().unwrap_or(0);
        let run: Vec<Segment> = (0..r.below(4)).map(|_| made.segment(r, level)).collect();
        let highest = run.iter().map(|s| s.level).max().unwrap_or(0);
        made.segments.push((b.segments(&run), highest));
        let contents: Vec<(Content, u8)> = (0..r.below(4)).map(|_| made.content(r)).collect();
        let highest = contents.iter().map(|c| c.1).max().unwrap_or(0);
        let contents: Vec<Content> = contents.into_iter().map(|c| c.0).collect();
        made.contents.push((b.contents(&contents), highest));
    }
}

impl Made {
    fn string(&self, r: &mut Random) -> StrId {
        r.pick(&self.strings)
    }

    fn optional(&self, r: &mut Random) -> Option<StrId> {
        (r.below(2) == 0).then(|| self.string(r))
    }

    fn content(&self, r: &mut Random) -> (Content, u8) {
        if self.segments.is_empty() || r.below(2) == 0 {
            return (Content::Plain(self.string(r)), 0);
        }
        let (range, level) = r.pick(&self.segments);
        (Content::Segments(range), level)
    }

    /// A range whose levels are all below.
    fn range(&self, r: &mut Random, below: u8) -> ContentRange {
        let fit: Vec<ContentRange> =
            self.contents.iter().filter(|c| c.1 < below).map(|c| c.0).collect();
        if fit.is_empty() { ContentRange { start: 0, len: 0 } } else { r.pick(&fit) }
    }

    fn segment(&self, r: &mut Random, level: u8) -> Segment {
        let level = (level + 1 + r.below(2) as u8).min(MAX_LEVEL);
        let (level, item) = match r.below(4) {
            0 => (0, SegmentItem::Text(self.string(r))),
            1 => (0, SegmentItem::Gaiji(self.gaiji(r))),
            2 => (0, SegmentItem::Directive(self.directive(r))),
            _ => (level, SegmentItem::Node(self.node(r, level))),
        };
        Segment { level, item, plain: [r.word(), r.word()] }
    }

    fn gaiji(&self, r: &mut Random) -> Gaiji {
        let canonical = match r.below(3) {
            0 => GaijiCanonical::MenKuTen,
            1 => GaijiCanonical::Unicode,
            _ => GaijiCanonical::Unresolved { mencode: self.optional(r) },
        };
        Gaiji { hint: self.string(r), canonical }
    }

    fn directive(&self, r: &mut Random) -> Directive {
        Directive { raw: self.string(r), kind: r.pick(DirectiveKind::ALL) }
    }

    /// A node whose runs have levels below.
    fn node(&self, r: &mut Random, below: u8) -> Node {
        match r.pick(NodeKind::ALL) {
            NodeKind::Ruby => {
                Node::Ruby { base: self.range(r, below), reading: self.range(r, below) }
            }
            NodeKind::Format => {
                let payload = match r.below(4) {
                    0 => ForwardPayload::None,
                    1 => ForwardPayload::NestedSource,
                    2 => ForwardPayload::AccentBody(self.string(r)),
                    _ => ForwardPayload::QuotedTarget(self.string(r)),
                };
                Node::Format {
                    target: self.range(r, below),
                    origin: r.pick(ForwardOrigin::ALL),
                    payload,
                }
            }
            NodeKind::Gaiji => Node::Gaiji(self.gaiji(r)),
            NodeKind::Line => Node::Line,
            NodeKind::PageBreak => Node::PageBreak,
            NodeKind::SectionBreak => Node::SectionBreak,
            NodeKind::BodyEnd => Node::BodyEnd,
            NodeKind::ForcedBreak => Node::ForcedBreak,
            NodeKind::Heading => Node::Heading { text: self.range(r, below) },
            NodeKind::HeadingHint => Node::HeadingHint { target: self.string(r) },
            NodeKind::Illustration => {
                let (caption, level) = self.content(r);
                Node::Illustration(Illustration {
                    file: self.string(r),
                    number: self.optional(r),
                    dimensions: self.optional(r),
                    caption: (level < below && r.below(3) > 0).then_some(caption),
                    description: self.optional(r),
                })
            }
            NodeKind::Kaeriten => Node::Kaeriten { mark: self.string(r) },
            NodeKind::Directive => Node::Directive(self.directive(r)),
            NodeKind::AngleQuote => Node::AngleQuote { content: self.range(r, below) },
            NodeKind::MarginNote => {
                Node::MarginNote { base: self.range(r, below), note: self.range(r, below) }
            }
        }
    }
}
