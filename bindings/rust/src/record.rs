//! The records of a tape, each of a fixed size: document 01, section 4; docs/FORMAT.md has the
//! table.

use crate::syntax::{
    ContainerPair, Content, ContentRange, Diagnostic, DiagnosticKind, Directive, DirectiveKind,
    ForwardOrigin, ForwardPayload, Gaiji, GaijiCanonical, Illustration, NO_STRING, Node, NodeKind,
    NodeRef, NormalizedOffset, PairKind, PairLink, Plain, SegRange, Segment, SegmentItem,
    SourceNode, Span, StrId,
};

pub(crate) const HEAD: u8 = 1;
pub(crate) const LAYER: u8 = 2;
pub(crate) const END: u8 = 10;

/// Sealed: the module is private. A kind of record: its command byte, its size with that byte, and
/// both directions.
pub trait Record: Sized + Copy {
    const COMMAND: u8;
    const SIZE: usize;
    /// None where the bytes break the shape of section 4.
    fn decode(operands: Operands<'_>) -> Option<Self>;
    fn encode(&self, out: &mut Vec<u8>);

    /// The record with its command byte.
    fn at(record: &[u8]) -> Option<Self> {
        let (&command, operands) = record.split_first()?;
        if command != Self::COMMAND || record.len() != Self::SIZE {
            return None;
        }
        Self::decode(Operands(operands))
    }

    fn write(&self, out: &mut Vec<u8>) {
        out.push(Self::COMMAND);
        self.encode(out);
    }
}

/// What follows a command byte, taken from the front.
#[derive(Clone, Copy)]
pub struct Operands<'a>(&'a [u8]);

impl Operands<'_> {
    fn byte(&mut self) -> Option<u8> {
        let (&first, rest) = self.0.split_first()?;
        self.0 = rest;
        Some(first)
    }

    pub(crate) fn word(&mut self) -> Option<u32> {
        let (first, rest) = self.0.split_first_chunk::<4>()?;
        self.0 = rest;
        Some(u32::from_le_bytes(*first))
    }

    fn span(&mut self) -> Option<Span> {
        Some(Span::new(self.word()?, self.word()?))
    }

    fn flag(&mut self) -> Option<bool> {
        match self.byte()? {
            0 => Some(false),
            1 => Some(true),
            _ => None,
        }
    }
}

impl<'a> From<&'a [u8]> for Operands<'a> {
    fn from(bytes: &'a [u8]) -> Self {
        Self(bytes)
    }
}

fn put_word(out: &mut Vec<u8>, word: u32) {
    out.extend_from_slice(&word.to_le_bytes());
}

fn put_span(out: &mut Vec<u8>, span: Span) {
    put_word(out, span.start);
    put_word(out, span.end);
}

/// The length of a string.
#[derive(Debug, Clone, Copy)]
pub(crate) struct StringLength(pub u32);

impl Record for StringLength {
    const COMMAND: u8 = 3;
    const SIZE: usize = 5;

    fn decode(mut o: Operands<'_>) -> Option<Self> {
        Some(Self(o.word()?))
    }

    fn encode(&self, out: &mut Vec<u8>) {
        put_word(out, self.0);
    }
}

impl Record for Content {
    const COMMAND: u8 = 4;
    const SIZE: usize = 10;

    fn decode(mut o: Operands<'_>) -> Option<Self> {
        match (o.byte()?, o.word()?, o.word()?) {
            (0, id, 0) => Some(Self::Plain(StrId(id))),
            (1, start, len) => Some(Self::Segments(SegRange { start, len })),
            _ => None,
        }
    }

    fn encode(&self, out: &mut Vec<u8>) {
        let (tag, first, second) = match *self {
            Self::Plain(id) => (0, id.0, 0),
            Self::Segments(range) => (1, range.start, range.len),
        };
        out.push(tag);
        put_word(out, first);
        put_word(out, second);
    }
}

/// Kind, tag, plain words and six words, not yet looked at.
#[derive(Clone, Copy)]
struct Body {
    kind: u8,
    tag: u8,
    plain: Plain,
    words: [u32; 6],
}

/// The kind of a text, and of a block's open and close.
const NO_NODE: u8 = 0;

impl Body {
    const fn new(kind: u8, tag: u8, plain: Plain, words: [u32; 6]) -> Self {
        Self { kind, tag, plain, words }
    }

    fn decode(o: &mut Operands<'_>) -> Option<Self> {
        let (kind, tag) = (o.byte()?, o.byte()?);
        let plain = [o.word()?, o.word()?];
        let words = [o.word()?, o.word()?, o.word()?, o.word()?, o.word()?, o.word()?];
        Some(Self::new(kind, tag, plain, words))
    }

    fn encode(&self, out: &mut Vec<u8>) {
        out.push(self.kind);
        out.push(self.tag);
        for word in self.plain.into_iter().chain(self.words) {
            put_word(out, word);
        }
    }

    fn of_text(id: StrId, plain: Plain) -> Self {
        Self::new(NO_NODE, 0, plain, [id.0, 0, 0, 0, 0, 0])
    }

    fn text(&self) -> Option<StrId> {
        match (self.kind, self.tag, self.words) {
            (NO_NODE, 0, [id, 0, 0, 0, 0, 0]) => Some(StrId(id)),
            _ => None,
        }
    }

    fn of_block(plain: Plain) -> Self {
        Self::new(NO_NODE, 0, plain, [0; 6])
    }

    fn is_block(&self) -> bool {
        (self.kind, self.tag, self.words) == (NO_NODE, 0, [0; 6])
    }

    fn of_node(node: &Node, plain: Plain) -> Self {
        let (tag, words) = words_of(node);
        Self::new(node.kind().number() + 1, tag, plain, words)
    }

    fn node(&self) -> Option<Node> {
        let kind = NodeKind::from_number(self.kind.checked_sub(1)?)?;
        node_of(kind, self.tag, self.words)
    }
}

fn missing(word: u32) -> Option<StrId> {
    (word != NO_STRING).then_some(StrId(word))
}

fn optional(id: Option<StrId>) -> u32 {
    id.map_or(NO_STRING, |id| id.0)
}

fn contents(start: u32, len: u32) -> ContentRange {
    ContentRange { start, len }
}

fn format_of(tag: u8, words: [u32; 6]) -> Option<Node> {
    let [start, len, string, 0, 0, 0] = words else { return None };
    let payload = match (tag % 4, string) {
        (0, 0) => ForwardPayload::None,
        (1, 0) => ForwardPayload::NestedSource,
        (2, id) => ForwardPayload::AccentBody(StrId(id)),
        (3, id) => ForwardPayload::QuotedTarget(StrId(id)),
        _ => return None,
    };
    Some(Node::Format {
        target: contents(start, len),
        origin: ForwardOrigin::from_number(tag / 4)?,
        payload,
    })
}

fn gaiji_of(tag: u8, words: [u32; 6]) -> Option<Gaiji> {
    let (hint, canonical) = match (tag, words) {
        (0, [hint, 0, 0, 0, 0, 0]) => (hint, GaijiCanonical::MenKuTen),
        (1, [hint, 0, 0, 0, 0, 0]) => (hint, GaijiCanonical::Unicode),
        (2, [hint, mencode, 0, 0, 0, 0]) => {
            (hint, GaijiCanonical::Unresolved { mencode: missing(mencode) })
        }
        _ => return None,
    };
    Some(Gaiji { hint: StrId(hint), canonical })
}

fn illustration_of(tag: u8, words: [u32; 6]) -> Option<Illustration> {
    let [file, number, dimensions, description, first, second] = words;
    let caption = match (tag, first, second) {
        (0, 0, 0) => None,
        (1, id, 0) => Some(Content::Plain(StrId(id))),
        (2, start, len) => Some(Content::Segments(SegRange { start, len })),
        _ => return None,
    };
    Some(Illustration {
        file: StrId(file),
        number: missing(number),
        dimensions: missing(dimensions),
        caption,
        description: missing(description),
    })
}

fn directive_of(tag: u8, words: [u32; 6]) -> Option<Directive> {
    let [raw, 0, 0, 0, 0, 0] = words else { return None };
    Some(Directive { raw: StrId(raw), kind: DirectiveKind::from_number(tag)? })
}

fn node_of(kind: NodeKind, tag: u8, words: [u32; 6]) -> Option<Node> {
    match (kind, tag, words) {
        (NodeKind::Ruby, 0, [b, n, r, m, 0, 0]) => {
            Some(Node::Ruby { base: contents(b, n), reading: contents(r, m) })
        }
        (NodeKind::Format, ..) => format_of(tag, words),
        (NodeKind::Gaiji, ..) => gaiji_of(tag, words).map(Node::Gaiji),
        (NodeKind::Line, 0, [0, 0, 0, 0, 0, 0]) => Some(Node::Line),
        (NodeKind::PageBreak, 0, [0, 0, 0, 0, 0, 0]) => Some(Node::PageBreak),
        (NodeKind::SectionBreak, 0, [0, 0, 0, 0, 0, 0]) => Some(Node::SectionBreak),
        (NodeKind::BodyEnd, 0, [0, 0, 0, 0, 0, 0]) => Some(Node::BodyEnd),
        (NodeKind::ForcedBreak, 0, [0, 0, 0, 0, 0, 0]) => Some(Node::ForcedBreak),
        (NodeKind::Heading, 0, [s, n, 0, 0, 0, 0]) => Some(Node::Heading { text: contents(s, n) }),
        (NodeKind::HeadingHint, 0, [id, 0, 0, 0, 0, 0]) => {
            Some(Node::HeadingHint { target: StrId(id) })
        }
        (NodeKind::Illustration, ..) => illustration_of(tag, words).map(Node::Illustration),
        (NodeKind::Kaeriten, 0, [id, 0, 0, 0, 0, 0]) => Some(Node::Kaeriten { mark: StrId(id) }),
        (NodeKind::Directive, ..) => directive_of(tag, words).map(Node::Directive),
        (NodeKind::AngleQuote, 0, [s, n, 0, 0, 0, 0]) => {
            Some(Node::AngleQuote { content: contents(s, n) })
        }
        (NodeKind::MarginNote, 0, [b, n, s, m, 0, 0]) => {
            Some(Node::MarginNote { base: contents(b, n), note: contents(s, m) })
        }
        _ => None,
    }
}

fn gaiji_words(gaiji: &Gaiji) -> (u8, [u32; 6]) {
    let (tag, mencode) = match gaiji.canonical {
        GaijiCanonical::MenKuTen => (0, 0),
        GaijiCanonical::Unicode => (1, 0),
        GaijiCanonical::Unresolved { mencode } => (2, optional(mencode)),
    };
    (tag, [gaiji.hint.0, mencode, 0, 0, 0, 0])
}

fn illustration_words(i: &Illustration) -> (u8, [u32; 6]) {
    let (tag, first, second) = match i.caption {
        None => (0, 0, 0),
        Some(Content::Plain(id)) => (1, id.0, 0),
        Some(Content::Segments(range)) => (2, range.start, range.len),
    };
    (
        tag,
        [
            i.file.0,
            optional(i.number),
            optional(i.dimensions),
            optional(i.description),
            first,
            second,
        ],
    )
}

fn directive_words(directive: Directive) -> (u8, [u32; 6]) {
    (directive.kind.number(), [directive.raw.0, 0, 0, 0, 0, 0])
}

fn words_of(node: &Node) -> (u8, [u32; 6]) {
    let range = |r: ContentRange| (0, [r.start, r.len, 0, 0, 0, 0]);
    let ranges = |a: ContentRange, b: ContentRange| (0, [a.start, a.len, b.start, b.len, 0, 0]);
    let string = |id: StrId| (0, [id.0, 0, 0, 0, 0, 0]);
    match *node {
        Node::Ruby { base, reading } => ranges(base, reading),
        Node::Format { target, origin, payload } => {
            let (tag, string) = match payload {
                ForwardPayload::None => (0, 0),
                ForwardPayload::NestedSource => (1, 0),
                ForwardPayload::AccentBody(id) => (2, id.0),
                ForwardPayload::QuotedTarget(id) => (3, id.0),
            };
            (origin.number() * 4 + tag, [target.start, target.len, string, 0, 0, 0])
        }
        Node::Gaiji(gaiji) => gaiji_words(&gaiji),
        Node::Line | Node::PageBreak | Node::SectionBreak | Node::BodyEnd | Node::ForcedBreak => {
            (0, [0; 6])
        }
        Node::Heading { text } => range(text),
        Node::HeadingHint { target } => string(target),
        Node::Illustration(illustration) => illustration_words(&illustration),
        Node::Kaeriten { mark } => string(mark),
        Node::Directive(directive) => directive_words(directive),
        Node::AngleQuote { content } => range(content),
        Node::MarginNote { base, note } => ranges(base, note),
    }
}

impl Record for Segment {
    const COMMAND: u8 = 5;
    const SIZE: usize = 37;

    fn decode(mut o: Operands<'_>) -> Option<Self> {
        let (tag, level) = (o.byte()?, o.byte()?);
        let body = Body::decode(&mut o)?;
        let item = match (tag, body.kind) {
            (0, _) => SegmentItem::Text(body.text()?),
            (1, 3) => SegmentItem::Gaiji(gaiji_of(body.tag, body.words)?),
            (2, 13) => SegmentItem::Directive(directive_of(body.tag, body.words)?),
            (3, _) => SegmentItem::Node(body.node()?),
            _ => return None,
        };
        Some(Self { level, item, plain: body.plain })
    }

    fn encode(&self, out: &mut Vec<u8>) {
        let (tag, body) = match self.item {
            SegmentItem::Text(id) => (0, Body::of_text(id, self.plain)),
            SegmentItem::Gaiji(gaiji) => (1, Body::of_node(&Node::Gaiji(gaiji), self.plain)),
            SegmentItem::Directive(directive) => {
                (2, Body::of_node(&Node::Directive(directive), self.plain))
            }
            SegmentItem::Node(node) => (3, Body::of_node(&node, self.plain)),
        };
        out.push(tag);
        out.push(self.level);
        body.encode(out);
    }
}

impl Record for SourceNode {
    const COMMAND: u8 = 6;
    const SIZE: usize = 49;

    fn decode(mut o: Operands<'_>) -> Option<Self> {
        let (class, inline) = (o.byte()?, o.flag()?);
        let source_span = o.span()?;
        let normalized_offset = NormalizedOffset(o.word()?);
        let body = Body::decode(&mut o)?;
        let node = match (class, inline) {
            (0, false) => NodeRef::Inline(body.node()?),
            (1, false) => NodeRef::BlockLeaf(body.node()?),
            (2, _) if body.is_block() => NodeRef::BlockOpen { inline },
            (3, _) if body.is_block() => NodeRef::BlockClose { inline },
            _ => return None,
        };
        Some(Self { source_span, normalized_offset, node, plain: body.plain })
    }

    fn encode(&self, out: &mut Vec<u8>) {
        out.push(self.node.class());
        out.push(u8::from(self.node.inline()));
        put_span(out, self.source_span);
        put_word(out, self.normalized_offset.0);
        let body = self
            .node
            .node()
            .map_or_else(|| Body::of_block(self.plain), |node| Body::of_node(node, self.plain));
        body.encode(out);
    }
}

impl Record for PairLink {
    const COMMAND: u8 = 7;
    const SIZE: usize = 18;

    fn decode(mut o: Operands<'_>) -> Option<Self> {
        Some(Self { kind: PairKind::from_number(o.byte()?)?, open: o.span()?, close: o.span()? })
    }

    fn encode(&self, out: &mut Vec<u8>) {
        out.push(self.kind.number());
        put_span(out, self.open);
        put_span(out, self.close);
    }
}

impl Record for ContainerPair {
    const COMMAND: u8 = 8;
    const SIZE: usize = 13;

    fn decode(mut o: Operands<'_>) -> Option<Self> {
        Some(Self {
            plain: o.word()?,
            open: NormalizedOffset(o.word()?),
            close: NormalizedOffset(o.word()?),
        })
    }

    fn encode(&self, out: &mut Vec<u8>) {
        put_word(out, self.plain);
        put_word(out, self.open.0);
        put_word(out, self.close.0);
    }
}

impl Record for Diagnostic {
    const COMMAND: u8 = 9;
    const SIZE: usize = 18;

    fn decode(mut o: Operands<'_>) -> Option<Self> {
        Some(Self {
            kind: DiagnosticKind::from_number(o.byte()?)?,
            code_rank: o.word()?,
            span: o.span()?,
            plain: o.word()?,
        })
    }

    fn encode(&self, out: &mut Vec<u8>) {
        out.push(self.kind.number());
        put_word(out, self.code_rank);
        put_span(out, self.span);
        put_word(out, self.plain);
    }
}

pub(crate) fn put_head(out: &mut Vec<u8>, text: u32, normalized: u32) {
    out.push(HEAD);
    put_word(out, text);
    put_word(out, normalized);
}
