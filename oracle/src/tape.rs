//! Ours: a tape of document 01 as the Rust's types, and the Rust's types as a tape. The store is built by the Rust's own functions alone.
//!
//! The Rust has no place for levels, nor for a plain word where it has no such field: they are carried beside it (`Carried`). Where it has a field,
//! the field is made from the plain words, and on the way out it must be the one that the carried plain words make, else a panic says so.
use core::ops::Range;
use std::collections::HashSet;
use std::sync::Arc;

use crate::encoding::gaiji::MenKuTen;
use crate::spec::{Diagnostic, NormalizedOffset, PairKind, PairLink, Span};
use crate::syntax::ast::intern::StrId;
use crate::syntax::ast::payload::*;
use crate::syntax::ast::store::{ContentRange, SegRange};
use crate::syntax::ast::{ContainerPair, LexOutput, NodeRef, NodeStore, RegionOutput, Registry, SourceNode};
use crate::syntax::*;

#[path = "quick.rs"]
pub mod quick;

const MISSING: u32 = 0xffff_ffff;

pub(crate) type Plain = (u32, u32);

#[derive(Clone, Debug)]
struct Body {
    kind: u8,
    tag: u8,
    plain: Plain,
    words: [u32; 6],
}

/// What the tape holds and the Rust does not: how many strings, contents and segments each layer has, the level and plain words of each segment,
/// the plain words of each node.
#[derive(Clone, Debug, Default)]
pub(crate) struct Carried {
    pub(crate) layers: Vec<[u32; 3]>,
    pub(crate) segments: Vec<(u8, Plain)>,
    pub(crate) nodes: Vec<Plain>,
}

/// A cached parse in the Rust's types.
#[derive(Debug)]
pub struct Book {
    pub(crate) lex: LexOutput,
    pub(crate) carried: Carried,
}

/// A lexer's output for one region, and its text.
#[derive(Debug)]
pub struct Reading {
    pub(crate) text: String,
    pub(crate) region: RegionOutput,
    pub(crate) carried: Carried,
}

// ---- a tape read; None where it cannot be

struct Reader<'a>(&'a [u8], usize);
impl Reader<'_> {
    fn b(&mut self) -> Option<u8> {
        let v = self.0.get(self.1).copied()?;
        self.1 += 1;
        Some(v)
    }
    fn w(&mut self) -> Option<u32> {
        let v = self.0.get(self.1..self.1 + 4)?;
        self.1 += 4;
        Some(u32::from_le_bytes(v.try_into().unwrap()))
    }
    fn span(&mut self) -> Option<Span> {
        Some(Span::new(self.w()?, self.w()?))
    }
    fn body(&mut self) -> Option<Body> {
        let (kind, tag, plain) = (self.b()?, self.b()?, (self.w()?, self.w()?));
        let mut words = [0; 6];
        for w in &mut words {
            *w = self.w()?;
        }
        Some(Body { kind, tag, plain, words })
    }
    fn at(&mut self, command: u8) -> bool {
        let here = self.0.get(self.1) == Some(&command);
        self.1 += usize::from(here);
        here
    }
}

/// The byte buffer, from its start on.
struct Bytes<'a>(&'a [u8]);
impl<'a> Bytes<'a> {
    fn take(&mut self, n: u32) -> Option<&'a str> {
        let (s, rest) = self.0.split_at_checked(n as usize)?;
        self.0 = rest;
        core::str::from_utf8(s).ok()
    }
}

struct Parts<'a> {
    text: &'a str,
    normalized: &'a str,
    store: NodeStore,
    nodes: Vec<SourceNode>,
    pairs: Vec<PairLink>,
    containers: Vec<ContainerPair>,
    diagnostics: Vec<Diagnostic>,
    carried: Carried,
}

/// A layer above `store`. The interner gives like strings one id, so a string that a layer already has begins a further layer of the Rust's:
/// numbers run on across layers, and contents and segments stand in the last one, so every id and range means what it means on the tape.
fn put_layer(store: Option<NodeStore>, strings: &[&str], contents: &[Content], segments: &[Segment]) -> NodeStore {
    let above = |store: NodeStore| NodeStore::layered(Arc::new(store));
    let mut store = store.map_or_else(NodeStore::default, above);
    let mut there = HashSet::new();
    for s in strings {
        if !there.insert(*s) {
            store = above(store);
            there = HashSet::from([*s]);
        }
        store.intern(s);
    }
    store.push_contents(contents);
    store.push_segments(segments);
    store.interner.stats = Default::default();
    store
}

fn read_layer(r: &mut Reader, d: &mut Bytes, store: Option<NodeStore>, carried: &mut Carried) -> Option<NodeStore> {
    let mut strings = Vec::new();
    while r.at(3) {
        strings.push(d.take(r.w()?)?);
    }
    let mut contents = Vec::new();
    while r.at(4) {
        let (tag, a, b) = (r.b()?, r.w()?, r.w()?);
        contents.push(match tag {
            0 => Content::Plain(StrId(a)),
            1 => Content::Segments(SegRange { start: a, len: b }),
            _ => return None,
        });
    }
    let mut segments = Vec::new();
    while r.at(5) {
        let (tag, level, body) = (r.b()?, r.b()?, r.body()?);
        segments.push(segment(tag, &body)?);
        carried.segments.push((level, body.plain));
    }
    carried.layers.push([strings.len() as u32, contents.len() as u32, segments.len() as u32]);
    Some(put_layer(store, &strings, &contents, &segments))
}

fn read<'a>(tape: &[u8], bytes: &'a [u8]) -> Option<Parts<'a>> {
    let (mut r, mut d) = (Reader(tape, 0), Bytes(bytes));
    if !r.at(1) {
        return None;
    }
    let (text, normalized) = (r.w()?, r.w()?);
    let (text, normalized) = (d.take(text)?, d.take(normalized)?);
    let mut carried = Carried::default();
    let mut store = None;
    while r.at(2) {
        store = Some(read_layer(&mut r, &mut d, store, &mut carried)?);
    }
    let mut nodes = Vec::new();
    while r.at(6) {
        let (class, inline, source_span, offset, body) = (r.b()?, r.b()?, r.span()?, r.w()?, r.body()?);
        nodes.push(SourceNode { source_span, normalized_offset: NormalizedOffset::new(offset), node: node_ref(class, inline, &body)? });
        carried.nodes.push(body.plain);
    }
    let mut pairs = Vec::new();
    while r.at(7) {
        let (kind, open, close) = (r.b()?, r.span()?, r.span()?);
        pairs.push(PairLink::new(*PairKind::ALL.get(kind as usize)?, open, close));
    }
    let mut containers = Vec::new();
    while r.at(8) {
        let (kind, open, close) = (container_kind(r.w()?), NormalizedOffset::new(r.w()?), NormalizedOffset::new(r.w()?));
        containers.push(ContainerPair { kind, open, close });
    }
    let mut diagnostics = Vec::new();
    while r.at(9) {
        let (kind, rank, span, plain) = (r.b()?, r.w()?, r.span()?, r.w()?);
        diagnostics.push(Diagnostic::new(kind, rank, span, plain, diagnostics.len() as u32)?);
    }
    let whole = r.at(10) && r.1 == tape.len() && d.0.is_empty();
    whole.then_some(Parts { text, normalized, store: store?, nodes, pairs, containers, diagnostics, carried })
}

impl Book {
    /// None where the tape has no such book. Its diagnostics stand as the tape gives them (`LexOutput::new` would sort them).
    pub fn read(tape: &[u8], bytes: &[u8]) -> Option<Self> {
        let p = read(tape, bytes)?;
        let mut lex = LexOutput::new(p.normalized.to_owned(), Arc::<str>::from(p.text), false, Registry::empty(), Vec::new(), p.pairs, p.nodes, p.containers, p.store);
        lex.diagnostics = p.diagnostics;
        Some(Self { lex, carried: p.carried })
    }
    pub fn text(&self) -> &str {
        &self.lex.sanitized
    }
    pub fn nodes(&self) -> usize {
        self.lex.source_nodes.len()
    }
    pub fn layers(&self) -> usize {
        self.carried.layers.len()
    }
    /// Where its marks of no width are: diagnostics that end where they start.
    pub fn marks(&self) -> impl Iterator<Item = u32> {
        self.lex.diagnostics.iter().map(Diagnostic::span).filter(|s| s.start == s.end).map(|s| s.start)
    }
}

impl Reading {
    pub fn read(tape: &[u8], bytes: &[u8]) -> Option<Self> {
        let mut p = read(tape, bytes)?;
        p.diagnostics.iter_mut().for_each(Diagnostic::set_read);
        let region = RegionOutput {
            normalized: p.normalized.to_owned(),
            diagnostics: p.diagnostics,
            pairs: p.pairs,
            source_nodes: p.nodes,
            container_pairs: p.containers,
            store: p.store,
        };
        Some(Self { text: p.text.to_owned(), region, carried: p.carried })
    }
    pub fn text(&self) -> &str {
        &self.text
    }
    pub fn nodes(&self) -> usize {
        self.region.source_nodes.len()
    }
}

// ---- records of the tape as the Rust's values

fn attr(p: u32) -> ForwardAttr {
    ForwardAttr::AlignEnd { offset: (p % 251) as u8 }
}
fn heading_kind(p: u32) -> HeadingKind {
    [HeadingKind::Large, HeadingKind::Medium, HeadingKind::Small][(p % 3) as usize]
}
fn heading_style(p: u32) -> HeadingStyle {
    [HeadingStyle::Standard, HeadingStyle::SameLine, HeadingStyle::Window][(p % 3) as usize]
}
fn region_format(inline: bool, p: u32) -> RegionFormat {
    match (inline, p % 3) {
        (true, 0) => RegionFormat::Bold { padded: false },
        (true, 1) => RegionFormat::Gothic { padded: false },
        (true, _) => RegionFormat::Caption { padded: false },
        (false, 0) => RegionFormat::AlignEnd { offset: (p % 251) as u8 },
        (false, 1) => RegionFormat::Italic { padded: true },
        (false, _) => RegionFormat::Warichu,
    }
}
const DIRECTIVES: [DirectiveKind; 14] = [
    DirectiveKind::NonCanonical,
    DirectiveKind::Editorial,
    DirectiveKind::Sic,
    DirectiveKind::BaseTextVariant,
    DirectiveKind::WarichuOpen,
    DirectiveKind::WarichuClose,
    DirectiveKind::Empty,
    DirectiveKind::EditorNote,
    DirectiveKind::RubyAttached,
    DirectiveKind::RubyRetarget,
    DirectiveKind::RubyPairOpen,
    DirectiveKind::RubyPairClose,
    DirectiveKind::MarginNotePairOpen,
    DirectiveKind::MarginNotePairClose,
];
const ORIGINS: [ForwardOrigin; 4] = [
    ForwardOrigin::Reclaimed,
    ForwardOrigin::Referenced,
    ForwardOrigin::SelfContained,
    ForwardOrigin::Detached,
];

fn opt(w: u32) -> Option<StrId> {
    (w != MISSING).then_some(StrId(w))
}
fn cr(w: &[u32]) -> ContentRange {
    ContentRange { start: w[0], len: w[1] }
}
fn sr(w: &[u32]) -> SegRange {
    SegRange { start: w[0], len: w[1] }
}

fn gaiji(b: &Body) -> Option<Gaiji> {
    let (p, q) = b.plain;
    Some(Gaiji {
        hint: StrId(b.words[0]),
        canonical: match b.tag {
            0 => GaijiCanonicalOwned::MenKuTen(MenKuTen { plane: (p % 2) as u8, ku: (p % 94) as u8, ten: (q % 94) as u8 }),
            1 => GaijiCanonicalOwned::Unicode(char::from((p % 128) as u8)),
            2 => GaijiCanonicalOwned::Unresolved { mencode: opt(b.words[1]) },
            _ => return None,
        },
        mencode_separator: q % 2 == 1,
        standalone: q % 3 == 1,
    })
}
fn directive(b: &Body) -> Option<Directive> {
    Some(Directive { raw: StrId(b.words[0]), kind: *DIRECTIVES.get(b.tag as usize)? })
}

fn node(b: &Body) -> Option<Node> {
    let w = &b.words;
    let (p, q) = b.plain;
    Some(match b.kind {
        1 => Node::Ruby(Ruby {
            base: cr(&w[0..2]),
            reading: cr(&w[2..4]),
            side: [RubySide::Right, RubySide::Left][(p % 2) as usize],
            base_emphasis: (q != 0).then(|| attr(q)),
        }),
        2 => Node::Format(ForwardFormat {
            attr: attr(p),
            target: cr(&w[0..2]),
            origin: *ORIGINS.get(b.tag as usize / 4)?,
            payload: match b.tag % 4 {
                0 => ForwardPayload::None,
                1 => ForwardPayload::NestedSource,
                2 => ForwardPayload::AccentBody(StrId(w[2])),
                _ => ForwardPayload::QuotedTarget(StrId(w[2])),
            },
        }),
        3 => Node::Gaiji(gaiji(b)?),
        4 => Node::Line(LineFormat::Indent { amount: (p % 251) as u8, end_offset: (q != 0).then_some((q % 251) as u8) }),
        5 => Node::PageBreak,
        6 => Node::SectionBreak([SectionKind::Kaicho, SectionKind::Kaidan, SectionKind::Kaimihiraki][(p % 3) as usize]),
        7 => Node::BodyEnd,
        8 => Node::ForcedBreak,
        9 => Node::Heading(Heading { kind: heading_kind(p), style: heading_style(q), text: cr(&w[0..2]) }),
        10 => Node::HeadingHint(HeadingHint {
            level: heading_kind(p),
            style: heading_style(q),
            target: StrId(w[0]),
            self_contained: p % 2 == 1,
        }),
        11 => Node::Illustration(Illustration {
            file: StrId(w[0]),
            number: opt(w[1]),
            dimensions: opt(w[2]),
            description: opt(w[3]),
            caption: match b.tag {
                0 => None,
                1 => Some(Content::Plain(StrId(w[4]))),
                2 => Some(Content::Segments(sr(&w[4..6]))),
                _ => return None,
            },
        }),
        12 => Node::Kaeriten(Kaeriten { mark: StrId(w[0]) }),
        13 => Node::Directive(directive(b)?),
        14 => Node::AngleQuote(AngleQuote { content: cr(&w[0..2]) }),
        15 => Node::MarginNote(MarginNote {
            kind: [MarginNoteKind::Gloss, MarginNoteKind::Marginal][(p % 2) as usize],
            base: cr(&w[0..2]),
            note: cr(&w[2..4]),
        }),
        _ => return None,
    })
}

fn segment(tag: u8, body: &Body) -> Option<Segment> {
    Some(match tag {
        0 => Segment::Text(StrId(body.words[0])),
        1 => Segment::Gaiji(gaiji(body)?),
        2 => Segment::Directive(directive(body)?),
        3 => Segment::Node(node(body)?),
        _ => return None,
    })
}

fn node_ref(class: u8, inline: u8, body: &Body) -> Option<NodeRef> {
    Some(match class {
        0 => NodeRef::Inline(node(body)?),
        1 => NodeRef::BlockLeaf(node(body)?),
        2 => NodeRef::BlockOpen(region_format(inline == 1, body.plain.0)),
        3 => NodeRef::BlockClose(RegionClose::of(region_format(inline == 1, body.plain.0))),
        _ => return None,
    })
}

// A container's plain word, whole, in a real `RegionFormat`: four bytes of an Indent.
fn container_kind(p: u32) -> RegionFormat {
    let b = p.to_le_bytes();
    RegionFormat::Indent(IndentBlock {
        amount: b[0],
        wrap: Some(b[1]),
        center: b[2] & 1 == 1,
        layout: IndentLayout::LineWidth(LineWidth(core::num::NonZeroU8::new((b[2] >> 1) + 1).unwrap())),
        styles: BlockStyles {
            gothic: b[3] & 1 == 1,
            horizontal: b[3] & 2 == 2,
            framed: b[3] & 4 == 4,
            font: core::num::NonZeroI8::new((b[3] >> 3) as i8).map(FontShift),
        },
    })
}
fn container_plain(k: RegionFormat) -> u32 {
    let RegionFormat::Indent(i) = k else { panic!("container kind") };
    let IndentLayout::LineWidth(LineWidth(w)) = i.layout else { panic!("container layout") };
    let b2 = u8::from(i.center) | ((w.get() - 1) << 1);
    let s = i.styles;
    let b3 = u8::from(s.gothic)
        | (u8::from(s.horizontal) << 1)
        | (u8::from(s.framed) << 2)
        | (s.font.map_or(0, |f| f.0.get() as u8) << 3);
    u32::from_le_bytes([i.amount, i.wrap.unwrap(), b2, b3])
}

// ---- the Rust's values as records of the tape

fn body_of_node(n: &Node, plain: Plain) -> Body {
    let mut w = [0u32; 6];
    let o = |x: Option<StrId>| x.map_or(MISSING, |s| s.0);
    let (kind, tag) = match *n {
        Node::Ruby(r) => {
            w[..4].copy_from_slice(&[r.base.start, r.base.len, r.reading.start, r.reading.len]);
            (1, 0)
        }
        Node::Format(f) => {
            w[..2].copy_from_slice(&[f.target.start, f.target.len]);
            let origin = ORIGINS.iter().position(|x| *x == f.origin).unwrap() as u8;
            let payload = match f.payload {
                ForwardPayload::None => 0,
                ForwardPayload::NestedSource => 1,
                ForwardPayload::AccentBody(s) => {
                    w[2] = s.0;
                    2
                }
                ForwardPayload::QuotedTarget(s) => {
                    w[2] = s.0;
                    3
                }
            };
            (2, origin * 4 + payload)
        }
        Node::Gaiji(g) => return body_of_gaiji(&g, plain),
        Node::Line(_) => (4, 0),
        Node::PageBreak => (5, 0),
        Node::SectionBreak(_) => (6, 0),
        Node::BodyEnd => (7, 0),
        Node::ForcedBreak => (8, 0),
        Node::Heading(h) => {
            w[..2].copy_from_slice(&[h.text.start, h.text.len]);
            (9, 0)
        }
        Node::HeadingHint(h) => {
            w[0] = h.target.0;
            (10, 0)
        }
        Node::Illustration(i) => {
            w[..4].copy_from_slice(&[i.file.0, o(i.number), o(i.dimensions), o(i.description)]);
            (
                11,
                match i.caption {
                    None => 0,
                    Some(Content::Plain(s)) => {
                        w[4] = s.0;
                        1
                    }
                    Some(Content::Segments(r)) => {
                        w[4] = r.start;
                        w[5] = r.len;
                        2
                    }
                },
            )
        }
        Node::Kaeriten(k) => {
            w[0] = k.mark.0;
            (12, 0)
        }
        Node::Directive(d) => return body_of_directive(&d, plain),
        Node::AngleQuote(q) => {
            w[..2].copy_from_slice(&[q.content.start, q.content.len]);
            (14, 0)
        }
        Node::MarginNote(m) => {
            w[..4].copy_from_slice(&[m.base.start, m.base.len, m.note.start, m.note.len]);
            (15, 0)
        }
    };
    let body = Body { kind, tag, plain, words: w };
    assert_eq!(node(&body), Some(*n), "a field differs from what its plain words make");
    body
}
fn body_of_gaiji(g: &Gaiji, plain: Plain) -> Body {
    let mut w = [0u32; 6];
    w[0] = g.hint.0;
    let tag = match g.canonical {
        GaijiCanonicalOwned::MenKuTen(_) => 0,
        GaijiCanonicalOwned::Unicode(_) => 1,
        GaijiCanonicalOwned::Unresolved { mencode } => {
            w[1] = mencode.map_or(MISSING, |s| s.0);
            2
        }
    };
    let body = Body { kind: 3, tag, plain, words: w };
    assert_eq!(gaiji(&body), Some(*g), "a field differs from what its plain words make");
    body
}
fn body_of_directive(d: &Directive, plain: Plain) -> Body {
    let mut w = [0u32; 6];
    w[0] = d.raw.0;
    Body { kind: 13, tag: DIRECTIVES.iter().position(|k| *k == d.kind).unwrap() as u8, plain, words: w }
}
fn body_of_segment(s: &Segment, plain: Plain) -> (u8, Body) {
    match s {
        Segment::Text(id) => (0, Body { kind: 0, tag: 0, plain, words: [id.0, 0, 0, 0, 0, 0] }),
        Segment::Gaiji(g) => (1, body_of_gaiji(g, plain)),
        Segment::Directive(d) => (2, body_of_directive(d, plain)),
        Segment::Node(n) => (3, body_of_node(n, plain)),
    }
}

// ---- levels and plain words of a grafted layer's segments. The grafted values have the shape of what they come from, so both are walked side
// by side. Nothing of this is read by the Rust.

struct Walk<'a> {
    from: &'a NodeStore,
    to: &'a NodeStore,
    source: &'a [(u8, Plain)],
    /// from the first segment of the new layer on
    target: &'a mut [(u8, Plain)],
    first: u32,
}
impl Walk<'_> {
    fn segs(&mut self, a: SegRange, b: SegRange) {
        assert_eq!(a.len, b.len, "a run's length changed");
        let x = self.from.resolve_seg_range(a).to_vec();
        let y = self.to.resolve_seg_range(b).to_vec();
        for i in 0..a.len {
            self.target[(b.start - self.first + i) as usize] = self.source[(a.start + i) as usize];
            match (&x[i as usize], &y[i as usize]) {
                (Segment::Node(m), Segment::Node(n)) => self.node(m, n),
                (Segment::Text(_), Segment::Text(_))
                | (Segment::Gaiji(_), Segment::Gaiji(_))
                | (Segment::Directive(_), Segment::Directive(_)) => {}
                _ => panic!("a segment's tag changed"),
            }
        }
    }
    fn content(&mut self, a: &Content, b: &Content) {
        match (a, b) {
            (Content::Plain(_), Content::Plain(_)) => {}
            (Content::Segments(a), Content::Segments(b)) => self.segs(*a, *b),
            _ => panic!("a content's tag changed"),
        }
    }
    fn contents(&mut self, a: ContentRange, b: ContentRange) {
        assert_eq!(a.len, b.len, "a run's length changed");
        let x = self.from.resolve_content_range(a).to_vec();
        let y = self.to.resolve_content_range(b).to_vec();
        for (c, d) in x.iter().zip(&y) {
            self.content(c, d);
        }
    }
    fn node(&mut self, a: &Node, b: &Node) {
        match (a, b) {
            (Node::Ruby(a), Node::Ruby(b)) => {
                self.contents(a.base, b.base);
                self.contents(a.reading, b.reading);
            }
            (Node::Format(a), Node::Format(b)) => self.contents(a.target, b.target),
            (Node::Heading(a), Node::Heading(b)) => self.contents(a.text, b.text),
            (Node::AngleQuote(a), Node::AngleQuote(b)) => self.contents(a.content, b.content),
            (Node::MarginNote(a), Node::MarginNote(b)) => {
                self.contents(a.base, b.base);
                self.contents(a.note, b.note);
            }
            (Node::Illustration(a), Node::Illustration(b)) => match (&a.caption, &b.caption) {
                (None, None) => {}
                (Some(a), Some(b)) => self.content(a, b),
                _ => panic!("a caption changed"),
            },
            _ => {}
        }
    }
    fn nodes(&mut self, a: &[SourceNode], b: &[SourceNode]) {
        for (a, b) in a.iter().zip(b) {
            match (&a.node, &b.node) {
                (NodeRef::Inline(a), NodeRef::Inline(b)) | (NodeRef::BlockLeaf(a), NodeRef::BlockLeaf(b)) => self.node(a, b),
                _ => {}
            }
        }
    }
}

/// How many strings, contents and segments a store has, asked of a layer above it.
fn pools(store: &Arc<NodeStore>) -> [u32; 3] {
    let mut above = NodeStore::layered(Arc::clone(store));
    [above.intern("").0, above.push_contents(&[]).start, above.push_segments(&[]).start]
}

/// What the merged book carries: the old book's nodes outside the region, the reading's within.
pub(crate) fn carry(book: &Book, reading: &Reading, lex: &LexOutput, region: &Range<u32>) -> Carried {
    let old = || book.lex.source_nodes.iter().zip(&book.carried.nodes);
    let mut nodes: Vec<Plain> = old().filter(|(n, _)| n.source_span.end <= region.start).map(|(_, p)| *p).collect();
    let first = nodes.len();
    nodes.extend(&reading.carried.nodes);
    nodes.extend(old().filter(|(n, _)| n.source_span.start >= region.end).map(|(_, p)| *p));
    assert_eq!(lex.source_nodes.len(), nodes.len(), "count of nodes");
    let (mut layers, mut segments) = (book.carried.layers.clone(), book.carried.segments.clone());
    if !Arc::ptr_eq(&book.lex.store, &lex.store) {
        let (before, behind) = (pools(&book.lex.store), pools(&lex.store));
        layers.push([0, 1, 2].map(|i| behind[i] - before[i]));
        // every segment of the new layer is in some run; one that no walk meets keeps a level that no tape has
        segments.resize(behind[2] as usize, (u8::MAX, (0, 0)));
        let target = &mut segments[before[2] as usize..];
        let mut walk = Walk { from: &reading.region.store, to: &lex.store, source: &reading.carried.segments, target, first: before[2] };
        walk.nodes(&reading.region.source_nodes, &lex.source_nodes[first..]);
    }
    Carried { layers, segments, nodes }
}

/// The nodes of a book, grafted in order into one fresh store.
pub struct Grafted {
    store: NodeStore,
    nodes: Vec<SourceNode>,
}

impl Book {
    /// By the Rust's `graft_node_ref` alone. The published Rust makes one layer of many nowhere: of the Rust's are what grafts, interns and pushes, and the
    /// order is that of document 02, wish 6.
    pub fn grafted(&self) -> Grafted {
        let mut store = NodeStore::default();
        let nodes = self.lex.source_nodes.iter().map(|n| SourceNode { node: store.graft_node_ref(&self.lex.store, n.node), ..*n }).collect();
        Grafted { store, nodes }
    }
    /// The book of these nodes; all else as it is.
    pub fn flattened(&self) -> Self {
        let (old, Grafted { store, nodes }) = (&self.lex, self.grafted());
        let store = Arc::new(store);
        let counts = pools(&store);
        let mut segments = vec![(u8::MAX, (0, 0)); counts[2] as usize];
        Walk { from: &old.store, to: &store, source: &self.carried.segments, target: &mut segments, first: 0 }.nodes(&old.source_nodes, &nodes);
        let mut lex = LexOutput::new(old.normalized.clone(), old.sanitized.clone(), false, Registry::empty(), Vec::new(), old.pairs.clone(), nodes, old.container_pairs.clone(), store);
        lex.diagnostics = old.diagnostics.clone();
        Self { lex, carried: Carried { layers: vec![counts], segments, nodes: self.carried.nodes.clone() } }
    }
}

// ---- a book written

#[derive(Default)]
struct Out(Vec<u8>);
impl Out {
    fn b(&mut self, v: u8) {
        self.0.push(v);
    }
    fn w(&mut self, v: u32) {
        self.0.extend_from_slice(&v.to_le_bytes());
    }
    fn span(&mut self, s: Span) {
        self.w(s.start);
        self.w(s.end);
    }
    fn body(&mut self, b: &Body) {
        self.b(b.kind);
        self.b(b.tag);
        self.w(b.plain.0);
        self.w(b.plain.1);
        for w in b.words {
            self.w(w);
        }
    }
}

fn write_layer(tape: &mut Out, bytes: &mut Vec<u8>, store: &NodeStore, first: [u32; 3], count: [u32; 3], carried: &[(u8, Plain)]) {
    tape.b(2);
    for id in first[0]..first[0] + count[0] {
        let s = store.resolve_str(StrId(id));
        tape.b(3);
        tape.w(s.len() as u32);
        bytes.extend_from_slice(s.as_bytes());
    }
    for content in store.resolve_content_range(ContentRange { start: first[1], len: count[1] }) {
        let (tag, a, b) = match content {
            Content::Plain(id) => (0, id.0, 0),
            Content::Segments(r) => (1, r.start, r.len),
        };
        tape.b(4);
        tape.b(tag);
        tape.w(a);
        tape.w(b);
    }
    for (s, (level, plain)) in store.resolve_seg_range(SegRange { start: first[2], len: count[2] }).iter().zip(carried) {
        let (tag, body) = body_of_segment(s, *plain);
        tape.b(5);
        tape.b(tag);
        tape.b(*level);
        tape.body(&body);
    }
}

fn write_node(tape: &mut Out, n: &SourceNode, plain: Plain) {
    let plain_body = Body { kind: 0, tag: 0, plain, words: [0; 6] };
    let (class, inline, body) = match n.node {
        NodeRef::Inline(x) => (0, false, body_of_node(&x, plain)),
        NodeRef::BlockLeaf(x) => (1, false, body_of_node(&x, plain)),
        NodeRef::BlockOpen(f) => {
            assert_eq!(f, region_format(f.is_inline(), plain.0), "a format changed");
            (2, f.is_inline(), plain_body)
        }
        NodeRef::BlockClose(f) => {
            assert_eq!(f, RegionClose::of(region_format(f.is_inline(), plain.0)), "a close changed");
            (3, f.is_inline(), plain_body)
        }
    };
    tape.b(6);
    tape.b(class);
    tape.b(u8::from(inline));
    tape.span(n.source_span);
    tape.w(n.normalized_offset.get());
    tape.body(&body);
}

impl Book {
    /// The tape and the byte buffer.
    pub fn write(&self) -> (Vec<u8>, Vec<u8>) {
        let lex = &self.lex;
        let (mut tape, mut bytes) = (Out::default(), Vec::new());
        tape.b(1);
        tape.w(lex.sanitized.len() as u32);
        tape.w(lex.normalized.len() as u32);
        bytes.extend_from_slice(lex.sanitized.as_bytes());
        bytes.extend_from_slice(lex.normalized.as_bytes());
        let mut first = [0; 3];
        for count in &self.carried.layers {
            write_layer(&mut tape, &mut bytes, &lex.store, first, *count, &self.carried.segments[first[2] as usize..]);
            first = [0, 1, 2].map(|i| first[i] + count[i]);
        }
        for (n, plain) in lex.source_nodes.iter().zip(&self.carried.nodes) {
            write_node(&mut tape, n, *plain);
        }
        for p in &lex.pairs {
            tape.b(7);
            tape.b(PairKind::ALL.iter().position(|k| *k == p.kind).unwrap() as u8);
            tape.span(p.open);
            tape.span(p.close);
        }
        for p in &lex.container_pairs {
            tape.b(8);
            tape.w(container_plain(p.kind));
            tape.w(p.open.get());
            tape.w(p.close.get());
        }
        for d in &lex.diagnostics {
            tape.b(9);
            tape.b(d.kind());
            tape.w(d.rest().rank);
            tape.span(d.span());
            tape.w(d.rest().plain);
        }
        tape.b(10);
        (tape.0, bytes)
    }
}
