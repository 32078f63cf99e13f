//! Writing a book.

use crate::book::Book;
use crate::calls;
use crate::record::{END, LAYER, Record, StringLength, put_head};
use crate::refusal::Refusal;
use crate::stored::StoredBook;
use crate::syntax::{
    ContainerPair, Content, ContentRange, Diagnostic, Node, NodeRef, NormalizedOffset, PairLink,
    Plain, SegRange, Segment, SegmentItem, SourceNode, Span, StrId,
};

/// Writes the tape and the byte buffer of a book or a reading.
///
/// Texts and nodes are given in their order. [`text`](Self::text) and [`node`](Self::node) write
/// the normalized text too and know all offsets; [`raw_texts`](Self::raw_texts) and
/// [`raw_node`](Self::raw_node) take them as they are given. [`build`](Self::build) asks the proved
/// `check_book`, so what it gives is a book.
///
/// ```
/// use aozora_incremental::{Book, BookBuilder, Node, NodeRef, Refusal};
///
/// let mut builder = BookBuilder::new();
/// let (base, reading) = (builder.plain("人"), builder.plain("ひと"));
/// builder.text("この").node("人《ひと》", NodeRef::Inline(Node::Ruby { base, reading })).text("は");
/// let stored = builder.build()?;
/// let book = Book::new(&stored)?;
/// assert_eq!(book.text(), "この人《ひと》は");
/// assert_eq!(book.normalized(), "この\u{E001}は");
/// # Ok::<(), Refusal>(())
/// ```
#[derive(Debug, Clone, Default)]
pub struct BookBuilder {
    text: String,
    normalized: String,
    /// The bytes of all strings, and the length of each.
    strings: String,
    lengths: Vec<usize>,
    contents: Vec<Content>,
    segments: Vec<Segment>,
    /// Where each layer but the last ends.
    ends: Vec<Counts>,
    nodes: Vec<SourceNode>,
    pairs: Vec<PairLink>,
    containers: Vec<ContainerPair>,
    diagnostics: Vec<Diagnostic>,
}

/// How many there are in each pool.
#[derive(Debug, Clone, Copy, Default)]
struct Counts {
    strings: usize,
    contents: usize,
    segments: usize,
}

/// A number of the tape. One that has no place in a word is far above every limit; `stored` refuses
/// it with 3.
fn word(n: usize) -> u32 {
    u32::try_from(n).unwrap_or(u32::MAX)
}

impl BookBuilder {
    /// An empty book with one empty layer.
    #[must_use]
    pub fn new() -> Self {
        Self::default()
    }

    /// Everything that a book has, to be written again: unchanged, it gives the same bytes.
    #[must_use]
    pub fn from_book(book: &Book<'_>) -> Self {
        let mut builder = Self::new();
        for (place, layer) in book.layers().enumerate() {
            if place > 0 {
                builder.layer();
            }
            layer.strings().for_each(|string| _ = builder.string(string));
            builder.contents.extend(layer.contents());
            builder.segments.extend(layer.segments());
        }
        builder.raw_texts(book.text(), book.normalized());
        builder.nodes.extend(book.nodes());
        builder.pairs.extend(book.pairs());
        builder.containers.extend(book.containers());
        builder.diagnostics.extend(book.diagnostics());
        builder
    }

    /// Begins a further layer. What was pushed stays in the layer before. A reading has one layer
    /// only.
    pub fn layer(&mut self) -> &mut Self {
        self.ends.push(self.counts());
        self
    }

    fn counts(&self) -> Counts {
        Counts {
            strings: self.lengths.len(),
            contents: self.contents.len(),
            segments: self.segments.len(),
        }
    }

    /// A new string of the layer; the same string twice is two strings.
    pub fn string(&mut self, string: &str) -> StrId {
        let id = StrId(word(self.lengths.len()));
        self.strings.push_str(string);
        self.lengths.push(string.len());
        id
    }

    /// New contents of the layer.
    pub fn contents(&mut self, contents: &[Content]) -> ContentRange {
        let start = word(self.contents.len());
        self.contents.extend_from_slice(contents);
        ContentRange { start, len: word(contents.len()) }
    }

    /// One new content, a new string.
    pub fn plain(&mut self, string: &str) -> ContentRange {
        let id = self.string(string);
        self.contents(&[Content::Plain(id)])
    }

    /// New segments of the layer.
    pub fn segments(&mut self, segments: &[Segment]) -> SegRange {
        let start = word(self.segments.len());
        self.segments.extend_from_slice(segments);
        SegRange { start, len: word(segments.len()) }
    }

    /// The lowest level that a segment with this node may have: one above all levels in the runs
    /// that it names, as far as these are pushed.
    #[must_use]
    pub fn level_above(&self, node: &Node) -> u8 {
        let contents = |range: ContentRange| {
            let contents = run(&self.contents, range.start, range.len);
            contents.iter().map(|content| self.content_level(*content)).max().unwrap_or(0)
        };
        let inner = match *node {
            Node::Ruby { base: a, reading: b } | Node::MarginNote { base: a, note: b } => {
                contents(a).max(contents(b))
            }
            Node::Format { target: range, .. }
            | Node::Heading { text: range }
            | Node::AngleQuote { content: range } => contents(range),
            Node::Illustration(i) => i.caption.map_or(0, |caption| self.content_level(caption)),
            _ => 0,
        };
        inner.saturating_add(1)
    }

    fn content_level(&self, content: Content) -> u8 {
        let Content::Segments(range) = content else { return 0 };
        run(&self.segments, range.start, range.len)
            .iter()
            .map(|segment| segment.level)
            .max()
            .unwrap_or(0)
    }

    /// A segment with a node, of the lowest level that is right.
    #[must_use]
    pub fn node_segment(&self, node: Node) -> Segment {
        Segment { level: self.level_above(&node), item: SegmentItem::Node(node), plain: [0; 2] }
    }

    /// Text that is no node: the same in the normalized text.
    pub fn text(&mut self, text: &str) -> &mut Self {
        self.raw_texts(text, text)
    }

    /// A node that stands for `source`, which goes into the text, and its image into the normalized
    /// text. Its plain words are 0.
    pub fn node(&mut self, source: &str, node: NodeRef) -> &mut Self {
        self.node_with_plain(source, node, [0; 2])
    }

    /// As [`node`](Self::node), with plain words.
    pub fn node_with_plain(&mut self, source: &str, node: NodeRef, plain: Plain) -> &mut Self {
        let start = word(self.text.len());
        let padding = "\n".repeat(node.padding() as usize);
        self.text.push_str(source);
        self.normalized.push_str(&padding);
        let normalized_offset = NormalizedOffset(word(self.normalized.len()));
        self.normalized.push(node.sentinel());
        self.normalized.push_str(&padding);
        let source_span = Span::new(start, word(self.text.len()));
        self.raw_node(SourceNode { source_span, normalized_offset, node, plain })
    }

    /// More of both texts, as it stands.
    pub fn raw_texts(&mut self, text: &str, normalized: &str) -> &mut Self {
        self.text.push_str(text);
        self.normalized.push_str(normalized);
        self
    }

    /// A node with places of your own.
    pub fn raw_node(&mut self, node: SourceNode) -> &mut Self {
        self.nodes.push(node);
        self
    }

    /// A pair.
    pub fn pair(&mut self, pair: PairLink) -> &mut Self {
        self.pairs.push(pair);
        self
    }

    /// A container.
    pub fn container(&mut self, container: ContainerPair) -> &mut Self {
        self.containers.push(container);
        self
    }

    /// A diagnostic; its span may be empty, also at the text's end.
    pub fn diagnostic(&mut self, diagnostic: Diagnostic) -> &mut Self {
        self.diagnostics.push(diagnostic);
        self
    }

    /// How long the text is so far.
    #[must_use]
    pub fn text_len(&self) -> usize {
        self.text.len()
    }

    /// How long the normalized text is so far.
    #[must_use]
    pub fn normalized_len(&self) -> usize {
        self.normalized.len()
    }

    /// The tape and the bytes, unchecked: perhaps no book.
    ///
    /// # Errors
    ///
    /// 3 where the length of a text or string has no place in a word of 32 bits.
    pub fn stored(&self) -> Result<StoredBook, Refusal> {
        let length = |n: usize| u32::try_from(n).map_err(|_| Refusal::OverLimit);
        let mut book = StoredBook::default();
        let StoredBook { tape, bytes } = &mut book;
        put_head(tape, length(self.text.len())?, length(self.normalized.len())?);
        bytes.extend_from_slice(self.text.as_bytes());
        bytes.extend_from_slice(self.normalized.as_bytes());
        bytes.extend_from_slice(self.strings.as_bytes());
        let mut start = Counts::default();
        for end in self.ends.iter().copied().chain([self.counts()]) {
            tape.push(LAYER);
            for len in between(&self.lengths, start.strings, end.strings) {
                StringLength(length(*len)?).write(tape);
            }
            write_all(between(&self.contents, start.contents, end.contents), tape);
            write_all(between(&self.segments, start.segments, end.segments), tape);
            start = end;
        }
        write_all(&self.nodes, tape);
        write_all(&self.pairs, tape);
        write_all(&self.containers, tape);
        write_all(&self.diagnostics, tape);
        tape.push(END);
        Ok(book)
    }

    /// The book, if the proved check accepts it.
    ///
    /// # Errors
    ///
    /// The number that [`check_book`](crate::check_book) gives: 3 to 7, since the builder's types
    /// rule out 1 and 2.
    pub fn build(&self) -> Result<StoredBook, Refusal> {
        let book = self.stored()?;
        calls::check_book(&book)?;
        Ok(book)
    }

    /// The reading, if the proved check accepts it.
    ///
    /// # Errors
    ///
    /// The number that [`check_reading`](crate::check_reading) gives: 1 where there is more than
    /// one layer, or 3 to 7.
    pub fn build_reading(&self) -> Result<StoredBook, Refusal> {
        let reading = self.stored()?;
        calls::check_reading(&reading)?;
        Ok(reading)
    }
}

/// Of a pool, what a range names; nothing where it is not all there.
fn run<T>(pool: &[T], start: u32, len: u32) -> &[T] {
    between(pool, start as usize, (start as usize).saturating_add(len as usize))
}

fn between<T>(items: &[T], start: usize, end: usize) -> &[T] {
    items.get(start..end).unwrap_or_default()
}

fn write_all<R: Record>(records: &[R], tape: &mut Vec<u8>) {
    for record in records {
        record.write(tape);
    }
}
