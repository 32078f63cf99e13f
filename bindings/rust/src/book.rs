//! Reading a book.

use crate::calls;
use crate::lent::Stored;
use crate::record::{END, HEAD, LAYER, Operands, Record, StringLength};
use crate::records::Records;
use crate::refusal::Refusal;
use crate::syntax::{
    ContainerPair, Content, ContentRange, Diagnostic, PairLink, SegRange, Segment, SourceNode,
    Span, StrId,
};
use crate::tree::{Shown, TooLarge, Tree};

/// An accepted book or reading, where it is stored. Nothing of it is copied; only where its layers
/// and strings begin is kept.
///
/// It is made only of what the proved [`check_book`](crate::check_book) or
/// [`check_reading`](crate::check_reading) accepts. The reader itself is not proved. It trusts
/// nothing silently: what it needs is tested again as the book is made, and these are the proved
/// facts by which that never fails:
///
/// - the order and sizes of the records, kinds, tags and unused words: number 1;
/// - both texts and each string are UTF-8: number 2;
/// - ids and ranges of contents, segments and nodes have their string or run: number 4;
/// - nothing is inside itself, and trees are at most 32 segments deep: number 5.
///
/// The checks do not say that a span falls on characters (it may cut one), nor anything of the
/// normalized text beyond its length and UTF-8.
#[derive(Debug, Clone)]
pub struct Book<'a> {
    stored: Stored<'a>,
    text: &'a str,
    normalized: &'a str,
    /// The bytes of all strings.
    strings: &'a str,
    frame: Frame<'a>,
}

/// Where everything stands in a tape, and the lengths of what is in the byte buffer.
#[derive(Debug, Clone)]
struct Frame<'a> {
    text: usize,
    normalized: usize,
    /// Where each string begins among the bytes of all strings, and at last where these end.
    starts: Vec<usize>,
    layers: Vec<LayerRecords<'a>>,
    nodes: Records<'a, SourceNode>,
    pairs: Records<'a, PairLink>,
    containers: Records<'a, ContainerPair>,
    diagnostics: Records<'a, Diagnostic>,
}

#[derive(Debug, Clone)]
struct LayerRecords<'a> {
    /// The numbers of its first string, content and segment.
    first: [usize; 3],
    strings: Records<'a, StringLength>,
    contents: Records<'a, Content>,
    segments: Records<'a, Segment>,
}

/// A layer of a book.
#[derive(Debug, Clone, Copy)]
pub struct Layer<'b, 'a> {
    book: &'b Book<'a>,
    records: &'b LayerRecords<'a>,
}

/// What is left of a tape.
struct Tape<'a>(&'a [u8]);

impl<'a> Tape<'a> {
    fn byte(&mut self, command: u8) -> Option<()> {
        let (&first, rest) = self.0.split_first()?;
        self.0 = rest;
        (first == command).then_some(())
    }

    fn next_is(&self, command: u8) -> bool {
        self.0.first() == Some(&command)
    }

    fn take(&mut self, len: usize) -> Option<&'a [u8]> {
        let (taken, rest) = self.0.split_at_checked(len)?;
        self.0 = rest;
        Some(taken)
    }

    /// All records of this kind that stand here, if each has the shape of section 4.
    fn records<R: Record>(&mut self) -> Option<Records<'a, R>> {
        let count =
            self.0.chunks(R::SIZE).take_while(|record| record.first() == Some(&R::COMMAND)).count();
        let records = Records::new(self.take(count.checked_mul(R::SIZE)?)?);
        records.all_shaped().then_some(records)
    }
}

impl<'a> LayerRecords<'a> {
    fn of(tape: &mut Tape<'a>, first: [usize; 3]) -> Option<Self> {
        tape.byte(LAYER)?;
        Some(Self {
            first,
            strings: tape.records()?,
            contents: tape.records()?,
            segments: tape.records()?,
        })
    }

    /// The numbers of the first string, content and segment behind it.
    fn behind(&self) -> [usize; 3] {
        let [strings, contents, segments] = self.first;
        [
            strings + self.strings.len(),
            contents + self.contents.len(),
            segments + self.segments.len(),
        ]
    }
}

impl<'a> Frame<'a> {
    /// None where the tape breaks the layout (number 1).
    fn of(tape: &'a [u8]) -> Option<Self> {
        let mut tape = Tape(tape);
        tape.byte(HEAD)?;
        let mut head = Operands::from(tape.take(8)?);
        let (text, normalized) = (head.word()? as usize, head.word()? as usize);
        let mut layers = vec![LayerRecords::of(&mut tape, [0; 3])?];
        while tape.next_is(LAYER) {
            let first = layers.last()?.behind();
            layers.push(LayerRecords::of(&mut tape, first)?);
        }
        let starts = starts(&layers)?;
        let (nodes, pairs, containers, diagnostics) =
            (tape.records()?, tape.records()?, tape.records()?, tape.records()?);
        tape.byte(END)?;
        tape.0.is_empty().then_some(Self {
            text,
            normalized,
            starts,
            layers,
            nodes,
            pairs,
            containers,
            diagnostics,
        })
    }
}

/// Where each string begins, and where the last ends.
fn starts(layers: &[LayerRecords<'_>]) -> Option<Vec<usize>> {
    let mut starts = vec![0_usize];
    let mut end = 0_usize;
    for StringLength(len) in layers.iter().flat_map(|layer| layer.strings.clone()) {
        end = end.checked_add(len as usize)?;
        starts.push(end);
    }
    Some(starts)
}

impl<'a> Book<'a> {
    /// A book, if [`check_book`](crate::check_book) accepts it.
    ///
    /// # Errors
    ///
    /// The number that `check_book` gives, 1 to 7.
    pub fn new(book: impl Into<Stored<'a>>) -> Result<Self, Refusal> {
        let book = book.into();
        calls::check_book(book)?;
        Self::walk(book)
    }

    /// A reading, if [`check_reading`](crate::check_reading) accepts it.
    ///
    /// # Errors
    ///
    /// The number that `check_reading` gives, 1 to 7.
    pub fn reading(reading: impl Into<Stored<'a>>) -> Result<Self, Refusal> {
        let reading = reading.into();
        calls::check_reading(reading)?;
        Self::walk(reading)
    }

    /// Of what is accepted. The errors are those of numbers 1 and 2, and do not arise.
    pub(crate) fn walk(stored: Stored<'a>) -> Result<Self, Refusal> {
        let frame = Frame::of(stored.tape).ok_or(Refusal::Layout)?;
        let mut bytes = Tape(stored.bytes);
        let mut text = |len| {
            str::from_utf8(bytes.take(len).ok_or(Refusal::Layout)?).map_err(|_| Refusal::NotUtf8)
        };
        let (sanitized, normalized) = (text(frame.text)?, text(frame.normalized)?);
        let strings = text(frame.starts.last().copied().unwrap_or(0))?;
        if !bytes.0.is_empty() {
            return Err(Refusal::Layout);
        }
        let whole = frame.starts.iter().all(|&start| strings.is_char_boundary(start));
        if whole {
            Ok(Self { stored, text: sanitized, normalized, strings, frame })
        } else {
            Err(Refusal::NotUtf8)
        }
    }

    /// Where it is stored.
    #[must_use]
    pub const fn stored(&self) -> Stored<'a> {
        self.stored
    }

    /// The text.
    #[must_use]
    pub const fn text(&self) -> &'a str {
        self.text
    }

    /// The normalized text.
    #[must_use]
    pub const fn normalized(&self) -> &'a str {
        self.normalized
    }

    /// The layers, the oldest first; there is at least one.
    #[must_use]
    pub fn layers(&self) -> impl ExactSizeIterator<Item = Layer<'_, 'a>> {
        self.frame.layers.iter().map(|records| Layer { book: self, records })
    }

    /// The strings of all layers, in the order of their ids.
    pub fn strings(&self) -> impl Iterator<Item = &'a str> {
        self.strings_between(0, self.string_count())
    }

    fn strings_between(&self, start: usize, end: usize) -> impl Iterator<Item = &'a str> {
        let starts = self.frame.starts.get(start..=end).unwrap_or_default();
        starts.windows(2).map(|pair| match *pair {
            [start, end] => self.strings.get(start..end).unwrap_or_default(),
            _ => "",
        })
    }

    /// The contents of all layers.
    pub fn contents(&self) -> impl Iterator<Item = Content> {
        self.frame.layers.iter().flat_map(|layer| layer.contents.clone())
    }

    /// The segments of all layers.
    pub fn segments(&self) -> impl Iterator<Item = Segment> {
        self.frame.layers.iter().flat_map(|layer| layer.segments.clone())
    }

    /// How many strings there are.
    #[must_use]
    pub fn string_count(&self) -> usize {
        self.frame.starts.len().saturating_sub(1)
    }

    /// How many contents there are.
    #[must_use]
    pub fn content_count(&self) -> usize {
        self.frame.layers.last().map_or(0, |layer| layer.behind()[1])
    }

    /// How many segments there are.
    #[must_use]
    pub fn segment_count(&self) -> usize {
        self.frame.layers.last().map_or(0, |layer| layer.behind()[2])
    }

    /// The nodes, in the order of the text.
    #[must_use]
    pub fn nodes(&self) -> Records<'a, SourceNode> {
        self.frame.nodes.clone()
    }

    /// The node at a place of the list.
    #[must_use]
    pub fn node(&self, place: usize) -> Option<SourceNode> {
        self.frame.nodes.at(place)
    }

    /// The pairs.
    #[must_use]
    pub fn pairs(&self) -> Records<'a, PairLink> {
        self.frame.pairs.clone()
    }

    /// The containers.
    #[must_use]
    pub fn containers(&self) -> Records<'a, ContainerPair> {
        self.frame.containers.clone()
    }

    /// The diagnostics.
    #[must_use]
    pub fn diagnostics(&self) -> Records<'a, Diagnostic> {
        self.frame.diagnostics.clone()
    }

    /// The part of the text that a span names. None where it lies outside of the text or cuts a
    /// character: the checks let a span do that.
    #[must_use]
    pub fn source(&self, span: Span) -> Option<&'a str> {
        self.text.get(span.range())
    }

    /// The bytes of the text that a span names. None where it lies outside of the text.
    #[must_use]
    pub fn source_bytes(&self, span: Span) -> Option<&'a [u8]> {
        self.text.as_bytes().get(span.range())
    }

    /// The node whose span has this offset of the text in it: the last that starts at or before it,
    /// if it ends behind it.
    #[must_use]
    pub fn node_at_source(&self, offset: u32) -> Option<SourceNode> {
        // Nodes are in the order of the text (number 6), so this finds what `node_at_source` of the
        // archive finds.
        let (mut low, mut high) = (0, self.frame.nodes.len());
        while low < high {
            let middle = low.midpoint(high);
            match self.node(middle) {
                Some(node) if node.source_span.start <= offset => low = middle + 1,
                _ => high = middle,
            }
        }
        let node = self.node(low.checked_sub(1)?)?;
        (offset < node.source_span.end).then_some(node)
    }

    /// The string of an id. None where there is no such string; each id in an accepted book has
    /// one.
    #[must_use]
    pub fn resolve_str(&self, id: StrId) -> Option<&'a str> {
        let place = id.0 as usize;
        let end = self.frame.starts.get(place.checked_add(1)?)?;
        self.strings.get(*self.frame.starts.get(place)?..*end)
    }

    /// The contents of a range. None where it lies outside of the pool or across layers; each range
    /// in an accepted book has its contents.
    #[must_use]
    pub fn resolve_content_range(&self, range: ContentRange) -> Option<Records<'a, Content>> {
        self.run(range.start, range.len, 1, |layer| &layer.contents)
    }

    /// The segments of a range. None where it lies outside of the pool or across layers; each range
    /// in an accepted book has its segments.
    #[must_use]
    pub fn resolve_seg_range(&self, range: SegRange) -> Option<Records<'a, Segment>> {
        self.run(range.start, range.len, 2, |layer| &layer.segments)
    }

    /// Section 3: start and length together are at most the pool's count, and a run that is not
    /// empty lies in one layer.
    fn run<R: Record>(
        &self,
        start: u32,
        len: u32,
        pool: usize,
        records: impl for<'r> Fn(&'r LayerRecords<'a>) -> &'r Records<'a, R>,
    ) -> Option<Records<'a, R>> {
        let (start, len) = (start as usize, len as usize);
        let first = |layer: &LayerRecords<'a>| layer.first.get(pool).copied().unwrap_or(0);
        let last = self.frame.layers.last()?;
        if len == 0 {
            return (start <= first(last) + records(last).len()).then(|| Records::new(&[]));
        }
        let place =
            self.frame.layers.partition_point(|layer| first(layer) <= start).checked_sub(1)?;
        let layer = self.frame.layers.get(place)?;
        records(layer).part(start.checked_sub(first(layer))?, len)
    }

    /// The string of a range that is exactly one plain content.
    #[must_use]
    pub fn content_range_as_plain(&self, range: ContentRange) -> Option<&'a str> {
        let mut contents = self.resolve_content_range(range)?;
        match (contents.next(), contents.next()) {
            (Some(Content::Plain(id)), None) => self.resolve_str(id),
            _ => None,
        }
    }

    /// A node with strings in place of ids and lists in place of ranges. None of a block's open or
    /// close, which have no words.
    ///
    /// # Errors
    ///
    /// Where the tree has more than [`MAX_TREE_ITEMS`](crate::MAX_TREE_ITEMS) contents and
    /// segments. A book may name its runs many times over: one of 1.5 kB can stand for 2 to the 33
    /// contents.
    pub fn tree(&self, node: &SourceNode) -> Result<Option<Tree<'a>>, TooLarge> {
        self.tree_within(node, crate::tree::MAX_TREE_ITEMS)
    }

    /// As [`Book::tree`], with a limit of your own.
    ///
    /// # Errors
    ///
    /// Where the tree has more than `limit` contents and segments.
    pub fn tree_within(
        &self,
        node: &SourceNode,
        limit: usize,
    ) -> Result<Option<Tree<'a>>, TooLarge> {
        Shown::new(self, limit).node_ref(node)
    }

    /// Are the two books equal as section 7 says: both texts byte for byte; nodes, pairs,
    /// containers and diagnostics as lists, with strings in place of ids and lists in place of
    /// ranges?
    ///
    /// # Errors
    ///
    /// Where the trees of all nodes of one of the books have more than `limit` contents and
    /// segments.
    pub fn shows_the_same(&self, other: &Book<'_>, limit: usize) -> Result<bool, TooLarge> {
        let lists = (self.text, self.normalized, self.frame.nodes.len())
            == (other.text, other.normalized, other.frame.nodes.len())
            && self.pairs().eq(other.pairs())
            && self.containers().eq(other.containers())
            && self.diagnostics().eq(other.diagnostics());
        if !lists {
            return Ok(false);
        }
        let (mut ours, mut theirs) = (Shown::new(self, limit), Shown::new(other, limit));
        for (a, b) in self.nodes().zip(other.nodes()) {
            let places = |n: &SourceNode| {
                (n.source_span, n.normalized_offset, n.node.class(), n.node.inline(), n.plain)
            };
            if places(&a) != places(&b) || ours.node_ref(&a)? != theirs.node_ref(&b)? {
                return Ok(false);
            }
        }
        Ok(true)
    }
}

impl<'a> From<&Book<'a>> for Stored<'a> {
    fn from(book: &Book<'a>) -> Self {
        book.stored()
    }
}

impl<'a> Layer<'_, 'a> {
    /// Its strings.
    pub fn strings(&self) -> impl Iterator<Item = &'a str> {
        let [first, ..] = self.records.first;
        self.book.strings_between(first, first + self.records.strings.len())
    }

    /// Its contents.
    #[must_use]
    pub fn contents(&self) -> Records<'a, Content> {
        self.records.contents.clone()
    }

    /// Its segments.
    #[must_use]
    pub fn segments(&self) -> Records<'a, Segment> {
        self.records.segments.clone()
    }
}
