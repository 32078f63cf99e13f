//! How long the result buffers of a merge and a flattening have to be. Not proved, and nothing
//! rests on it but memory: where it said too little, the call would be refused with 18.

use crate::book::Book;
use crate::lent::{Edit, Stored};
use crate::stored::{Estimate, Lengths};
use crate::syntax::{
    Content, ContentRange, ForwardPayload, GaijiCanonical, MAX_LEVEL, MAX_NEW_STRINGS, MAX_POOL,
    Node, SegRange, Segment, SegmentItem, StrId,
};

/// A longer string goes past the interner's table, and is stored again each time.
const INTERN_LENGTH_LIMIT: usize = 64;

/// Enough where the reading names none of its items twice: then each of them is stored once, behind
/// the old ones.
pub(crate) fn first(book: Lengths, edit: Edit<'_>, reading: Stored<'_>) -> Lengths {
    Lengths {
        tape: book.tape.saturating_add(reading.tape.len()),
        bytes: book
            .bytes
            .saturating_add(reading.bytes.len())
            .saturating_add(edit.replacement.len()),
    }
}

/// What is certainly enough, of a book and a reading that are accepted. None where the result
/// passes a limit, so that no room is enough.
pub(crate) fn enough(book: Stored<'_>, edit: Edit<'_>, reading: Stored<'_>) -> Option<Lengths> {
    let old = Book::walk(book).ok()?;
    let new = Book::walk(reading).ok()?;
    let grafted = Costs::of(&new).nodes(&new);
    let pushed = |count: u64, old: usize| {
        usize::try_from(count).ok().filter(|n| n.saturating_add(old) <= MAX_POOL)
    };
    let contents = pushed(grafted.contents, old.content_count())?;
    let segments = pushed(grafted.segments, old.segment_count())?;
    let least = first(Lengths { tape: book.tape.len(), bytes: book.bytes.len() }, edit, reading);
    let longest = new.strings().map(str::len).max().unwrap_or(0);
    let long = usize::try_from(grafted.long_bytes)
        .unwrap_or(usize::MAX)
        .min(MAX_NEW_STRINGS.saturating_mul(longest));
    Some(Lengths {
        tape: least.tape.saturating_add(1 + 5 * MAX_NEW_STRINGS + 10 * contents + 37 * segments),
        bytes: least.bytes.saturating_add(long),
    })
}

/// What is certainly enough for the flat book, of a book that is accepted. None where it passes a
/// limit, so that no room is enough.
pub(crate) fn flat(book: Stored<'_>) -> Option<Lengths> {
    let old = Book::walk(book).ok()?;
    let Cost { contents, segments, long_bytes } = Costs::of(&old).nodes(&old);
    let pushed = |count: u64| usize::try_from(count).ok().filter(|&n| n <= MAX_POOL);
    let layer = 1 + 5 * MAX_NEW_STRINGS + 10 * pushed(contents)? + 37 * pushed(segments)?;
    let longest = old.strings().map(str::len).max().unwrap_or(0);
    let short: usize = old.strings().map(str::len).filter(|&len| len <= INTERN_LENGTH_LIMIT).sum();
    let long = usize::try_from(long_bytes)
        .unwrap_or(usize::MAX)
        .min(MAX_NEW_STRINGS.saturating_mul(longest));
    Some(Lengths {
        tape: 10 + layer + list_bytes(&old),
        bytes: (old.text().len() + old.normalized().len() + short).saturating_add(long),
    })
}

/// The tape's nodes, pairs, containers and diagnostics.
fn list_bytes(book: &Book<'_>) -> usize {
    49 * book.nodes().len()
        + 18 * book.pairs().len()
        + 13 * book.containers().len()
        + 18 * book.diagnostics().len()
}

/// What is certainly enough, by the counts of an estimate. A tape that cannot be walked was refused.
pub(crate) fn priced(price: &Estimate, book: Stored<'_>, reading: Stored<'_>) -> Lengths {
    let Ok(new) = Book::walk(reading) else { return Lengths::default() };
    // Document 01, number 18: the result passes no limit, so more than a limit is never written.
    let at_most = |count: u32, most: usize| (count as usize).min(most);
    let strings = at_most(price.calls, MAX_NEW_STRINGS);
    let layer = if price.reread == 0 {
        0
    } else {
        1 + 5 * strings
            + 10 * at_most(price.contents, MAX_POOL)
            + 37 * at_most(price.segments, MAX_POOL)
    };
    let is_long = |string: &&str| string.len() > INTERN_LENGTH_LIMIT;
    let short: usize = new.strings().filter(|s| !is_long(s)).map(str::len).sum();
    let longest = new.strings().filter(is_long).map(str::len).max().unwrap_or(0);
    let long = match longest {
        0 => 0,
        _ => usize::try_from(Costs::of(&new).nodes(&new).long_bytes).unwrap_or(usize::MAX),
    };
    let new_strings = if price.reread == 0 {
        0
    } else {
        let short = short.min(strings.saturating_mul(INTERN_LENGTH_LIMIT));
        short.saturating_add(long.min(strings.saturating_mul(longest)))
    };
    Lengths {
        tape: book.tape.len().saturating_add(layer + list_bytes(&new)),
        bytes: price.byte_length.saturating_add(new_strings),
    }
}

/// What grafting stores.
#[derive(Clone, Copy, Default)]
struct Cost {
    contents: u64,
    segments: u64,
    long_bytes: u64,
}

/// More than any limit, and so much below the end of `u64` that a sum over a pool of [`MAX_POOL`]
/// items has room.
const MOST: u64 = 1 << 40;

impl Cost {
    fn plus(self, other: Self) -> Self {
        Self {
            contents: self.contents.saturating_add(other.contents),
            segments: self.segments.saturating_add(other.segments),
            long_bytes: self.long_bytes.saturating_add(other.long_bytes),
        }
    }

    /// Of sums up to two places.
    fn minus(self, other: Self) -> Self {
        Self {
            contents: self.contents.saturating_sub(other.contents),
            segments: self.segments.saturating_sub(other.segments),
            long_bytes: self.long_bytes.saturating_sub(other.long_bytes),
        }
    }

    fn at_most(self, most: u64) -> Self {
        Self {
            contents: self.contents.min(most),
            segments: self.segments.min(most),
            long_bytes: self.long_bytes.min(most),
        }
    }
}

/// The costs of the items of a reading, or of a book that is flattened, as sums up to each place,
/// so that a run costs two lookups.
struct Costs {
    contents: Vec<Cost>,
    segments: Vec<Cost>,
}

impl Costs {
    /// Level by level: a segment names segments of lower levels only (number 5).
    fn of(reading: &Book<'_>) -> Self {
        let mut costs = Self { contents: Vec::new(), segments: Vec::new() };
        for level in 0..=MAX_LEVEL {
            let segments = sums(reading.segments().map(|s| {
                if s.level <= level { costs.segment(reading, &s) } else { Cost::default() }
            }));
            costs.segments = segments;
            costs.contents = sums(reading.contents().map(|c| costs.content(reading, c)));
        }
        costs
    }

    fn nodes(&self, reading: &Book<'_>) -> Cost {
        let nodes = reading.nodes().filter_map(|n| n.node.node().copied());
        nodes.fold(Cost::default(), |sum, node| sum.plus(self.node(reading, &node)))
    }

    fn string(reading: &Book<'_>, id: StrId) -> Cost {
        let len = reading.resolve_str(id).map_or(0, str::len);
        let long_bytes = if len > INTERN_LENGTH_LIMIT { len as u64 } else { 0 };
        Cost { long_bytes, ..Cost::default() }
    }

    fn contents(&self, range: ContentRange) -> Cost {
        let inner = between(&self.contents, range.start, range.len);
        inner.plus(Cost { contents: u64::from(range.len), ..Cost::default() })
    }

    fn segments(&self, range: SegRange) -> Cost {
        let inner = between(&self.segments, range.start, range.len);
        inner.plus(Cost { segments: u64::from(range.len), ..Cost::default() })
    }

    fn content(&self, reading: &Book<'_>, content: Content) -> Cost {
        match content {
            Content::Plain(id) => Self::string(reading, id),
            Content::Segments(range) => self.segments(range),
        }
    }

    fn segment(&self, reading: &Book<'_>, segment: &Segment) -> Cost {
        match segment.item {
            SegmentItem::Text(id) => Self::string(reading, id),
            SegmentItem::Gaiji(gaiji) => self.node(reading, &Node::Gaiji(gaiji)),
            SegmentItem::Directive(directive) => self.node(reading, &Node::Directive(directive)),
            SegmentItem::Node(node) => self.node(reading, &node),
        }
    }

    fn node(&self, reading: &Book<'_>, node: &Node) -> Cost {
        let string = |id| Self::string(reading, id);
        let optional = |id: Option<StrId>| id.map(string).unwrap_or_default();
        match *node {
            Node::Ruby { base: a, reading: b } | Node::MarginNote { base: a, note: b } => {
                self.contents(a).plus(self.contents(b))
            }
            Node::Format { target, payload, .. } => self.contents(target).plus(match payload {
                ForwardPayload::AccentBody(id) | ForwardPayload::QuotedTarget(id) => string(id),
                ForwardPayload::None | ForwardPayload::NestedSource => Cost::default(),
            }),
            Node::Gaiji(gaiji) => string(gaiji.hint).plus(match gaiji.canonical {
                GaijiCanonical::Unresolved { mencode } => optional(mencode),
                GaijiCanonical::MenKuTen | GaijiCanonical::Unicode => Cost::default(),
            }),
            Node::Line
            | Node::PageBreak
            | Node::SectionBreak
            | Node::BodyEnd
            | Node::ForcedBreak => Cost::default(),
            Node::Heading { text: range } | Node::AngleQuote { content: range } => {
                self.contents(range)
            }
            Node::HeadingHint { target: id } | Node::Kaeriten { mark: id } => string(id),
            Node::Illustration(i) => {
                let caption = i.caption.map(|c| self.content(reading, c)).unwrap_or_default();
                let strings = [i.number, i.dimensions, i.description].map(optional);
                strings.into_iter().fold(string(i.file).plus(caption), Cost::plus)
            }
            Node::Directive(directive) => string(directive.raw),
        }
    }
}

/// The sums of none, one, two and more.
fn sums(costs: impl Iterator<Item = Cost>) -> Vec<Cost> {
    let mut out = vec![Cost::default()];
    out.extend(costs.scan(Cost::default(), |sum, cost| {
        *sum = sum.plus(cost.at_most(MOST));
        Some(*sum)
    }));
    out
}

fn between(sums: &[Cost], start: u32, len: u32) -> Cost {
    let up_to = |place: usize| sums.get(place).copied().unwrap_or_default();
    let start = start as usize;
    up_to(start.saturating_add(len as usize)).minus(up_to(start))
}
