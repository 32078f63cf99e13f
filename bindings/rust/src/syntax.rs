//! What a book holds, as values: the kinds, tags and fields of document 01, section 4, under the
//! names of the Rust.
//!
//! [`Node`], [`Content`] and [`Segment`] have the kind of their references as parameters. As
//! stored, a reference is a [`StrId`], a [`ContentRange`] or a [`SegRange`]; in a
//! [`Tree`](crate::Tree) it is the string or the list itself.

use std::fmt;

/// The bytes of the longest text and of the longest normalized text.
pub const MAX_TEXT: usize = 16_777_215;
/// How many strings, contents or segments a book may have, all layers together.
pub const MAX_POOL: usize = 1_048_575;
/// How many nodes, pairs, containers or diagnostics a book may have.
pub const MAX_LIST: usize = 262_143;
/// How many layers a book may have. [`flatten_book`](crate::flatten_book) gives it one.
pub const MAX_LAYERS: usize = 32;
/// The highest level of a segment.
pub const MAX_LEVEL: u8 = 32;
/// How many strings the new layer of a merged book may have, and the layer of a flat one.
pub const MAX_NEW_STRINGS: usize = 3583;
/// How many work words a merge or a flattening has to be lent. More are welcome: with two words for
/// each node of a book of more than 30,000, numbers 10 and 15 are faster; with one more for each
/// string, a flattening is.
pub const WORK_WORDS: usize = 16384;
/// How a missing id is written.
pub const NO_STRING: u32 = 0xFFFF_FFFF;
/// The bytes of a node's image without its padding.
pub const NORMALIZED_SENTINEL_BYTE_LEN: u32 = 3;

/// A part of the text, in bytes. In a reading it counts from the start of the region.
#[derive(Debug, Clone, Copy, PartialEq, Eq, PartialOrd, Ord, Hash, Default)]
pub struct Span {
    /// The first byte.
    pub start: u32,
    /// The byte behind the last.
    pub end: u32,
}

impl Span {
    /// From `start` up to `end`.
    #[must_use]
    pub const fn new(start: u32, end: u32) -> Self {
        Self { start, end }
    }

    /// How many bytes it has; 0 where the end lies before the start.
    #[must_use]
    pub const fn len(self) -> u32 {
        self.end.saturating_sub(self.start)
    }

    /// Has it no bytes?
    #[must_use]
    pub const fn is_empty(self) -> bool {
        self.end <= self.start
    }

    /// The same as a range of a byte buffer.
    #[must_use]
    pub const fn range(self) -> std::ops::Range<usize> {
        self.start as usize..self.end as usize
    }
}

impl fmt::Display for Span {
    fn fmt(&self, f: &mut fmt::Formatter<'_>) -> fmt::Result {
        write!(f, "{}..{}", self.start, self.end)
    }
}

/// A place in the normalized text, in bytes. It never stands in for a place in the text.
#[derive(Debug, Clone, Copy, PartialEq, Eq, PartialOrd, Ord, Hash, Default)]
pub struct NormalizedOffset(
    /// The offset.
    pub u32,
);

/// The number of a string, counted from 0 through all layers.
#[derive(Debug, Clone, Copy, PartialEq, Eq, PartialOrd, Ord, Hash)]
pub struct StrId(
    /// The number.
    pub u32,
);

/// A run of contents of one layer; contents are counted from 0 through all layers.
#[derive(Debug, Clone, Copy, PartialEq, Eq, Hash, Default)]
pub struct ContentRange {
    /// The number of the first content.
    pub start: u32,
    /// How many they are.
    pub len: u32,
}

/// A run of segments of one layer; segments are counted from 0 through all layers.
#[derive(Debug, Clone, Copy, PartialEq, Eq, Hash, Default)]
pub struct SegRange {
    /// The number of the first segment.
    pub start: u32,
    /// How many they are.
    pub len: u32,
}

/// Two words that a body carries for the parser and that nothing here reads: they are copied.
pub type Plain = [u32; 2];

/// An enum whose variants are written as numbers, 0 first, in the order in which the Rust has them.
macro_rules! numbered {
    ($(#[$doc:meta])* $name:ident { $($(#[$item:meta])* $variant:ident),+ $(,)? }) => {
        $(#[$doc])*
        #[derive(Debug, Clone, Copy, PartialEq, Eq, PartialOrd, Ord, Hash)]
        #[repr(u8)]
        pub enum $name { $($(#[$item])* $variant),+ }

        impl $name {
            /// All of them, in the order of their numbers.
            pub const ALL: &'static [Self] = &[$(Self::$variant),+];

            /// The number that stands on the tape.
            #[must_use]
            pub const fn number(self) -> u8 {
                self as u8
            }

            /// The one with this number.
            #[must_use]
            pub fn from_number(number: u8) -> Option<Self> {
                Self::ALL.get(usize::from(number)).copied()
            }
        }
    };
}

numbered! {
    /// The kind of a node: the number of a body on the tape is one more than its place here, since
    /// 0 is text.
    NodeKind {
        /// A base with its reading.
        Ruby,
        /// A forward format: a mark on text that stands before it or in it.
        Format,
        /// A character outside of the character set.
        Gaiji,
        /// The format of a line.
        Line,
        /// A page break.
        PageBreak,
        /// A section break.
        SectionBreak,
        /// The end of the body.
        BodyEnd,
        /// A forced line break.
        ForcedBreak,
        /// A heading.
        Heading,
        /// A mark that text is a heading.
        HeadingHint,
        /// A picture.
        Illustration,
        /// A mark for reading Chinese.
        Kaeriten,
        /// An annotation.
        Directive,
        /// A quotation in double angle brackets.
        AngleQuote,
        /// A note in the margin.
        MarginNote,
    }
}

numbered! {
    /// Where the target of a forward format comes from. What each means is the parser's affair; the
    /// merge asks only for `Referenced` (numbers 10 and 15).
    ForwardOrigin {
        /// The format takes text back that stands before its bracket.
        Reclaimed,
        /// The format refers to text that stands before it and leaves it there.
        Referenced,
        /// `SelfContained` of the Rust.
        SelfContained,
        /// `Detached` of the Rust.
        Detached,
    }
}

numbered! {
    /// What an annotation is. What each means is the parser's affair; the cuts and the merge ask
    /// only for the two of warichu (section 6, number 13).
    DirectiveKind {
        /// `NonCanonical` of the Rust.
        NonCanonical,
        /// `Editorial` of the Rust.
        Editorial,
        /// `Sic` of the Rust.
        Sic,
        /// `BaseTextVariant` of the Rust.
        BaseTextVariant,
        /// Opens a warichu.
        WarichuOpen,
        /// Closes a warichu.
        WarichuClose,
        /// `Empty` of the Rust.
        Empty,
        /// `EditorNote` of the Rust.
        EditorNote,
        /// `RubyAttached` of the Rust.
        RubyAttached,
        /// `RubyRetarget` of the Rust.
        RubyRetarget,
        /// `RubyPairOpen` of the Rust.
        RubyPairOpen,
        /// `RubyPairClose` of the Rust.
        RubyPairClose,
        /// `MarginNotePairOpen` of the Rust.
        MarginNotePairOpen,
        /// `MarginNotePairClose` of the Rust.
        MarginNotePairClose,
    }
}

numbered! {
    /// A family of delimiters.
    PairKind {
        /// `［ … ］`
        Bracket,
        /// `《 … 》`
        Ruby,
        /// `≪ … ≫`
        AngleQuote,
        /// `〔 … 〕`
        Tortoise,
        /// `「 … 」`
        Quote,
    }
}

numbered! {
    /// What a diagnostic is about.
    DiagnosticKind {
        /// A character that could not be resolved.
        UnresolvedGaiji,
        /// An annotation that is not in a form that is known.
        NonCanonicalDirective,
        /// An opening bracket without its close.
        UnclosedBracket,
        /// A close without its opening bracket.
        UnmatchedClose,
        /// Anything else.
        Other,
    }
}

/// What a forward format has beside its target.
#[derive(Debug, Clone, Copy, PartialEq, Eq, Hash)]
pub enum ForwardPayload<S = StrId> {
    /// Nothing.
    None,
    /// `NestedSource` of the Rust, without a string.
    NestedSource,
    /// `AccentBody` of the Rust, with its string.
    AccentBody(S),
    /// `QuotedTarget` of the Rust, with its string.
    QuotedTarget(S),
}

/// What a character outside of the character set is known by.
#[derive(Debug, Clone, Copy, PartialEq, Eq, Hash)]
pub enum GaijiCanonical<S = StrId> {
    /// Plane, row and cell, in the plain words.
    MenKuTen,
    /// A code point, in the plain words.
    Unicode,
    /// Neither; perhaps with its men-ku-ten code as it is written.
    Unresolved {
        /// That code.
        mencode: Option<S>,
    },
}

/// A piece of content: one string, or a run of segments.
#[derive(Debug, Clone, Copy, PartialEq, Eq, Hash)]
pub enum Content<S = StrId, G = SegRange> {
    /// One string.
    Plain(S),
    /// A run of segments.
    Segments(G),
}

/// A character outside of the character set.
#[derive(Debug, Clone, Copy, PartialEq, Eq, Hash)]
pub struct Gaiji<S = StrId> {
    /// How it is described.
    pub hint: S,
    /// What it is known by.
    pub canonical: GaijiCanonical<S>,
}

/// An annotation.
#[derive(Debug, Clone, Copy, PartialEq, Eq, Hash)]
pub struct Directive<S = StrId> {
    /// As it is written.
    pub raw: S,
    /// What it is.
    pub kind: DirectiveKind,
}

/// A picture.
#[derive(Debug, Clone, Copy, PartialEq, Eq, Hash)]
pub struct Illustration<S = StrId, G = SegRange> {
    /// Its file.
    pub file: S,
    /// Its number.
    pub number: Option<S>,
    /// Its width and height.
    pub dimensions: Option<S>,
    /// Its caption.
    pub caption: Option<Content<S, G>>,
    /// What it shows.
    pub description: Option<S>,
}

/// What stands in a text at a node; `S`, `C` and `G` are what it has for a string, for a run of
/// contents and for a run of segments.
#[derive(Debug, Clone, Copy, PartialEq, Eq, Hash)]
pub enum Node<S = StrId, C = ContentRange, G = SegRange> {
    /// A base with its reading.
    Ruby {
        /// The base.
        base: C,
        /// How it is read.
        reading: C,
    },
    /// A forward format.
    Format {
        /// What it marks.
        target: C,
        /// Where that stands.
        origin: ForwardOrigin,
        /// What else it has.
        payload: ForwardPayload<S>,
    },
    /// A character outside of the character set.
    Gaiji(Gaiji<S>),
    /// The format of a line.
    Line,
    /// A page break.
    PageBreak,
    /// A section break.
    SectionBreak,
    /// The end of the body.
    BodyEnd,
    /// A forced line break.
    ForcedBreak,
    /// A heading.
    Heading {
        /// Its text.
        text: C,
    },
    /// A mark that text is a heading.
    HeadingHint {
        /// That text.
        target: S,
    },
    /// A picture.
    Illustration(Illustration<S, G>),
    /// A mark for reading Chinese.
    Kaeriten {
        /// The mark.
        mark: S,
    },
    /// An annotation.
    Directive(Directive<S>),
    /// A quotation in double angle brackets.
    AngleQuote {
        /// What is quoted.
        content: C,
    },
    /// A note in the margin.
    MarginNote {
        /// What it is about.
        base: C,
        /// The note.
        note: C,
    },
}

impl<S, C, G> Node<S, C, G> {
    /// Its kind.
    #[must_use]
    pub const fn kind(&self) -> NodeKind {
        match self {
            Self::Ruby { .. } => NodeKind::Ruby,
            Self::Format { .. } => NodeKind::Format,
            Self::Gaiji(_) => NodeKind::Gaiji,
            Self::Line => NodeKind::Line,
            Self::PageBreak => NodeKind::PageBreak,
            Self::SectionBreak => NodeKind::SectionBreak,
            Self::BodyEnd => NodeKind::BodyEnd,
            Self::ForcedBreak => NodeKind::ForcedBreak,
            Self::Heading { .. } => NodeKind::Heading,
            Self::HeadingHint { .. } => NodeKind::HeadingHint,
            Self::Illustration(_) => NodeKind::Illustration,
            Self::Kaeriten { .. } => NodeKind::Kaeriten,
            Self::Directive(_) => NodeKind::Directive,
            Self::AngleQuote { .. } => NodeKind::AngleQuote,
            Self::MarginNote { .. } => NodeKind::MarginNote,
        }
    }
}

/// What a segment carries.
#[derive(Debug, Clone, Copy, PartialEq, Eq, Hash)]
pub enum SegmentItem<S = StrId, C = ContentRange, G = SegRange> {
    /// A text.
    Text(S),
    /// A character outside of the character set.
    Gaiji(Gaiji<S>),
    /// An annotation.
    Directive(Directive<S>),
    /// A node, whose runs have segments of lower levels only.
    Node(Node<S, C, G>),
}

/// A segment of a content or of a caption.
#[derive(Debug, Clone, Copy, PartialEq, Eq, Hash)]
pub struct Segment<S = StrId, C = ContentRange, G = SegRange> {
    /// 0, or for a node 1 to [`MAX_LEVEL`] and above all levels in the runs that it names.
    pub level: u8,
    /// What it carries.
    pub item: SegmentItem<S, C, G>,
    /// Copied, never read.
    pub plain: Plain,
}

impl Segment {
    /// A segment of level 0 with plain words 0: all but a node. A node has [`Segment::node`].
    #[must_use]
    pub const fn new(item: SegmentItem) -> Self {
        Self { level: 0, item, plain: [0; 2] }
    }

    /// A text.
    #[must_use]
    pub const fn text(id: StrId) -> Self {
        Self::new(SegmentItem::Text(id))
    }

    /// A node of a level; [`BookBuilder::level_above`](crate::BookBuilder::level_above) gives the
    /// lowest that is right.
    #[must_use]
    pub const fn node(level: u8, node: Node) -> Self {
        Self { level, item: SegmentItem::Node(node), plain: [0; 2] }
    }

    /// The same with these plain words.
    #[must_use]
    pub const fn with_plain(self, plain: Plain) -> Self {
        Self { plain, ..self }
    }
}

/// A node of the list, by its class.
#[derive(Debug, Clone, Copy, PartialEq, Eq, Hash)]
pub enum NodeRef<N = Node> {
    /// Stands in a line.
    Inline(N),
    /// Stands by itself.
    BlockLeaf(N),
    /// Opens a block.
    BlockOpen {
        /// The exporter's value of `is_inline`: the block opens in a line, and its image has no
        /// padding.
        inline: bool,
    },
    /// Closes a block.
    BlockClose {
        /// The exporter's value of `is_inline`.
        inline: bool,
    },
}

impl<N> NodeRef<N> {
    /// The number of its class on the tape.
    #[must_use]
    pub const fn class(&self) -> u8 {
        match self {
            Self::Inline(_) => 0,
            Self::BlockLeaf(_) => 1,
            Self::BlockOpen { .. } => 2,
            Self::BlockClose { .. } => 3,
        }
    }

    /// `is_inline` of a block; false of the two other classes.
    #[must_use]
    pub const fn inline(&self) -> bool {
        match self {
            Self::Inline(_) | Self::BlockLeaf(_) => false,
            Self::BlockOpen { inline } | Self::BlockClose { inline } => *inline,
        }
    }

    /// The node, if it is none that opens or closes a block.
    pub const fn node(&self) -> Option<&N> {
        match self {
            Self::Inline(node) | Self::BlockLeaf(node) => Some(node),
            Self::BlockOpen { .. } | Self::BlockClose { .. } => None,
        }
    }

    /// How many bytes stand before and behind the sentinel in its image: 2 or 0.
    #[must_use]
    pub const fn padding(&self) -> u32 {
        match self {
            Self::BlockLeaf(_)
            | Self::BlockOpen { inline: false }
            | Self::BlockClose { inline: false } => 2,
            _ => 0,
        }
    }

    /// How many bytes its image has in the normalized text: 3, or 7 with padding.
    #[must_use]
    pub const fn image_len(&self) -> u32 {
        NORMALIZED_SENTINEL_BYTE_LEN + 2 * self.padding()
    }

    /// The character that a [`BookBuilder`](crate::BookBuilder) writes for it into the normalized
    /// text. Nothing reads it again: of the normalized text only the length and UTF-8 are checked.
    #[must_use]
    pub const fn sentinel(&self) -> char {
        match self {
            Self::Inline(_) => '\u{E001}',
            Self::BlockLeaf(_) => '\u{E002}',
            Self::BlockOpen { .. } => '\u{E003}',
            Self::BlockClose { .. } => '\u{E004}',
        }
    }
}

/// A node of the list with its places.
#[derive(Debug, Clone, Copy, PartialEq, Eq, Hash)]
pub struct SourceNode<N = Node> {
    /// Its part of the text.
    pub source_span: Span,
    /// A place in its image.
    pub normalized_offset: NormalizedOffset,
    /// The node.
    pub node: NodeRef<N>,
    /// Copied, never read.
    pub plain: Plain,
}

/// Two delimiters that belong together.
#[derive(Debug, Clone, Copy, PartialEq, Eq, Hash)]
pub struct PairLink {
    /// Which family.
    pub kind: PairKind,
    /// The opening delimiter.
    pub open: Span,
    /// The closing delimiter.
    pub close: Span,
}

/// A block from its open to its close, in normalized offsets.
#[derive(Debug, Clone, Copy, PartialEq, Eq, Hash)]
pub struct ContainerPair {
    /// Copied, never read.
    pub plain: u32,
    /// Where it opens.
    pub open: NormalizedOffset,
    /// Where it closes.
    pub close: NormalizedOffset,
}

/// A diagnostic. Its span may be empty: a mark of no width between two characters, or at an end of
/// the text (document 02, wish 5).
///
/// In a merge a mark of the old book that lies at the region's start or before stays where it is.
/// If it does not, it is moved with the text if it lies at the region's end or behind, and else
/// dropped. So a mark at an end of the region stays, and a reading that has it too puts a second
/// one there; one at 0 or at the text's end is never dropped.
///
/// Text that is added at the end of a text that ends in a newline has an empty region. Nothing tells
/// on which side of it a mark there belongs, so the merge is refused with 14. With that newline in
/// the edit the region is another, the reading is of the whole last passage, and the mark stays at
/// the text's end. Where that is refused with 11, the whole text has to be parsed.
///
/// ```
/// use aozora_incremental::{
///     Book, BookBuilder, Diagnostic, DiagnosticKind, Edit, Refusal, Span, merge,
/// };
///
/// let (kind, span) = (DiagnosticKind::Other, Span::new(7, 7));
/// let mark = Diagnostic { kind, code_rank: 0, span, plain: 0 };
/// let old = BookBuilder::new().text("aa\n\nbb\n").diagnostic(mark).build()?;
///
/// let reading = BookBuilder::new().text("cc").build_reading()?;
/// assert_eq!(merge(&old, Edit::new(7, 7, "cc"), &reading), Err(Refusal::Unclosed));
///
/// let reading = BookBuilder::new().text("bb\ncc").build_reading()?;
/// let merged = merge(&old, Edit::new(6, 7, "\ncc"), &reading)?;
/// let book = Book::new(&merged.book)?;
/// assert_eq!(book.text(), "aa\n\nbb\ncc");
/// assert_eq!(book.diagnostics().next().map(|d| d.span), Some(Span::new(9, 9)));
/// # Ok::<(), Refusal>(())
/// ```
#[derive(Debug, Clone, Copy, PartialEq, Eq, Hash)]
pub struct Diagnostic {
    /// What it is about.
    pub kind: DiagnosticKind,
    /// The place of its code among all codes in byte order.
    pub code_rank: u32,
    /// Its part of the text, perhaps empty.
    pub span: Span,
    /// Copied, never read.
    pub plain: u32,
}
