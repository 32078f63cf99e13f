//! Nodes with strings in place of ids and lists in place of ranges.

use std::error::Error;
use std::fmt;

use crate::book::Book;
use crate::syntax::{
    Content, ContentRange, Directive, ForwardPayload, Gaiji, GaijiCanonical, Illustration, Node,
    NodeRef, Plain, SegRange, Segment, SegmentItem, SourceNode, StrId,
};

/// How many contents and segments [`Book::tree`] shows at most. [`Book::tree_within`] takes another
/// limit.
pub const MAX_TREE_ITEMS: usize = 65_536;

/// A tree that has more contents and segments than the limit.
#[derive(Debug, Clone, Copy, PartialEq, Eq, Hash)]
pub struct TooLarge {
    /// The limit.
    pub limit: usize,
}

impl fmt::Display for TooLarge {
    fn fmt(&self, f: &mut fmt::Formatter<'_>) -> fmt::Result {
        write!(f, "the tree has more than {} contents and segments", self.limit)
    }
}

impl Error for TooLarge {}

/// A content of a tree: a string, or a list of segments.
pub type TreeContent<'a> = Content<&'a str, Vec<TreeSegment<'a>>>;

/// A node of a tree: strings in place of ids, lists in place of ranges.
pub type TreeNode<'a> = Node<&'a str, Vec<TreeContent<'a>>, Vec<TreeSegment<'a>>>;

/// What a segment of a tree carries.
pub type TreeItem<'a> = SegmentItem<&'a str, Vec<TreeContent<'a>>, Vec<TreeSegment<'a>>>;

/// A segment of a tree.
#[derive(Debug, Clone, PartialEq, Eq, Hash)]
pub struct TreeSegment<'a> {
    /// Its level.
    pub level: u8,
    /// What it carries.
    pub item: TreeItem<'a>,
    /// Copied, never read.
    pub plain: Plain,
}

/// A node as it is shown, with its plain words.
#[derive(Debug, Clone, PartialEq, Eq, Hash)]
pub struct Tree<'a> {
    /// The node.
    pub node: TreeNode<'a>,
    /// Copied, never read.
    pub plain: Plain,
}

/// Shows nodes of a book, up to a number of contents and segments.
pub(crate) struct Shown<'b, 'a> {
    book: &'b Book<'a>,
    limit: usize,
    left: usize,
}

impl<'b, 'a> Shown<'b, 'a> {
    pub(crate) fn new(book: &'b Book<'a>, limit: usize) -> Self {
        Self { book, limit, left: limit }
    }

    pub(crate) fn node_ref(&mut self, node: &SourceNode) -> Result<Option<Tree<'a>>, TooLarge> {
        match &node.node {
            NodeRef::Inline(inner) | NodeRef::BlockLeaf(inner) => {
                Ok(Some(Tree { node: self.node(inner)?, plain: node.plain }))
            }
            NodeRef::BlockOpen { .. } | NodeRef::BlockClose { .. } => Ok(None),
        }
    }

    fn spend(&mut self, items: usize) -> Result<(), TooLarge> {
        self.left = self.left.checked_sub(items).ok_or(TooLarge { limit: self.limit })?;
        Ok(())
    }

    /// Number 4: the id has a string.
    fn string(&self, id: StrId) -> &'a str {
        self.book.resolve_str(id).unwrap_or_default()
    }

    /// Number 4: the range has its contents.
    fn contents(&mut self, range: ContentRange) -> Result<Vec<TreeContent<'a>>, TooLarge> {
        let Some(contents) = self.book.resolve_content_range(range) else { return Ok(Vec::new()) };
        self.spend(contents.len())?;
        contents.map(|content| self.content(content)).collect()
    }

    /// Number 4: the range has its segments. Number 5: their nodes name segments of lower levels,
    /// so this ends.
    fn segments(&mut self, range: SegRange) -> Result<Vec<TreeSegment<'a>>, TooLarge> {
        let Some(segments) = self.book.resolve_seg_range(range) else { return Ok(Vec::new()) };
        self.spend(segments.len())?;
        segments.map(|segment| self.segment(&segment)).collect()
    }

    fn content(&mut self, content: Content) -> Result<TreeContent<'a>, TooLarge> {
        Ok(match content {
            Content::Plain(id) => Content::Plain(self.string(id)),
            Content::Segments(range) => Content::Segments(self.segments(range)?),
        })
    }

    fn segment(&mut self, segment: &Segment) -> Result<TreeSegment<'a>, TooLarge> {
        let item = match &segment.item {
            SegmentItem::Text(id) => SegmentItem::Text(self.string(*id)),
            SegmentItem::Gaiji(gaiji) => SegmentItem::Gaiji(self.gaiji(gaiji)),
            SegmentItem::Directive(directive) => SegmentItem::Directive(self.directive(*directive)),
            SegmentItem::Node(node) => SegmentItem::Node(self.node(node)?),
        };
        Ok(TreeSegment { level: segment.level, item, plain: segment.plain })
    }

    fn gaiji(&self, gaiji: &Gaiji) -> Gaiji<&'a str> {
        let canonical = match gaiji.canonical {
            GaijiCanonical::MenKuTen => GaijiCanonical::MenKuTen,
            GaijiCanonical::Unicode => GaijiCanonical::Unicode,
            GaijiCanonical::Unresolved { mencode } => {
                GaijiCanonical::Unresolved { mencode: mencode.map(|id| self.string(id)) }
            }
        };
        Gaiji { hint: self.string(gaiji.hint), canonical }
    }

    fn directive(&self, directive: Directive) -> Directive<&'a str> {
        Directive { raw: self.string(directive.raw), kind: directive.kind }
    }

    fn payload(&self, payload: ForwardPayload) -> ForwardPayload<&'a str> {
        match payload {
            ForwardPayload::None => ForwardPayload::None,
            ForwardPayload::NestedSource => ForwardPayload::NestedSource,
            ForwardPayload::AccentBody(id) => ForwardPayload::AccentBody(self.string(id)),
            ForwardPayload::QuotedTarget(id) => ForwardPayload::QuotedTarget(self.string(id)),
        }
    }

    fn illustration(
        &mut self,
        i: &Illustration,
    ) -> Result<Illustration<&'a str, Vec<TreeSegment<'a>>>, TooLarge> {
        Ok(Illustration {
            file: self.string(i.file),
            number: i.number.map(|id| self.string(id)),
            dimensions: i.dimensions.map(|id| self.string(id)),
            caption: i.caption.map(|content| self.content(content)).transpose()?,
            description: i.description.map(|id| self.string(id)),
        })
    }

    fn node(&mut self, node: &Node) -> Result<TreeNode<'a>, TooLarge> {
        Ok(match node {
            Node::Ruby { base, reading } => {
                Node::Ruby { base: self.contents(*base)?, reading: self.contents(*reading)? }
            }
            Node::Format { target, origin, payload } => Node::Format {
                target: self.contents(*target)?,
                origin: *origin,
                payload: self.payload(*payload),
            },
            Node::Gaiji(gaiji) => Node::Gaiji(self.gaiji(gaiji)),
            Node::Line => Node::Line,
            Node::PageBreak => Node::PageBreak,
            Node::SectionBreak => Node::SectionBreak,
            Node::BodyEnd => Node::BodyEnd,
            Node::ForcedBreak => Node::ForcedBreak,
            Node::Heading { text } => Node::Heading { text: self.contents(*text)? },
            Node::HeadingHint { target } => Node::HeadingHint { target: self.string(*target) },
            Node::Illustration(illustration) => {
                Node::Illustration(self.illustration(illustration)?)
            }
            Node::Kaeriten { mark } => Node::Kaeriten { mark: self.string(*mark) },
            Node::Directive(directive) => Node::Directive(self.directive(*directive)),
            Node::AngleQuote { content } => Node::AngleQuote { content: self.contents(*content)? },
            Node::MarginNote { base, note } => {
                Node::MarginNote { base: self.contents(*base)?, note: self.contents(*note)? }
            }
        })
    }
}

/// One line for the node and each content and segment, deeper ones further to the right.
impl fmt::Display for Tree<'_> {
    fn fmt(&self, f: &mut fmt::Formatter<'_>) -> fmt::Result {
        Lines { f, depth: 0 }.node(&self.node)
    }
}

struct Lines<'f, 'g> {
    f: &'f mut fmt::Formatter<'g>,
    depth: usize,
}

impl Lines<'_, '_> {
    fn line(&mut self, line: fmt::Arguments<'_>) -> fmt::Result {
        if self.depth > 0 {
            self.f.write_str("\n")?;
        }
        write!(self.f, "{:width$}{line}", "", width = 2 * self.depth)
    }

    fn deeper(&mut self, show: impl FnOnce(&mut Self) -> fmt::Result) -> fmt::Result {
        self.depth += 1;
        let shown = show(self);
        self.depth -= 1;
        shown
    }

    fn string(&mut self, name: &str, string: Option<&str>) -> fmt::Result {
        self.deeper(|lines| match string {
            Some(string) => lines.line(format_args!("{name}: {string:?}")),
            None => Ok(()),
        })
    }

    fn contents(&mut self, name: &str, contents: &[TreeContent<'_>]) -> fmt::Result {
        self.deeper(|lines| {
            lines.line(format_args!("{name}:"))?;
            lines.deeper(|lines| contents.iter().try_for_each(|content| lines.content(content)))
        })
    }

    fn content(&mut self, content: &TreeContent<'_>) -> fmt::Result {
        match content {
            Content::Plain(string) => self.line(format_args!("{string:?}")),
            Content::Segments(segments) => {
                self.line(format_args!("segments:"))?;
                self.deeper(|lines| segments.iter().try_for_each(|segment| lines.segment(segment)))
            }
        }
    }

    fn segment(&mut self, segment: &TreeSegment<'_>) -> fmt::Result {
        match &segment.item {
            SegmentItem::Text(string) => self.line(format_args!("{string:?}")),
            SegmentItem::Gaiji(gaiji) => self.gaiji(gaiji),
            SegmentItem::Directive(directive) => self.directive(directive),
            SegmentItem::Node(node) => self.node(node),
        }
    }

    fn gaiji(&mut self, gaiji: &Gaiji<&str>) -> fmt::Result {
        let (name, mencode) = match gaiji.canonical {
            GaijiCanonical::MenKuTen => ("MenKuTen", None),
            GaijiCanonical::Unicode => ("Unicode", None),
            GaijiCanonical::Unresolved { mencode } => ("Unresolved", mencode),
        };
        self.line(format_args!("Gaiji {name}"))?;
        self.string("hint", Some(gaiji.hint))?;
        self.string("mencode", mencode)
    }

    fn directive(&mut self, directive: &Directive<&str>) -> fmt::Result {
        self.line(format_args!("Directive {:?}", directive.kind))?;
        self.string("raw", Some(directive.raw))
    }

    fn illustration(&mut self, i: &Illustration<&str, Vec<TreeSegment<'_>>>) -> fmt::Result {
        self.line(format_args!("Illustration"))?;
        self.string("file", Some(i.file))?;
        self.string("number", i.number)?;
        self.string("dimensions", i.dimensions)?;
        self.string("description", i.description)?;
        match &i.caption {
            Some(caption) => self.contents("caption", std::slice::from_ref(caption)),
            None => Ok(()),
        }
    }

    fn node(&mut self, node: &TreeNode<'_>) -> fmt::Result {
        match node {
            Node::Gaiji(gaiji) => return self.gaiji(gaiji),
            Node::Directive(directive) => return self.directive(directive),
            Node::Illustration(illustration) => return self.illustration(illustration),
            Node::Format { origin, .. } => self.line(format_args!("Format {origin:?}"))?,
            _ => self.line(format_args!("{:?}", node.kind()))?,
        }
        match node {
            Node::Ruby { base, reading } => {
                self.contents("base", base)?;
                self.contents("reading", reading)
            }
            Node::Format { target, payload, .. } => {
                self.contents("target", target)?;
                match payload {
                    ForwardPayload::None => Ok(()),
                    ForwardPayload::NestedSource => {
                        self.deeper(|lines| lines.line(format_args!("NestedSource")))
                    }
                    ForwardPayload::AccentBody(string) => self.string("AccentBody", Some(string)),
                    ForwardPayload::QuotedTarget(string) => {
                        self.string("QuotedTarget", Some(string))
                    }
                }
            }
            Node::Heading { text } => self.contents("text", text),
            Node::HeadingHint { target } => self.string("target", Some(target)),
            Node::Kaeriten { mark } => self.string("mark", Some(mark)),
            Node::AngleQuote { content } => self.contents("content", content),
            Node::MarginNote { base, note } => {
                self.contents("base", base)?;
                self.contents("note", note)
            }
            _ => Ok(()),
        }
    }
}
