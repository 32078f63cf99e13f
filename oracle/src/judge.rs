//! Ours: the Rust's `reparse` on a book, an edit and a reading; and which of its tests said no, found by asking `reparse` again.
use core::ops::Range;
use std::panic::{AssertUnwindSafe, catch_unwind};
use std::sync::Arc;

use crate::incremental::{self, IncrementalOutput};
use crate::pipeline::{ASKED, READING};
use crate::spec::{Diagnostic, NormalizedOffset, SourceOffset, Span};
use crate::syntax::ast::{LexOutput, NodeStore, RegionOutput, Registry, SourceNode};
use crate::tape::{Book, Reading, carry};

/// A reading that `lex_region` hands out once.
#[derive(Debug)]
pub struct Lexed(RegionOutput);

impl Reading {
    pub fn lexed(&self) -> Lexed {
        Lexed(self.part(true, true))
    }
    /// with its nodes or without, with its diagnostics or without
    fn part(&self, nodes: bool, diagnostics: bool) -> RegionOutput {
        let r = &self.region;
        RegionOutput {
            normalized: r.normalized.clone(),
            diagnostics: if diagnostics { r.diagnostics.clone() } else { Vec::new() },
            pairs: r.pairs.clone(),
            source_nodes: if nodes { r.source_nodes.clone() } else { Vec::new() },
            container_pairs: r.container_pairs.clone(),
            store: r.store.clone(),
        }
    }
}

/// What `reparse` returned, with the range of the new text that it gave to `lex_region`.
pub struct Output {
    out: IncrementalOutput,
    asked: Range<usize>,
}

fn ask(cached: &LexOutput, source: Arc<str>, edit: Range<usize>, reading: Option<RegionOutput>) -> (Option<IncrementalOutput>, Option<Range<usize>>) {
    READING.set(reading);
    ASKED.set(None);
    let out = incremental::reparse(cached, source, edit, false);
    (out, ASKED.get().map(|(start, end)| start..end))
}

/// The Rust's `reparse`, and nothing else; `source` is the new text. A panic of the Rust goes through.
pub fn reparse(book: &Book, source: Arc<str>, edit: Range<usize>, lexed: Lexed) -> Option<Output> {
    let (out, asked) = ask(&book.lex, source, edit, Some(lexed.0));
    Some(Output { out: out?, asked: asked? })
}

#[derive(Debug)]
pub struct Merged {
    pub book: Book,
    /// in offsets of the old text
    pub region: Range<u32>,
    pub reused: u32,
    pub reread: u32,
    /// calls, cache hits, table hits, allocs, long bypass, resizes, probe steps: of the layer on top, be it new or not
    pub counts: [u64; 7],
    pub new_layer: bool,
    /// the order of diagnostics with equal keys, which the Rust leaves free, was not that of their lists (old before, reading's, old behind); it is put right here
    pub keys_moved: bool,
}

fn key(d: &Diagnostic) -> (u32, u32, &str) {
    (d.span().start, d.span().end, d.code())
}

/// Equal keys in the order of their lists; whether that changed anything.
fn put_in_order(diagnostics: &mut Vec<Diagnostic>) -> bool {
    assert!(diagnostics.windows(2).all(|w| key(&w[0]) <= key(&w[1])), "the Rust's diagnostics are sorted");
    let moved = diagnostics.windows(2).any(|w| key(&w[0]) == key(&w[1]) && w[0].rest().place > w[1].rest().place);
    diagnostics.sort_by(|a, b| (key(a), a.rest().place).cmp(&(key(b), b.rest().place)));
    for (place, d) in diagnostics.iter_mut().enumerate() {
        d.set_place((0, place as u32));
    }
    moved
}

impl Output {
    /// The merged book with what it carries. `book` and `reading` are those that were given to `reparse`.
    pub fn merged(self, book: &Book, reading: &Reading) -> Merged {
        let mut lex = self.out.output;
        let shrunk = book.lex.sanitized.len() as i64 - lex.sanitized.len() as i64;
        let region = self.asked.start as u32..(self.asked.end as i64 + shrunk) as u32;
        #[cfg(test)]
        let (reused, reread) = (self.out.reused_nodes as u32, self.out.reparsed_nodes as u32);
        #[cfg(not(test))]
        let (reused, reread) = ((lex.source_nodes.len() - reading.nodes()) as u32, reading.nodes() as u32);
        let carried = carry(book, reading, &lex, &region);
        let keys_moved = put_in_order(&mut lex.diagnostics);
        let s = lex.store.interner.stats;
        let counts = [s.calls, s.cache_hits, s.table_hits, s.allocs, s.long_bypass, s.resizes, s.probe_steps];
        let new_layer = !Arc::ptr_eq(&book.lex.store, &lex.store);
        Merged { book: Book { lex, carried }, region, reused, reread, counts, new_layer, keys_moved }
    }
}

impl Merged {
    /// document 01: all 0 without a new layer
    pub fn counts(&self) -> [u64; 7] {
        if self.new_layer { self.counts } else { [0; 7] }
    }
}

// ---- which test said no. `reparse` answers None and no more; its tests are private. Each probe below is a call of `reparse` that is None for one
// reason alone.

/// A book from parts.
fn made(text: &str, normalized: String, nodes: Vec<SourceNode>, store: Arc<NodeStore>) -> LexOutput {
    LexOutput::new(normalized, Arc::<str>::from(text), false, Registry::empty(), Vec::new(), Vec::new(), nodes, Vec::new(), store)
}

/// A passage before the book: then the region never is the whole text, and a book with a dependency is the only one that does not get to `lex_region`.
fn has_dependency(book: &LexOutput, edit: usize) -> bool {
    let before = "z\n\n";
    let moved = |n: &SourceNode| SourceNode {
        source_span: n.source_span.shifted(3),
        normalized_offset: NormalizedOffset::new(n.normalized_offset.get().saturating_add(3)),
        node: n.node,
    };
    let nodes = book.source_nodes.iter().map(moved).collect();
    let text = format!("{before}{}", &*book.sanitized);
    let moved = made(&text, String::new(), nodes, Arc::clone(&book.store));
    ask(&moved, Arc::from(text + "x"), edit + 3..edit + 3, None).1.is_none()
}

/// Whether a book without nodes, where no test on the old book can say no, takes this reading.
fn taken(reading: RegionOutput) -> bool {
    let plain = made("z\n\nz", "z\n\nz".to_owned(), Vec::new(), Arc::default());
    ask(&plain, Arc::from("z\n\nx"), 3..4, Some(reading)).0.is_some()
}

/// The same nodes and pairs, so the same region, under a normalized text in which every offset is between characters.
fn with_ascii(book: &LexOutput) -> LexOutput {
    let mut ascii = made(&book.sanitized, "z".repeat(book.normalized.len()), book.source_nodes.clone(), Arc::clone(&book.store));
    ascii.pairs.clone_from(&book.pairs);
    ascii
}

fn reason_before_lexing(book: &LexOutput, source: &str, edit: usize) -> u32 {
    if &*book.sanitized == source {
        9
    } else if edit <= book.sanitized.len() && has_dependency(book, edit) {
        10
    } else {
        11
    }
}

fn reason_behind_lexing(book: &LexOutput, source: &Arc<str>, edit: &Range<usize>, reading: &Reading) -> u32 {
    if !taken(reading.part(true, false)) {
        13
    } else if !taken(reading.part(false, true)) {
        14
    } else if ask(&with_ascii(book), Arc::clone(source), edit.clone(), Some(reading.part(true, true))).0.is_none() {
        15
    } else {
        16
    }
}

#[derive(Debug)]
pub enum Answer {
    Merged(Box<Merged>),
    /// None, and the number of document 01 for its reason: 9, 10, 11, 13, 14, 15 or 16
    None(u32),
    /// the reading's text is not the part that the Rust asked for: document 01's 12, which the Rust does not have
    OtherText,
    Panic(String),
}

/// The new text. Where document 01 says 8 there is none: the Rust gets the replacement behind the old text.
pub fn edited(old: &str, edit: &Range<usize>, replacement: &str) -> Arc<str> {
    let old = old.as_bytes();
    let (start, end) = if edit.start <= edit.end && edit.end <= old.len() { (edit.start, edit.end) } else { (old.len(), old.len()) };
    String::from_utf8_lossy(&[&old[..start], replacement.as_bytes(), &old[end..]].concat()).into()
}

fn guarded<T>(f: impl FnOnce() -> T) -> Result<T, String> {
    catch_unwind(AssertUnwindSafe(f)).map_err(|e| {
        let text = e.downcast_ref::<String>().cloned().or_else(|| e.downcast_ref::<&str>().map(|s| (*s).to_owned()));
        text.unwrap_or_default().replace('\n', " ")
    })
}

fn answer(book: &Book, edit: Range<usize>, replacement: &str, reading: &Reading) -> Answer {
    let source = edited(book.text(), &edit, replacement);
    let (out, asked) = ask(&book.lex, Arc::clone(&source), edit.clone(), Some(reading.part(true, true)));
    let Some(asked) = asked else {
        return Answer::None(reason_before_lexing(&book.lex, &source, edit.start));
    };
    if source.get(asked.clone()) != Some(reading.text()) {
        return Answer::OtherText;
    }
    match out {
        Some(out) => Answer::Merged(Box::new(Output { out, asked }.merged(book, reading))),
        None => Answer::None(reason_behind_lexing(&book.lex, &source, &edit, reading)),
    }
}

/// The Rust's answer. Its panics are caught (set a quiet hook first).
pub fn judge(book: &Book, edit: Range<usize>, replacement: &str, reading: &Reading) -> Answer {
    guarded(|| answer(book, edit, replacement, reading)).unwrap_or_else(Answer::Panic)
}

/// The region alone, in offsets of the old text, or 9, 10, 11.
pub fn region(book: &Book, edit: Range<usize>, replacement: &str) -> Result<Range<usize>, u32> {
    let source = edited(book.text(), &edit, replacement);
    match ask(&book.lex, Arc::clone(&source), edit.clone(), None).1 {
        Some(asked) => Ok(asked.start..asked.end + book.text().len() - source.len()),
        None => Err(reason_before_lexing(&book.lex, &source, edit.start)),
    }
}

/// `node_at_source`: the place of the node in its list.
pub fn node_at_source(book: &Book, offset: u32) -> Option<usize> {
    let node = book.lex.node_at_source(SourceOffset::new(offset))?;
    book.lex.source_nodes.iter().position(|n| core::ptr::eq(n, node))
}

pub fn diagnostics_allow_incremental(book: &Book) -> bool {
    incremental::diagnostics_allow_incremental(&book.lex.diagnostics)
}

/// `Span::shifted` of an empty span.
pub fn shifted(offset: u32, by: i64) -> u32 {
    Span::new(offset, offset).shifted(by).start
}

/// The Rust's `fx_hash`.
pub fn fx_hash(bytes: &[u8]) -> u64 {
    crate::syntax::ast::intern::fx_hash(bytes)
}
