//! The merge once more, written from document 01 and wishes 1 and 5 of document 02, sentence by sentence: numbers 1 to 18 in their order, and the merged
//! book; and the flattening of wish 6. The Rust has no answer for 1 to 8 and does not know the wishes, so this is the judge there. It is slow and plain on
//! purpose; UTF-8 is the standard library's, which follows RFC 3629.
use crate::book::*;
use std::collections::HashMap;

type Refused<T> = Result<T, u32>;

fn must(number: u32, holds: bool) -> Refused<()> {
    if holds { Ok(()) } else { Err(number) }
}

// ---- section 4, layout: 1

struct Reader<'a>(&'a [u8]);

impl<'a> Reader<'a> {
    fn bytes(&mut self, n: usize) -> Refused<&'a [u8]> {
        let (part, rest) = self.0.split_at_checked(n).ok_or(1_u32)?;
        self.0 = rest;
        Ok(part)
    }
    fn b(&mut self) -> Refused<u8> {
        Ok(self.bytes(1)?[0])
    }
    fn w(&mut self) -> Refused<u32> {
        Ok(u32::from_le_bytes(self.bytes(4)?.try_into().unwrap()))
    }
    fn ws<const N: usize>(&mut self) -> Refused<[u32; N]> {
        let mut out = [0; N];
        for w in &mut out {
            *w = self.w()?;
        }
        Ok(out)
    }
    fn body(&mut self) -> Refused<Body> {
        Ok(Body { kind: self.b()?, tag: self.b()?, plain: self.ws()?, words: self.ws()? })
    }
    /// the records of one command that follow here
    fn every<T>(&mut self, command: u8, mut record: impl FnMut(&mut Self) -> Refused<T>) -> Refused<Vec<T>> {
        let mut out = Vec::new();
        while self.0.first() == Some(&command) {
            self.0 = &self.0[1..];
            out.push(record(self)?);
        }
        Ok(out)
    }
}

#[derive(Clone, Copy, PartialEq)]
pub enum Form {
    Id,
    Missing,
    Contents,
    Segments,
}
use Form::*;

/// What the words of a body are, in the order in which section 5 goes over them.
pub fn fields(b: &Body) -> Vec<(Form, usize)> {
    match b.kind {
        1 | 15 => vec![(Contents, 0), (Contents, 2)],
        2 if b.tag % 4 > 1 => vec![(Contents, 0), (Id, 2)],
        2 | 9 | 14 => vec![(Contents, 0)],
        3 if b.tag == 2 => vec![(Missing, 1), (Id, 0)],
        0 | 3 | 10 | 12 | 13 => vec![(Id, 0)],
        11 => {
            let mut out = vec![(Id, 0), (Missing, 1), (Missing, 2)];
            out.extend(match b.tag {
                0 => None,
                1 => Some((Id, 4)),
                _ => Some((Segments, 4)),
            });
            out.push((Missing, 3));
            out
        }
        _ => vec![],
    }
}

fn tags(kind: u8) -> u8 {
    match kind {
        2 => 16,
        3 | 11 => 3,
        13 => 14,
        _ => 1,
    }
}

/// tag in range, unused words 0
fn body_shaped(b: &Body) -> bool {
    let mut used = [false; 6];
    if b.tag >= tags(b.kind) {
        return false;
    }
    for (form, i) in fields(b) {
        used[i] = true;
        used[i + usize::from(matches!(form, Contents | Segments))] = true;
    }
    (0..6).all(|i| used[i] || b.words[i] == 0)
}

fn content_shaped(c: &Content) -> bool {
    c.0 == 1 || c.0 == 0 && c.2 == 0
}

fn segment_shaped(s: &Seg) -> bool {
    let kinds = match s.tag {
        0 => 0..=0,
        1 => 3..=3,
        2 => 13..=13,
        3 => 1..=15,
        _ => return false,
    };
    kinds.contains(&s.body.kind) && body_shaped(&s.body)
}

fn node_shaped(n: &Node) -> bool {
    match n.class {
        0 | 1 => n.inline == 0 && (1..=15).contains(&n.body.kind) && body_shaped(&n.body),
        2 | 3 => n.inline < 2 && n.body.kind == 0 && n.body.tag == 0 && n.body.words == [0; 6],
        _ => false,
    }
}

fn layer(r: &mut Reader) -> Refused<(Vec<u32>, Layer)> {
    let lengths = r.every(3, Reader::w)?;
    let contents = r.every(4, |r| Ok((r.b()?, r.w()?, r.w()?)))?;
    let segments = r.every(5, |r| Ok(Seg { tag: r.b()?, level: r.b()?, body: r.body()? }))?;
    Ok((lengths, Layer { strings: vec![], contents, segments }))
}

pub fn read(tape: &[u8], bytes: &[u8]) -> Refused<Book> {
    let (mut r, mut d) = (Reader(tape), Reader(bytes));
    must(1, r.b()? == 1)?;
    let [text, norm] = r.ws()?;
    let layers = r.every(2, layer)?;
    let nodes = r.every(6, |r| Ok(Node { class: r.b()?, inline: r.b()?, start: r.w()?, end: r.w()?, offset: r.w()?, body: r.body()? }))?;
    let pairs = r.every(7, |r| Ok(Pair { kind: r.b()?, at: r.ws()? }))?;
    let containers = r.every(8, |r| Ok(Container { plain: r.w()?, open: r.w()?, close: r.w()? }))?;
    let diagnostics = r.every(9, |r| Ok(Diagnostic { kind: r.b()?, rank: r.w()?, start: r.w()?, end: r.w()?, plain: r.w()? }))?;
    must(1, r.b()? == 10 && r.0.is_empty() && !layers.is_empty())?;
    let (text, norm) = (d.bytes(text as usize)?.to_vec(), d.bytes(norm as usize)?.to_vec());
    let mut b = Book { text, norm, layers: vec![], nodes, pairs, containers, diagnostics };
    for (lengths, mut l) in layers {
        for n in lengths {
            l.strings.push(d.bytes(n as usize)?.to_vec());
        }
        b.layers.push(l);
    }
    must(1, d.0.is_empty())?;
    must(1, b.layers.iter().all(|l| l.contents.iter().all(content_shaped) && l.segments.iter().all(segment_shaped)))?;
    must(1, b.nodes.iter().all(node_shaped) && b.pairs.iter().all(|p| p.kind < 5) && b.diagnostics.iter().all(|d| d.kind < 5))?;
    Ok(b)
}

// ---- 2 and 3

fn is_utf8(s: &[u8]) -> bool {
    std::str::from_utf8(s).is_ok()
}

const TEXT: usize = 16_777_215;
const POOL: usize = 1_048_575;
const LIST: usize = 262_143;
const LAYERS: usize = 32;

pub fn within_limits(b: &Book) -> bool {
    b.text.len() <= TEXT
        && b.norm.len() <= TEXT
        && b.strings() <= POOL
        && b.contents() <= POOL
        && b.segments() <= POOL
        && b.nodes.len() <= LIST
        && b.pairs.len() <= LIST
        && b.containers.len() <= LIST
        && b.diagnostics.len() <= LIST
        && b.layers.len() <= LAYERS
}

// ---- 4 and 5: the three pools, each numbered from 0 across the layers

pub struct Pools<'a> {
    pub strings: Vec<&'a [u8]>,
    contents: Vec<&'a Content>,
    segments: Vec<&'a Seg>,
    /// of contents and of segments: where each layer ends
    ends: [Vec<u64>; 2],
}

impl<'a> Pools<'a> {
    pub fn of(b: &'a Book) -> Self {
        let mut p = Pools { strings: vec![], contents: vec![], segments: vec![], ends: [vec![], vec![]] };
        for l in &b.layers {
            p.strings.extend(l.strings.iter().map(Vec::as_slice));
            p.contents.extend(&l.contents);
            p.segments.extend(&l.segments);
            p.ends[0].push(p.contents.len() as u64);
            p.ends[1].push(p.segments.len() as u64);
        }
        p
    }
    /// start plus length is at most the count; a range of length above 0 lies in one layer
    fn range_holds(&self, which: usize, start: u32, len: u32) -> bool {
        let (start, end) = (u64::from(start), u64::from(start) + u64::from(len));
        let ends = &self.ends[which];
        end <= *ends.last().unwrap_or(&0) && (len == 0 || ends.iter().find(|e| start < **e).is_some_and(|e| end <= *e))
    }
    fn id_holds(&self, id: u32) -> bool {
        (id as usize) < self.strings.len()
    }
    fn body_holds(&self, b: &Body) -> bool {
        fields(b).into_iter().all(|(form, i)| match form {
            Id => self.id_holds(b.words[i]),
            Missing => b.words[i] == NONE || self.id_holds(b.words[i]),
            Contents => self.range_holds(0, b.words[i], b.words[i + 1]),
            Segments => self.range_holds(1, b.words[i], b.words[i + 1]),
        })
    }
    fn content_holds(&self, c: &Content) -> bool {
        if c.0 == 0 { self.id_holds(c.1) } else { self.range_holds(1, c.1, c.2) }
    }
    pub fn contents(&self, start: u32, len: u32) -> &[&'a Content] {
        &self.contents[start as usize..start as usize + len as usize]
    }
    pub fn segments(&self, start: u32, len: u32) -> &[&'a Seg] {
        &self.segments[start as usize..start as usize + len as usize]
    }
    /// the segment runs that the contents or the caption of a body name
    pub fn runs(&self, b: &Body) -> Vec<(u32, u32)> {
        let mut out = vec![];
        for (form, i) in fields(b) {
            match form {
                Contents => out.extend(self.contents(b.words[i], b.words[i + 1]).iter().filter(|c| c.0 == 1).map(|c| (c.1, c.2))),
                Segments => out.push((b.words[i], b.words[i + 1])),
                _ => {}
            }
        }
        out
    }
    fn level_holds(&self, s: &Seg) -> bool {
        if s.tag < 3 {
            return s.level == 0;
        }
        (1..=32).contains(&s.level) && self.runs(&s.body).into_iter().all(|(a, n)| self.segments(a, n).iter().all(|t| t.level < s.level))
    }
    /// `content_range_as_plain`: a range of exactly one Plain content gives its string
    fn as_plain(&self, start: u32, len: u32) -> Option<&'a [u8]> {
        match self.contents(start, len) {
            [(0, id, _)] => Some(self.strings[*id as usize]),
            _ => None,
        }
    }
}

fn ids_hold(b: &Book, p: &Pools) -> bool {
    b.nodes.iter().filter(|n| n.class < 2).all(|n| p.body_holds(&n.body))
        && p.segments.iter().all(|s| p.body_holds(&s.body))
        && p.contents.iter().all(|c| p.content_holds(c))
}

// ---- 6 and 7

fn drift<'a>(nodes: impl Iterator<Item = &'a Node>) -> i64 {
    nodes.map(Node::drift).sum()
}

fn places_hold(b: &Book) -> bool {
    let (text, norm) = (b.text.len() as u64, b.norm.len() as u64);
    let (mut before, mut moved) = (0, 0_i64);
    for n in &b.nodes {
        if n.start < before || n.end <= n.start || u64::from(n.end) > text {
            return false;
        }
        let image = i64::from(n.start) + moved;
        if !(image..image + i64::from(n.image())).contains(&i64::from(n.offset)) {
            return false;
        }
        before = n.end;
        moved += n.drift();
    }
    b.pairs.iter().all(|p| p.at[0] < p.at[1] && p.at[1] <= p.at[2] && p.at[2] < p.at[3] && u64::from(p.at[3]) <= text)
        && b.containers.iter().all(|c| c.open < c.close && u64::from(c.close) < norm)
        && b.diagnostics.iter().all(|d| d.start <= d.end && u64::from(d.end) <= text)
}

/// 1 to 7, rising
pub fn check_book(tape: &[u8], bytes: &[u8]) -> Refused<Book> {
    let b = read(tape, bytes)?;
    must(2, is_utf8(&b.text) && is_utf8(&b.norm) && b.layers.iter().all(|l| l.strings.iter().all(|s| is_utf8(s))))?;
    must(3, within_limits(&b))?;
    let p = Pools::of(&b);
    must(4, ids_hold(&b, &p))?;
    must(5, p.segments.iter().all(|s| p.level_holds(s)))?;
    must(6, places_hold(&b))?;
    must(7, b.norm.len() as i64 == b.text.len() as i64 + drift(b.nodes.iter()))?;
    Ok(b)
}

pub fn check_reading(tape: &[u8], bytes: &[u8]) -> Refused<Book> {
    must(1, read(tape, bytes)?.layers.len() == 1)?;
    check_book(tape, bytes)
}

// ---- section 6

/// what a node adds to the block depth and to the warichu depth
fn steps(n: &Node) -> [i64; 2] {
    match (n.class, n.body.kind, n.body.tag) {
        (2, ..) => [1, 0],
        (3, ..) => [-1, 0],
        (_, 13, 4) => [0, 1],
        (_, 13, 5) => [0, -1],
        _ => [0, 0],
    }
}

fn safe_cut(b: &Book, at: usize) -> bool {
    if at == 0 || at == b.text.len() {
        return true;
    }
    let before = || b.nodes.iter().filter(|n| (n.start as usize) < at);
    let mut depths = [0; 2];
    for n in before() {
        for (d, s) in depths.iter_mut().zip(steps(n)) {
            *d = (*d + s).max(0);
        }
    }
    b.text[..at].ends_with(b"\n\n")
        && before().all(|n| n.end as usize <= at)
        && depths == [0, 0]
        && !b.pairs.iter().any(|p| (p.at[0] as usize) < at && at < p.at[3] as usize)
}

/// "An end cut other than the text's end shall also have two newline bytes before its moved place in the new text."
fn end_cut(b: &Book, new: &[u8], at: usize) -> bool {
    safe_cut(b, at) && (at == b.text.len() || new[..at + new.len() - b.text.len()].ends_with(b"\n\n"))
}

fn region(b: &Book, start: usize, end: usize, new: &[u8]) -> [usize; 2] {
    let behind_newline = |at: &usize| b.text[at - 1] == b'\n';
    let first = (1..=start).rev().filter(behind_newline).find(|at| safe_cut(b, *at)).unwrap_or(0);
    let last = (end + 1..=b.text.len()).filter(behind_newline).find(|at| end_cut(b, new, *at)).unwrap_or(b.text.len());
    [first, last]
}

/// At how many offsets inside a text a passage may begin that can be corrected alone: they are safe, between characters of the normalized text, and no
/// dependency lies behind them.
pub fn passages(b: &Book) -> usize {
    let whole = |at: usize| is_utf8(&b.norm[..normalized(b, at)]);
    (1..b.text.len()).filter(|at| b.text[at - 1] == b'\n' && safe_cut(b, *at) && whole(*at) && !has_ruby_format_dependency(b, *at)).count()
}

fn is_ruby(n: &Node) -> bool {
    n.class == 0 && n.body.kind == 1
}

fn is_referenced(n: &Node) -> bool {
    n.class == 0 && n.body.kind == 2 && n.body.tag / 4 == 1
}

fn plain_of<'a>(p: &Pools<'a>, n: &Node) -> Option<&'a [u8]> {
    p.as_plain(n.body.words[0], n.body.words[1])
}

fn has_ruby_format_dependency(b: &Book, edit: usize) -> bool {
    let p = Pools::of(b);
    let earlier = |i: usize, s: &[u8]| b.nodes[..i].iter().any(|n| is_ruby(n) && plain_of(&p, n) == Some(s));
    (0..b.nodes.len()).any(|i| {
        let n = &b.nodes[i];
        is_referenced(n) && n.end as usize > edit && plain_of(&p, n).is_some_and(|s| earlier(i, s))
    })
}

fn introduces_ruby_format_dependency(old: &Book, reading: &Book, region: [usize; 2]) -> bool {
    if reading.nodes.iter().any(is_ruby) && old.nodes.iter().any(|n| n.start as usize >= region[1] && is_referenced(n)) {
        return true;
    }
    let (p, q) = (Pools::of(old), Pools::of(reading));
    let rubies: Vec<&[u8]> = old.nodes.iter().filter(|n| n.end as usize <= region[0] && is_ruby(n)).filter_map(|n| plain_of(&p, n)).collect();
    reading.nodes.iter().filter(|n| is_referenced(n)).any(|n| plain_of(&q, n).is_some_and(|s| rubies.contains(&s)))
}

/// 8, the replacement's 2, the new text's 3, 9, 10, 11: the region and the new text
fn choose(old: &Book, start: u32, end: u32, replacement: &[u8]) -> Refused<([usize; 2], Vec<u8>)> {
    let (start, end) = (start as usize, end as usize);
    let inside = |at: usize| old.text.get(at).is_some_and(|b| b & 0xc0 == 0x80);
    must(8, start <= end && end <= old.text.len() && !inside(start) && !inside(end))?;
    must(2, is_utf8(replacement))?;
    let new = [&old.text[..start], replacement, &old.text[end..]].concat();
    must(3, new.len() <= TEXT)?;
    must(9, new != old.text)?;
    must(10, !has_ruby_format_dependency(old, start))?;
    let region = region(old, start, end, &new);
    must(11, region != [0, old.text.len()])?;
    Ok((region, new))
}

/// What a reading has to be of.
pub fn region_text(old: &Book, start: u32, end: u32, replacement: &[u8]) -> Refused<Vec<u8>> {
    let (region, new) = choose(old, start, end, replacement)?;
    Ok(new[region[0]..region[1] + new.len() - old.text.len()].to_vec())
}

/// Choosing the region alone runs up to 11.
pub fn choose_region(tape: &[u8], bytes: &[u8], start: u32, end: u32, replacement: &[u8]) -> Refused<[usize; 2]> {
    Ok(choose(&check_book(tape, bytes)?, start, end, replacement)?.0)
}

// ---- section 2

fn hash(s: &[u8]) -> u64 {
    s.iter().fold(0_u64, |h, b| (h.rotate_left(5) ^ u64::from(*b)).wrapping_mul(0x517c_c1b7_2722_0a95))
}

#[derive(Default)]
struct Interner<'a> {
    strings: Vec<&'a [u8]>,
    slots: Vec<Option<usize>>,
    occupied: usize,
    last: Option<usize>,
    /// calls, cache hits, table hits, allocs, long bypass, resizes, probes
    counts: [u64; 7],
}

impl<'a> Interner<'a> {
    fn intern(&mut self, s: &'a [u8]) -> usize {
        self.counts[0] += 1;
        let id = match self.last {
            Some(last) if self.strings[last] == s => {
                self.counts[1] += 1;
                last
            }
            _ if s.len() > 64 => {
                self.counts[4] += 1;
                self.new_string(s)
            }
            _ => self.by_table(s),
        };
        self.last = Some(id);
        id
    }
    fn new_string(&mut self, s: &'a [u8]) -> usize {
        self.counts[3] += 1;
        self.strings.push(s);
        self.strings.len() - 1
    }
    fn by_table(&mut self, s: &'a [u8]) -> usize {
        if self.slots.is_empty() {
            self.slots = vec![None; 256];
        } else if self.occupied * 8 >= self.slots.len() * 7 {
            self.grow();
        }
        let mut at = (hash(s) % self.slots.len() as u64) as usize;
        loop {
            self.counts[6] += 1;
            match self.slots[at] {
                Some(id) if self.strings[id] == s => {
                    self.counts[2] += 1;
                    return id;
                }
                Some(_) => at = (at + 1) % self.slots.len(),
                None => {
                    self.occupied += 1;
                    let id = self.new_string(s);
                    self.slots[at] = Some(id);
                    return id;
                }
            }
        }
    }
    fn grow(&mut self) {
        self.counts[5] += 1;
        let twice = 2 * self.slots.len();
        for id in std::mem::replace(&mut self.slots, vec![None; twice]).into_iter().flatten() {
            let mut at = (hash(self.strings[id]) % twice as u64) as usize;
            while self.slots[at].is_some() {
                at = (at + 1) % twice;
            }
            self.slots[at] = Some(id);
        }
    }
}

// ---- section 5

struct Graft<'a> {
    from: Pools<'a>,
    interner: Interner<'a>,
    contents: Vec<Content>,
    segments: Vec<Seg>,
    /// strings, contents, segments of the old book
    below: [u32; 3],
}

impl Graft<'_> {
    fn string(&mut self, id: u32) -> u32 {
        self.below[0] + self.interner.intern(self.from.strings[id as usize]) as u32
    }
    fn content(&mut self, c: Content) -> Content {
        if c.0 == 0 {
            return (0, self.string(c.1), 0);
        }
        let [start, len] = self.segment_range(c.1, c.2);
        (1, start, len)
    }
    fn content_range(&mut self, start: u32, len: u32) -> [u32; 2] {
        let from: Vec<Content> = self.from.contents(start, len).iter().map(|c| **c).collect();
        let items: Vec<Content> = from.into_iter().map(|c| self.content(c)).collect();
        let at = self.below[1] + self.contents.len() as u32;
        self.contents.extend(items);
        [at, len]
    }
    fn segment_range(&mut self, start: u32, len: u32) -> [u32; 2] {
        let from: Vec<Seg> = self.from.segments(start, len).iter().map(|s| (*s).clone()).collect();
        let items: Vec<Seg> = from.into_iter().map(|s| Seg { body: self.body(&s.body), ..s }).collect();
        let at = self.below[2] + self.segments.len() as u32;
        self.segments.extend(items);
        [at, len]
    }
    fn body(&mut self, b: &Body) -> Body {
        let mut out = b.clone();
        for (form, i) in fields(b) {
            match form {
                Contents => [out.words[i], out.words[i + 1]] = self.content_range(b.words[i], b.words[i + 1]),
                Segments => [out.words[i], out.words[i + 1]] = self.segment_range(b.words[i], b.words[i + 1]),
                Missing if b.words[i] == NONE => {}
                Id | Missing => out.words[i] = self.string(b.words[i]),
            }
        }
        out
    }
}

/// The nodes with their bodies grafted, the new layer, the seven counts; `below`: strings, contents, segments of the layers below.
fn grafted(from: &Book, below: [usize; 3]) -> (Vec<Node>, Layer, [u64; 7]) {
    let mut g = Graft { from: Pools::of(from), interner: Interner::default(), contents: vec![], segments: vec![], below: below.map(|n| n as u32) };
    let mut graft = |n: &Node| Node { body: if n.class < 2 { g.body(&n.body) } else { n.body.clone() }, ..n.clone() };
    let nodes = from.nodes.iter().map(&mut graft).collect();
    let strings = g.interner.strings.iter().map(|s| s.to_vec()).collect();
    (nodes, Layer { strings, contents: g.contents, segments: g.segments }, g.interner.counts)
}

/// How many contents and segments grafting adds, a range counted once: a layer that no pool holds is not made.
struct Adds<'a, 'b> {
    from: &'a Pools<'b>,
    known: HashMap<(u32, u32), [u64; 2]>,
}

fn sum(a: [u64; 2], b: [u64; 2]) -> [u64; 2] {
    [a[0].saturating_add(b[0]), a[1].saturating_add(b[1])]
}

impl Adds<'_, '_> {
    fn run(&mut self, start: u32, len: u32) -> [u64; 2] {
        if let Some(n) = self.known.get(&(start, len)) {
            return *n;
        }
        let mut n = [0, u64::from(len)];
        for s in self.from.segments(start, len) {
            n = sum(n, self.body(&s.body));
        }
        self.known.insert((start, len), n);
        n
    }
    fn body(&mut self, b: &Body) -> [u64; 2] {
        let mut n = [0, 0];
        for (form, i) in fields(b) {
            if form == Contents {
                n = sum(n, [u64::from(b.words[i + 1]), 0]);
            }
        }
        for (start, len) in self.from.runs(b) {
            n = sum(n, self.run(start, len));
        }
        n
    }
}

/// Contents and segments that the graft of a reading adds, or of a whole book.
pub fn adds(reading: &Book) -> [u64; 2] {
    let p = Pools::of(reading);
    let mut a = Adds { from: &p, known: HashMap::new() };
    reading.nodes.iter().filter(|n| n.class < 2).fold([0, 0], |n, x| sum(n, a.body(&x.body)))
}

// ---- section 7

fn normalized(b: &Book, cut: usize) -> usize {
    (cut as i64 + drift(b.nodes.iter().filter(|n| n.end as usize <= cut))) as usize
}

fn moved(n: u32, by: i64) -> u32 {
    (i64::from(n) + by) as u32
}

fn node_moved(n: &Node, by: i64, normalized_by: i64) -> Node {
    Node { start: moved(n.start, by), end: moved(n.end, by), offset: moved(n.offset, normalized_by), ..n.clone() }
}

/// The merged book; `nodes` are the reading's, grafted, `layer` the new one.
fn spliced(old: &Book, reading: &Book, nodes: &[Node], layer: Option<Layer>, text: Vec<u8>, region: [usize; 2]) -> Book {
    let [start, end] = region;
    let (ns, ne) = (normalized(old, start), normalized(old, end));
    let by = text.len() as i64 - old.text.len() as i64;
    let nby = reading.norm.len() as i64 - (ne - ns) as i64;
    let (first, nfirst) = (start as i64, ns as i64);
    let mut b = Book { text, layers: old.layers.clone(), ..Book::default() };
    b.norm = [&old.norm[..ns], &reading.norm, &old.norm[ne..]].concat();
    b.layers.extend(layer);
    b.nodes.extend(old.nodes.iter().filter(|n| n.end as usize <= start).cloned());
    b.nodes.extend(nodes.iter().map(|n| node_moved(n, first, nfirst)));
    b.nodes.extend(old.nodes.iter().filter(|n| n.start as usize >= end).map(|n| node_moved(n, by, nby)));
    let pair = |p: &Pair, by: i64| Pair { kind: p.kind, at: p.at.map(|x| moved(x, by)) };
    b.pairs.extend(old.pairs.iter().filter(|p| p.at[3] as usize <= start).cloned());
    b.pairs.extend(reading.pairs.iter().map(|p| pair(p, first)));
    b.pairs.extend(old.pairs.iter().filter(|p| p.at[0] as usize >= end).map(|p| pair(p, by)));
    let container = |c: &Container, by: i64| Container { plain: c.plain, open: moved(c.open, by), close: moved(c.close, by) };
    b.containers.extend(old.containers.iter().filter(|c| (c.close as usize) < ns).cloned());
    b.containers.extend(reading.containers.iter().map(|c| container(c, nfirst)));
    b.containers.extend(old.containers.iter().filter(|c| c.open as usize >= ne).map(|c| container(c, nby)));
    let told = |d: &Diagnostic, by: i64| Diagnostic { start: moved(d.start, by), end: moved(d.end, by), ..d.clone() };
    b.diagnostics.extend(old.diagnostics.iter().filter(|d| d.end as usize <= start).cloned());
    b.diagnostics.extend(reading.diagnostics.iter().map(|d| told(d, first)));
    // "otherwise": a mark at the region's start is one before it, and counts once
    b.diagnostics.extend(old.diagnostics.iter().filter(|d| d.end as usize > start && d.start as usize >= end).map(|d| told(d, by)));
    b.diagnostics.sort_by_key(|d| (d.start, d.end, d.rank));
    b
}

fn balanced_nodes(nodes: &[Node]) -> bool {
    let mut depths = [0_i64; 2];
    for n in nodes {
        for (d, s) in depths.iter_mut().zip(steps(n)) {
            *d += s;
            if *d < 0 {
                return false;
            }
        }
    }
    depths == [0, 0]
}

/// "... condition 14 also holds where the region is empty and a mark of no width of the old book lies at its place."
fn mark_at_empty(old: &Book, region: [usize; 2]) -> bool {
    region[0] == region[1] && old.marks_at(region[0]) > 0
}

const STRINGS: usize = 3583;
const WORK: usize = 16384;

/// The answer, or the number, whatever is lent.
pub fn merge_in_any_room(c: &Case) -> Refused<Answer> {
    let old = check_book(&c.tape, &c.bytes)?;
    let (region, text) = choose(&old, c.start, c.end, &c.replacement)?;
    let reading = check_reading(&c.rtape, &c.rbytes)?;
    must(12, reading.text == text[region[0]..region[1] + text.len() - old.text.len()])?;
    must(13, balanced_nodes(&reading.nodes))?;
    must(14, reading.diagnostics.iter().all(|d| d.kind != 2 && d.kind != 3) && !mark_at_empty(&old, region))?;
    must(15, !introduces_ruby_format_dependency(&old, &reading, region))?;
    must(16, region.iter().all(|cut| is_utf8(&old.norm[..normalized(&old, *cut)])))?;
    must(17, reading.nodes.is_empty() || old.layers.len() < LAYERS)?;
    let below = [old.strings(), old.contents(), old.segments()];
    let (mut nodes, mut layer, mut counts) = (vec![], None, [0; 7]);
    if !reading.nodes.is_empty() {
        let more = adds(&reading);
        must(18, (0..2).all(|i| below[i + 1] as u64 + more[i] <= POOL as u64))?;
        let (new, fresh, told) = grafted(&reading, below);
        must(18, fresh.strings.len() <= STRINGS)?;
        (nodes, layer, counts) = (new, Some(fresh), told);
    }
    let b = spliced(&old, &reading, &nodes, layer, text, region);
    let (tape, bytes) = (b.tape(), b.bytes());
    must(18, within_limits(&b))?;
    let reused = (b.nodes.len() - nodes.len()) as u32;
    Ok(Answer { region: region.map(|n| n as u32), reused, reread: nodes.len() as u32, counts, tape, bytes })
}

/// 18 also where a result buffer is too short or too few work words are lent.
pub fn in_room(answer: Refused<Answer>, room: Room) -> Refused<Answer> {
    let a = answer?;
    must(18, a.tape.len() <= room[0] && a.bytes.len() <= room[1] && WORK <= room[2])?;
    Ok(a)
}

// ---- document 02, wish 6

/// Of an accepted flattening: the flat book, and the seven counts of its graft.
pub struct Flat {
    pub book: Book,
    pub counts: [u64; 7],
}

/// "... the nodes' trees are grafted in order into one fresh layer, nothing unreachable is kept. Texts, spans, lists and trees are equal before and
/// after .. A book without nodes keeps one empty layer. It is refused by 1 to 7 and 18 under their old conditions." Whatever is lent.
pub fn flatten_in_any_room(old: &Stored) -> Refused<Flat> {
    let old = check_book(&old.tape, &old.bytes)?;
    must(18, adds(&old).iter().all(|n| *n <= POOL as u64))?;
    let (nodes, layer, counts) = grafted(&old, [0; 3]);
    must(18, layer.strings.len() <= STRINGS)?;
    let book = Book { layers: vec![layer], nodes, ..old };
    must(18, within_limits(&book))?;
    Ok(Flat { book, counts })
}

/// 18 also where a result buffer is too short or too few work words are lent.
pub fn flat_in_room(flat: &Refused<Flat>, room: Room) -> Refused<Stored> {
    let made = Stored::of(&flat.as_ref().map_err(|n| *n)?.book);
    must(18, made.tape.len() <= room[0] && made.bytes.len() <= room[1] && WORK <= room[2])?;
    Ok(made)
}

/// The program `merge`: its input to its line.
pub fn program(input: &[u8]) -> String {
    let line = || -> Refused<String> {
        let mut r = Reader(input);
        let head: [u32; 7] = r.ws()?;
        must(3, [0, 1, 4, 5, 6].iter().all(|i| head[*i] <= 65536))?;
        let mut part = |i: usize| Ok::<_, u32>(r.bytes(head[i] as usize)?.to_vec());
        let c = Case { tape: part(0)?, bytes: part(1)?, start: head[2], end: head[3], replacement: part(4)?, rtape: part(5)?, rbytes: part(6)?, room: None };
        must(1, r.0.is_empty())?;
        Ok(in_room(merge_in_any_room(&c), [65536, 65536, WORK])?.line())
    };
    line().unwrap_or_else(|n| format!("refused {n}"))
}
