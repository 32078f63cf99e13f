//! Damages, each with the number that document 01 gives to it where nothing with a lower number is wrong.
use crate::book::*;
use crate::books::Rng;

/// A book and what is wrong with its tape or its bytes as such.
#[derive(Clone, Debug)]
pub struct Damaged {
    pub book: Book,
    pub raw_tape: Option<Vec<u8>>,
    pub raw_bytes: Option<Vec<u8>>,
}

impl Damaged {
    pub fn of(book: Book) -> Self {
        Self { book, raw_tape: None, raw_bytes: None }
    }
    pub fn tape(&self) -> Vec<u8> {
        self.raw_tape.clone().unwrap_or_else(|| self.book.tape())
    }
    pub fn bytes(&self) -> Vec<u8> {
        self.raw_bytes.clone().unwrap_or_else(|| self.book.bytes())
    }
}

/// None where the book has nothing that could be damaged so.
pub type Damage = fn(&mut Rng, &mut Damaged) -> Option<()>;

fn some<'a, T>(r: &mut Rng, of: &'a mut [T], ok: impl Fn(&T) -> bool) -> Option<&'a mut T> {
    let places: Vec<usize> = (0..of.len()).filter(|i| ok(&of[*i])).collect();
    if places.is_empty() { None } else { Some(&mut of[*r.pick(&places)]) }
}

fn node<'a>(r: &mut Rng, d: &'a mut Damaged, ok: impl Fn(&Node) -> bool) -> Option<&'a mut Node> {
    some(r, &mut d.book.nodes, ok)
}

fn layer<'a>(r: &mut Rng, d: &'a mut Damaged, ok: impl Fn(&Layer) -> bool) -> Option<&'a mut Layer> {
    some(r, &mut d.book.layers, ok)
}

fn segment<'a>(r: &mut Rng, d: &'a mut Damaged, ok: impl Fn(&Seg) -> bool + Copy) -> Option<&'a mut Seg> {
    let l = layer(r, d, |l| l.segments.iter().any(ok))?;
    some(r, &mut l.segments, ok)
}

fn content<'a>(r: &mut Rng, d: &'a mut Damaged, ok: impl Fn(&Content) -> bool + Copy) -> Option<&'a mut Content> {
    let l = layer(r, d, |l| l.contents.iter().any(ok))?;
    some(r, &mut l.contents, ok)
}

/// the body of a segment or of a node of class 0 or 1
fn body<'a>(r: &mut Rng, d: &'a mut Damaged, ok: impl Fn(&Body) -> bool + Copy) -> Option<&'a mut Body> {
    if d.book.nodes.iter().any(|n| n.class < 2 && ok(&n.body)) && r.chance(60) {
        return node(r, d, |n| n.class < 2 && ok(&n.body)).map(|n| &mut n.body);
    }
    segment(r, d, |s| ok(&s.body)).map(|s| &mut s.body)
}

/// words of a body that are ids, that may be missing, that begin a range of contents, of segments
fn words(b: &Body) -> [&'static [usize]; 4] {
    match (b.kind, b.tag) {
        (1 | 15, _) => [&[], &[], &[0, 2], &[]],
        (2, t) if t % 4 > 1 => [&[2], &[], &[0], &[]],
        (2 | 9 | 14, _) => [&[], &[], &[0], &[]],
        (3, 2) => [&[0], &[1], &[], &[]],
        (11, 0) => [&[0], &[1, 2, 3], &[], &[]],
        (11, 1) => [&[0, 4], &[1, 2, 3], &[], &[]],
        (11, _) => [&[0], &[1, 2, 3], &[], &[4]],
        (0 | 3 | 10 | 12 | 13, _) => [&[0], &[], &[], &[]],
        _ => [&[], &[], &[], &[]],
    }
}

fn word<'a>(r: &mut Rng, d: &'a mut Damaged, which: usize) -> Option<&'a mut [u32]> {
    let b = body(r, d, |b| !words(b)[which].is_empty())?;
    let i = *r.pick(words(b)[which]);
    Some(&mut b.words[i..])
}

fn unused(b: &Body) -> Vec<usize> {
    let [ids, missing, contents, segments] = words(b);
    let ranges = contents.iter().chain(segments).flat_map(|i| [*i, *i + 1]);
    let used: Vec<usize> = ids.iter().chain(missing).copied().chain(ranges).collect();
    (0..6).filter(|i| !used.contains(i)).collect()
}

/// nothing where the range is damaged already
fn part<T>(of: &[T], start: u32, len: u32) -> &[T] {
    of.get(start as usize..start as usize + len as usize).unwrap_or(&[])
}

fn counts(b: &Book) -> [u32; 3] {
    [b.strings() as u32, b.contents() as u32, b.segments() as u32]
}

/// where the first layer with items ends, if another has items too
fn first_end(sizes: Vec<usize>) -> Option<u32> {
    let first = sizes.iter().position(|n| *n > 0)?;
    let more = sizes[first + 1..].iter().any(|n| *n > 0);
    more.then(|| sizes[..=first].iter().sum::<usize>() as u32)
}

#[rustfmt::skip]
pub const ALL: &[(&str, u32, Damage)] = &[
    ("bytes behind the end", 1, |r, d| { let mut t = d.book.tape(); t.push(*r.pick(&[0, 10, 9, 1])); d.raw_tape = Some(t); Some(()) }),
    ("tape cut short", 1, |r, d| { let mut t = d.book.tape(); let n = t.len(); t.truncate(n - r.within(1, 5.min(n))); d.raw_tape = Some(t); Some(()) }),
    ("no tape", 1, |_, d| { d.raw_tape = Some(vec![]); Some(()) }),
    ("no layer", 1, |_, d| { d.book.layers.clear(); Some(()) }),
    ("class 4", 1, |r, d| { node(r, d, |_| true)?.class = *r.pick(&[4, 255]); Some(()) }),
    ("inline 2", 1, |r, d| { node(r, d, |n| n.class > 1)?.inline = *r.pick(&[2, 255]); Some(()) }),
    ("inline 1 in class 0 or 1", 1, |r, d| { node(r, d, |n| n.class < 2)?.inline = 1; Some(()) }),
    ("kind 16", 1, |r, d| { body(r, d, |_| true)?.kind = *r.pick(&[16, 255]); Some(()) }),
    ("kind 0 of an inline node", 1, |r, d| { node(r, d, |n| n.class < 2)?.body = Body::default(); Some(()) }),
    ("kind of a block", 1, |r, d| { node(r, d, |n| n.class > 1)?.body.kind = *r.pick(&[5, 7]); Some(()) }),
    ("tag", 1, |r, d| { let b = body(r, d, |_| true)?; b.tag = match b.kind { 2 => 16, 3 | 11 => 3, 13 => 14, _ => 1 }; Some(()) }),
    ("an unused word", 1, |r, d| { let b = body(r, d, |b| !unused(b).is_empty())?; b.words[*r.pick(&unused(b))] = *r.pick(&[1, 256, NONE]); Some(()) }),
    ("a word of a block", 1, |r, d| { node(r, d, |n| n.class > 1)?.body.words[r.below(6)] = 1; Some(()) }),
    ("content tag", 1, |r, d| { content(r, d, |_| true)?.0 = *r.pick(&[2, 255]); Some(()) }),
    ("second word of a Plain", 1, |r, d| { content(r, d, |c| c.0 == 0)?.2 = 1; Some(()) }),
    ("segment tag", 1, |r, d| { segment(r, d, |_| true)?.tag = *r.pick(&[4, 255]); Some(()) }),
    ("kind of a segment", 1, |r, d| { let s = segment(r, d, |s| s.tag < 3)?; s.tag = (s.tag + 1) % 3; Some(()) }),
    ("kind 0 of a Node segment", 1, |r, d| { segment(r, d, |s| s.tag == 0)?.tag = 3; Some(()) }),
    ("pair kind", 1, |r, d| { some(r, &mut d.book.pairs, |_| true)?.kind = *r.pick(&[5, 255]); Some(()) }),
    ("diagnostic kind", 1, |r, d| { some(r, &mut d.book.diagnostics, |_| true)?.kind = *r.pick(&[5, 255]); Some(()) }),
    ("a byte too many", 1, |_, d| { let mut b = d.book.bytes(); b.push(b'a'); d.raw_bytes = Some(b); Some(()) }),
    ("a byte too few", 1, |_, d| { let mut b = d.book.bytes(); b.pop()?; d.raw_bytes = Some(b); Some(()) }),
    ("the first command twice", 1, |_, d| { let t = d.book.tape(); d.raw_tape = Some([&t[..9], &t[..]].concat()); Some(()) }),
    ("containers behind diagnostics", 1, |_, d| {
        let (t, n, m) = (d.book.tape(), 13 * d.book.containers.len(), 18 * d.book.diagnostics.len());
        if n == 0 || m == 0 { return None; }
        let at = t.len() - 1 - n - m;
        d.raw_tape = Some([&t[..at], &t[at + n..at + n + m], &t[at..at + n], &[10]].concat()); Some(())
    }),
    ("a string behind the contents", 1, |_, d| {
        let l = d.book.layers.first().filter(|l| !l.strings.is_empty() && !l.contents.is_empty() && l.segments.is_empty())?;
        let (t, n, m) = (d.book.tape(), 5 * l.strings.len(), 10 * l.contents.len());
        d.raw_tape = Some([&t[..10], &t[10 + n..10 + n + m], &t[10..10 + n], &t[10 + n + m..]].concat()); Some(())
    }),
    ("text", 2, |r, d| { *d.book.text.first_mut()? = *r.pick(&[0xff, 0x80, 0xc0, 0xf5, 0xfe]); Some(()) }),
    ("normalized text", 2, |r, d| { *d.book.norm.last_mut()? = *r.pick(&[0xe3, 0xc3, 0xf0]); Some(()) }),
    ("string", 2, |r, d| { let l = layer(r, d, |l| l.strings.iter().any(|s| !s.is_empty()))?; some(r, &mut l.strings, |s| !s.is_empty())?[0] = *r.pick(&[0xbf, 0xfe, 0xc1]); Some(()) }),
    ("surrogates, overlong forms, over 10FFFF", 2, |r, d| {
        let s: &[u8] = *r.pick(&[&b"\xed\xa0\x80"[..], b"\xe0\x80\xaf", b"\xf4\x90\x80\x80", b"\xc0\x80", b"\xf0\x8f\xbf\xbf", b"\xed\xbf\xbf"]);
        d.book.layers.last_mut()?.strings.push(s.to_vec()); Some(())
    }),
    ("a character in two strings", 2, |_, d| { d.book.layers.last_mut()?.strings.extend([vec![0xe6, 0xbc], vec![0xa2]]); Some(()) }),
    ("33 layers", 3, |r, d| { let n = d.book.layers.len(); d.book.layers.resize(33 + r.below(3).max(n.saturating_sub(33)), Layer::default()); Some(()) }),
    ("id", 4, |r, d| { let n = counts(&d.book)[0]; word(r, d, 0)?[0] = *r.pick(&[n, NONE, n + 65536]); Some(()) }),
    ("id that may be missing", 4, |r, d| { let n = counts(&d.book)[0]; word(r, d, 1)?[0] = *r.pick(&[n, NONE - 1]); Some(()) }),
    ("range of contents", 4, |r, d| { let n = counts(&d.book)[1]; let w = *r.pick(&[[n, 1], [0, n + 1], [n + 1, 0], [NONE, 0], [1, NONE], [NONE, NONE]]); word(r, d, 2)?[..2].copy_from_slice(&w); Some(()) }),
    ("range of segments", 4, |r, d| { let n = counts(&d.book)[2]; let w = *r.pick(&[[n, 1], [0, n + 1], [n + 1, 0], [NONE, 1]]); word(r, d, 3)?[..2].copy_from_slice(&w); Some(()) }),
    ("content", 4, |r, d| { let [n, _, m] = counts(&d.book); *content(r, d, |_| true)? = *r.pick(&[(0, n, 0), (1, m, 1), (1, m + 1, 0), (0, NONE, 0), (1, NONE, NONE)]); Some(()) }),
    ("contents across layers", 4, |r, d| { let end = first_end(d.book.layers.iter().map(|l| l.contents.len()).collect())?; word(r, d, 2)?[..2].copy_from_slice(&[end - 1, 2]); Some(()) }),
    ("segments across layers", 4, |r, d| { let end = first_end(d.book.layers.iter().map(|l| l.segments.len()).collect())?; *content(r, d, |_| true)? = (1, end - 1, 2); Some(()) }),
    ("level of a text", 5, |r, d| { segment(r, d, |s| s.tag < 3)?.level = *r.pick(&[1, 32, 255]); Some(()) }),
    ("level 0", 5, |r, d| { segment(r, d, |s| s.tag == 3)?.level = 0; Some(()) }),
    ("level 33", 5, |r, d| { segment(r, d, |s| s.tag == 3)?.level = *r.pick(&[33, 255]); Some(()) }),
    ("level of an inner run", 5, |r, d| {
        let all: Vec<Seg> = d.book.layers.iter().flat_map(|l| l.segments.clone()).collect();
        let named: Vec<Content> = d.book.layers.iter().flat_map(|l| l.contents.clone()).collect();
        let high = |b: &Body| -> u8 {
            let runs = words(b)[2].iter().flat_map(|i| part(&named, b.words[*i], b.words[*i + 1])).filter(|c| c.0 == 1).map(|c| (c.1, c.2));
            let caption = words(b)[3].iter().map(|i| (b.words[*i], b.words[*i + 1]));
            runs.chain(caption).flat_map(|(a, n)| part(&all, a, n)).map(|s| s.level).max().unwrap_or(0)
        };
        let s = segment(r, d, |s| s.tag == 3 && high(&s.body) > 0)?;
        s.level = high(&s.body); Some(())
    }),
    ("empty node", 6, |r, d| { let n = node(r, d, |_| true)?; n.end = n.start; Some(()) }),
    ("node that ends before it starts", 6, |r, d| { let n = node(r, d, |n| n.start > 0)?; n.end = n.start - 1; Some(()) }),
    ("node past the text", 6, |r, d| { let n = d.book.text.len() as u32; d.book.nodes.last_mut()?.end = *r.pick(&[n + 1, NONE]); Some(()) }),
    ("nodes that overlap", 6, |_, d| { if d.book.nodes.len() < 2 { return None; } d.book.nodes[1].start = d.book.nodes[0].end.saturating_sub(1); Some(()) }),
    ("nodes out of order", 6, |_, d| { if d.book.nodes.len() < 2 { return None; } d.book.nodes.swap(0, 1); Some(()) }),
    ("offset outside the image", 6, |r, d| {
        if d.book.nodes.is_empty() { return None; }
        let i = r.below(d.book.nodes.len());
        let at = i64::from(d.book.nodes[i].start) + d.book.nodes[..i].iter().map(Node::drift).sum::<i64>();
        let behind = at + i64::from(d.book.nodes[i].image());
        d.book.nodes[i].offset = *r.pick(&[if at > 0 { at - 1 } else { behind }, behind, i64::from(NONE)]) as u32; Some(())
    }),
    ("pair", 6, |r, d| {
        let n = d.book.text.len() as u32;
        let p = some(r, &mut d.book.pairs, |_| true)?;
        let [a, e, c, z] = p.at;
        p.at = *r.pick(&[[a, a, c, z], [a, e, c, c], [a, c.saturating_add(1), c, c.saturating_add(1)], [a, e, c, n + 1], [c, z, a, e], [a, e, c, NONE]]); Some(())
    }),
    ("container", 6, |r, d| {
        let n = d.book.norm.len() as u32;
        let c = some(r, &mut d.book.containers, |_| true)?;
        (c.open, c.close) = *r.pick(&[(c.open, c.open), (c.open, n), (c.close, c.open), (c.open, NONE)]); Some(())
    }),
    ("diagnostic that ends before it starts", 6, |r, d| {
        let x = some(r, &mut d.book.diagnostics, |_| true)?;
        let at = x.end.max(1);
        (x.start, x.end) = *r.pick(&[(at, at - 1), (at, 0), (NONE, at)]); Some(())
    }),
    ("diagnostic past the text", 6, |r, d| {
        let n = d.book.text.len() as u32;
        let x = some(r, &mut d.book.diagnostics, |_| true)?;
        (x.start, x.end) = *r.pick(&[(x.start, n + 1), (n, n + 1), (x.start, NONE)]); Some(())
    }),
    ("mark past the text", 6, |r, d| {
        let (n, at) = (d.book.text.len() as u32, r.within(0, d.book.diagnostics.len()));
        let place = *r.pick(&[n + 1, n + 1, NONE]);
        d.book.diagnostics.insert(at, Diagnostic { kind: 0, rank: r.word(), start: place, end: place, plain: 0 }); Some(())
    }),
    ("normalized length", 7, |r, d| { let s = *r.pick(&["a", "\n", "漢"]); d.book.norm.extend_from_slice(s.as_bytes()); Some(()) }),
    ("normalized length, one less", 7, |_, d| {
        if d.book.norm.last()? & 0x80 != 0 || d.book.containers.iter().any(|c| c.close as usize + 1 == d.book.norm.len()) { return None; }
        d.book.norm.pop(); Some(())
    }),
];
