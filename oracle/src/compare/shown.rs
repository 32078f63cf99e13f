//! What a book shows (document 01, section 7, "Equal books"): both texts, the nodes with their trees, the other lists. An id stands as its string, a missing
//! one as missing, a range as the list of items it names. Written as bytes that two books share exactly if they show the same: each part begins with what it
//! is, strings and lists with their lengths.
use crate::book::*;
use crate::doc01::{Form, Pools, fields};

struct Out<'a> {
    pools: Pools<'a>,
    bytes: Vec<u8>,
}

impl Out<'_> {
    fn words(&mut self, ws: &[u32]) {
        ws.iter().for_each(|w| self.bytes.extend_from_slice(&w.to_le_bytes()));
    }
    fn list(&mut self, what: u8, len: usize) {
        self.bytes.push(what);
        self.words(&[len as u32]);
    }
    fn raw(&mut self, s: &[u8]) {
        self.list(b's', s.len());
        self.bytes.extend_from_slice(s);
    }
    fn string(&mut self, id: u32) {
        let s = self.pools.strings[id as usize];
        self.raw(s);
    }
    fn contents(&mut self, start: u32, len: u32) {
        self.list(b'c', len as usize);
        for i in start..start + len {
            match *self.pools.contents(i, 1)[0] {
                (0, id, _) => self.string(id),
                (_, start, len) => self.segments(start, len),
            }
        }
    }
    fn segments(&mut self, start: u32, len: u32) {
        self.list(b'g', len as usize);
        for i in start..start + len {
            let s = self.pools.segments(i, 1)[0];
            self.bytes.extend_from_slice(&[s.tag, s.level]);
            self.body(&s.body);
        }
    }
    /// words that are no id and no range stand as they are
    fn body(&mut self, b: &Body) {
        self.bytes.extend_from_slice(&[b'b', b.kind, b.tag]);
        self.words(&b.plain);
        let mut rest = b.words;
        for (form, i) in fields(b) {
            self.bytes.push(i as u8);
            match form {
                Form::Missing if b.words[i] == NONE => self.bytes.push(b'm'),
                Form::Id | Form::Missing => self.string(b.words[i]),
                Form::Contents => self.contents(b.words[i], b.words[i + 1]),
                Form::Segments => self.segments(b.words[i], b.words[i + 1]),
            }
            rest[i] = 0;
            if matches!(form, Form::Contents | Form::Segments) {
                rest[i + 1] = 0;
            }
        }
        self.words(&rest);
    }
}

/// `b` has passed numbers 1 to 7, and its trees are not too large to be written (`doc01::adds`).
pub fn shown(b: &Book) -> Vec<u8> {
    let mut out = Out { pools: Pools::of(b), bytes: vec![] };
    out.raw(&b.text);
    out.raw(&b.norm);
    out.list(b'n', b.nodes.len());
    for n in &b.nodes {
        out.bytes.extend_from_slice(&[n.class, n.inline]);
        out.words(&[n.start, n.end, n.offset]);
        if n.class < 2 {
            out.body(&n.body);
        } else {
            out.bytes.extend_from_slice(&[b'o', n.body.kind, n.body.tag]);
            out.words(&n.body.plain);
            out.words(&n.body.words);
        }
    }
    out.list(b'p', b.pairs.len());
    for p in &b.pairs {
        out.bytes.push(p.kind);
        out.words(&p.at);
    }
    out.list(b'k', b.containers.len());
    for c in &b.containers {
        out.words(&[c.plain, c.open, c.close]);
    }
    out.list(b'd', b.diagnostics.len());
    for d in &b.diagnostics {
        out.bytes.push(d.kind);
        out.words(&[d.rank, d.start, d.end, d.plain]);
    }
    out.bytes
}

/// None where the tape is no book, or where its trees are too large to be written.
pub fn shown_of(tape: &[u8], bytes: &[u8]) -> Option<Vec<u8>> {
    let b = crate::doc01::read(tape, bytes).ok()?;
    crate::doc01::adds(&b).iter().all(|n| *n <= crate::run::MOST).then(|| shown(&b))
}
