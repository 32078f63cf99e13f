//! A book as section 4 of document 01 has it, and its tape.
pub const NONE: u32 = u32::MAX;

#[derive(Clone, Debug, Default, PartialEq)]
pub struct Body {
    pub kind: u8,
    pub tag: u8,
    pub plain: [u32; 2],
    pub words: [u32; 6],
}

impl Body {
    pub fn new(kind: u8, tag: u8, words: &[u32]) -> Self {
        let mut all = [0; 6];
        all[..words.len()].copy_from_slice(words);
        Self { kind, tag, plain: [0; 2], words: all }
    }
}

#[derive(Clone, Debug, PartialEq)]
pub struct Seg {
    pub tag: u8,
    pub level: u8,
    pub body: Body,
}

/// tag, first word, second word
pub type Content = (u8, u32, u32);

#[derive(Clone, Debug, Default, PartialEq)]
pub struct Layer {
    pub strings: Vec<Vec<u8>>,
    pub contents: Vec<Content>,
    pub segments: Vec<Seg>,
}

#[derive(Clone, Debug, PartialEq)]
pub struct Node {
    pub class: u8,
    pub inline: u8,
    pub start: u32,
    pub end: u32,
    pub offset: u32,
    pub body: Body,
}

impl Node {
    pub fn padding(&self) -> u32 {
        match self.class {
            0 => 0,
            1 => 2,
            _ => 2 * u32::from(self.inline == 0),
        }
    }
    pub fn image(&self) -> u32 {
        3 + 2 * self.padding()
    }
    pub fn drift(&self) -> i64 {
        i64::from(self.image()) - (i64::from(self.end) - i64::from(self.start))
    }
}

#[derive(Clone, Debug, PartialEq)]
pub struct Pair {
    pub kind: u8,
    /// open start, open end, close start, close end
    pub at: [u32; 4],
}

#[derive(Clone, Debug, PartialEq)]
pub struct Container {
    pub plain: u32,
    pub open: u32,
    pub close: u32,
}

#[derive(Clone, Debug, PartialEq)]
pub struct Diagnostic {
    pub kind: u8,
    pub rank: u32,
    pub start: u32,
    pub end: u32,
    pub plain: u32,
}

impl Diagnostic {
    /// of no width
    pub fn is_mark(&self) -> bool {
        self.start == self.end
    }
}

#[derive(Clone, Debug, Default, PartialEq)]
pub struct Book {
    pub text: Vec<u8>,
    pub norm: Vec<u8>,
    pub layers: Vec<Layer>,
    pub nodes: Vec<Node>,
    pub pairs: Vec<Pair>,
    pub containers: Vec<Container>,
    pub diagnostics: Vec<Diagnostic>,
}

fn words(out: &mut Vec<u8>, ws: &[u32]) {
    for w in ws {
        out.extend_from_slice(&w.to_le_bytes());
    }
}

fn body(out: &mut Vec<u8>, b: &Body) {
    out.extend_from_slice(&[b.kind, b.tag]);
    words(out, &b.plain);
    words(out, &b.words);
}

impl Book {
    /// A text that is its own normalized text, one empty layer, no nodes.
    pub fn plain(text: &[u8]) -> Self {
        Self { text: text.to_vec(), norm: text.to_vec(), layers: vec![Layer::default()], ..Self::default() }
    }
    pub fn tape(&self) -> Vec<u8> {
        let mut out = vec![1];
        words(&mut out, &[self.text.len() as u32, self.norm.len() as u32]);
        for l in &self.layers {
            out.push(2);
            for s in &l.strings {
                out.push(3);
                words(&mut out, &[s.len() as u32]);
            }
            for &(tag, a, b) in &l.contents {
                out.extend_from_slice(&[4, tag]);
                words(&mut out, &[a, b]);
            }
            for s in &l.segments {
                out.extend_from_slice(&[5, s.tag, s.level]);
                body(&mut out, &s.body);
            }
        }
        for n in &self.nodes {
            out.extend_from_slice(&[6, n.class, n.inline]);
            words(&mut out, &[n.start, n.end, n.offset]);
            body(&mut out, &n.body);
        }
        for p in &self.pairs {
            out.extend_from_slice(&[7, p.kind]);
            words(&mut out, &p.at);
        }
        for c in &self.containers {
            out.push(8);
            words(&mut out, &[c.plain, c.open, c.close]);
        }
        for d in &self.diagnostics {
            out.extend_from_slice(&[9, d.kind]);
            words(&mut out, &[d.rank, d.start, d.end, d.plain]);
        }
        out.push(10);
        out
    }
    pub fn bytes(&self) -> Vec<u8> {
        let mut out = [&self.text[..], &self.norm[..]].concat();
        for s in self.layers.iter().flat_map(|l| &l.strings) {
            out.extend_from_slice(s);
        }
        out
    }
    /// The normalized text and the offsets that the nodes ask for; an offset is that of the sentinel.
    pub fn lay(&mut self) {
        let (mut out, mut at) = (Vec::new(), 0);
        for n in &mut self.nodes {
            out.extend_from_slice(&self.text[at..n.start as usize]);
            n.offset = out.len() as u32 + n.padding();
            let pad = n.padding() as usize;
            out.extend(std::iter::repeat_n(b'\n', pad));
            out.extend_from_slice(&[0xee, 0x80, 0x81 + n.class]);
            out.extend(std::iter::repeat_n(b'\n', pad));
            at = n.end as usize;
        }
        out.extend_from_slice(&self.text[at..]);
        self.norm = out;
    }
    /// How many marks of no width are at a place.
    pub fn marks_at(&self, place: usize) -> usize {
        self.diagnostics.iter().filter(|d| d.is_mark() && d.start as usize == place).count()
    }
    pub fn has_marks(&self) -> bool {
        self.diagnostics.iter().any(Diagnostic::is_mark)
    }
    pub fn strings(&self) -> usize {
        self.layers.iter().map(|l| l.strings.len()).sum()
    }
    pub fn contents(&self) -> usize {
        self.layers.iter().map(|l| l.contents.len()).sum()
    }
    pub fn segments(&self) -> usize {
        self.layers.iter().map(|l| l.segments.len()).sum()
    }
}

/// A tape and its byte buffer.
#[derive(Clone, Debug, PartialEq)]
pub struct Stored {
    pub tape: Vec<u8>,
    pub bytes: Vec<u8>,
}

impl Stored {
    pub fn of(b: &Book) -> Self {
        Self { tape: b.tape(), bytes: b.bytes() }
    }
}

/// What is lent: bytes for the tape, bytes for texts and strings, work words.
pub type Room = [usize; 3];

/// One call of the merge.
#[derive(Clone, Debug, PartialEq)]
pub struct Case {
    pub tape: Vec<u8>,
    pub bytes: Vec<u8>,
    pub start: u32,
    pub end: u32,
    pub replacement: Vec<u8>,
    pub rtape: Vec<u8>,
    pub rbytes: Vec<u8>,
    /// none: the comparison lends what the answer needs and a little more
    pub room: Option<Room>,
}

impl Case {
    pub fn new(old: &Book, start: u32, end: u32, replacement: &[u8], reading: &Book) -> Self {
        let (tape, bytes, rtape, rbytes) = (old.tape(), old.bytes(), reading.tape(), reading.bytes());
        Self { tape, bytes, start, end, replacement: replacement.to_vec(), rtape, rbytes, room: None }
    }
    /// the input of the program `merge`
    pub fn input(&self) -> Vec<u8> {
        let mut out = Vec::new();
        let n = |v: &Vec<u8>| v.len() as u32;
        words(&mut out, &[n(&self.tape), n(&self.bytes), self.start, self.end, n(&self.replacement), n(&self.rtape), n(&self.rbytes)]);
        for part in [&self.tape, &self.bytes, &self.replacement, &self.rtape, &self.rbytes] {
            out.extend_from_slice(part);
        }
        out
    }
}

/// Of an accepted merge.
#[derive(Clone, Debug, PartialEq)]
pub struct Answer {
    pub region: [u32; 2],
    pub reused: u32,
    pub reread: u32,
    pub counts: [u64; 7],
    pub tape: Vec<u8>,
    pub bytes: Vec<u8>,
}

impl Answer {
    /// the line of P5
    pub fn line(&self) -> String {
        format!(
            "region {} {} reused {} reread {} calls {} probes {}",
            self.region[0], self.region[1], self.reused, self.reread, self.counts[0], self.counts[6]
        )
    }
}

impl Case {
    /// None where the seven lengths and the parts do not fit.
    pub fn of_input(input: &[u8]) -> Option<Self> {
        let (head, mut rest) = input.split_at_checked(28)?;
        let w: Vec<u32> = head.chunks(4).map(|b| u32::from_le_bytes(b.try_into().unwrap())).collect();
        let mut part = |i: usize| {
            let (part, behind) = rest.split_at_checked(w[i] as usize)?;
            rest = behind;
            Some(part.to_vec())
        };
        let (tape, bytes, replacement, rtape, rbytes) = (part(0)?, part(1)?, part(4)?, part(5)?, part(6)?);
        rest.is_empty().then_some(Self { tape, bytes, start: w[2], end: w[3], replacement, rtape, rbytes, room: None })
    }
}
