//! Books, edits and readings from a seed.
use crate::book::*;

/// splitmix64
#[derive(Clone)]
pub struct Rng(u64);

impl Rng {
    pub fn new(seed: u64, place: u64) -> Self {
        let mut r = Self(seed.wrapping_mul(0x9e37_79b9_7f4a_7c15) ^ place.wrapping_mul(0xd1b5_4a32_d192_ed03));
        r.next();
        r
    }
    pub fn next(&mut self) -> u64 {
        self.0 = self.0.wrapping_add(0x9e37_79b9_7f4a_7c15);
        let z = (self.0 ^ (self.0 >> 30)).wrapping_mul(0xbf58_476d_1ce4_e5b9);
        let z = (z ^ (z >> 27)).wrapping_mul(0x94d0_49bb_1331_11eb);
        z ^ (z >> 31)
    }
    pub fn below(&mut self, n: usize) -> usize {
        (self.next() % n as u64) as usize
    }
    /// both ends are possible
    pub fn within(&mut self, least: usize, most: usize) -> usize {
        least + self.below(most - least + 1)
    }
    pub fn chance(&mut self, percent: usize) -> bool {
        self.below(100) < percent
    }
    pub fn pick<'a, T>(&mut self, of: &'a [T]) -> &'a T {
        &of[self.below(of.len())]
    }
    pub fn word(&mut self) -> u32 {
        let any = self.next() as u32;
        *self.pick(&[0, 1, 2, 3, 250, 65536, NONE, any, any % 256])
    }
}

/// What the books of a class are like.
#[derive(Clone, Debug)]
pub struct Profile {
    pub name: &'static str,
    pub layers: [usize; 2],
    pub chars: &'static [&'static str],
    pub passages: [usize; 2],
    /// strings, contents and segments of a layer, at most
    pub pools: [usize; 3],
    pub strings: Strings,
    pub kinds: &'static [u8],
    /// of 100 contents, how many are Plain
    pub plain: usize,
    pub levels: &'static [u8],
    pub nodes: usize,
    /// pairs and containers, diagnostics at most
    pub others: [usize; 2],
    /// of 100 books, how many have a normalized text of their length that is not made from the nodes
    pub foreign: usize,
    pub edges: bool,
    /// how many contents and segments a reading's graft adds, at most
    pub graft: u64,
}

#[derive(Clone, Copy, Debug, PartialEq)]
pub enum Strings {
    Few,
    Dependent,
    Colliding,
    Long,
    /// unlike ones, so many that the table grows
    Many,
    /// so many, and unlike those of every other layer
    Fresh,
}

const CHARS: &[&str] = &["a", "b", "x", " ", "漢", "字", "あ", "é", "𠮷", "《", "》", "\r", "\u{0}"];
const KINDS: &[u8] = &[1, 1, 1, 2, 2, 2, 3, 4, 5, 6, 7, 8, 9, 10, 11, 11, 12, 13, 13, 14, 15];
const SHORT: &[&str] = &["", "a", "b", "ab", "x", "漢", "字", "あ", "\u{0}", "é", "\u{1}", "ba", "c", "d", "e", "漢字", "𠮷"];

const MIXED: Profile = Profile {
    name: "mixed",
    layers: [1, 3],
    chars: CHARS,
    passages: [1, 8],
    pools: [5, 5, 4],
    strings: Strings::Few,
    kinds: KINDS,
    plain: 60,
    levels: &[1, 1, 2, 2, 3, 5, 31, 32],
    nodes: 9,
    others: [3, 6],
    foreign: 8,
    edges: false,
    graft: 120,
};

pub fn profiles() -> Vec<Profile> {
    vec![
        MIXED,
        Profile { name: "1 to 32 layers", layers: [1, 32], pools: [2, 2, 2], ..MIXED },
        Profile { name: "levels up to 32", pools: [3, 60, 60], kinds: &[1, 2, 9, 11, 14, 15], plain: 10, levels: &[], nodes: 5, graft: 900, ..MIXED },
        Profile { name: "blank lines", chars: &["a", "\n", "\n", "あ"], passages: [1, 6], nodes: 4, ..MIXED },
        Profile { name: "rubies and formats", strings: Strings::Dependent, plain: 95, pools: [4, 6, 1], nodes: 16, passages: [3, 9], foreign: 1, ..MIXED },
        Profile { name: "strings that share slots", strings: Strings::Colliding, pools: [9, 9, 2], kinds: &[1, 14, 15, 9], plain: 90, ..MIXED },
        Profile { name: "strings of 0 to 65 bytes", strings: Strings::Long, pools: [8, 9, 3], plain: 70, ..MIXED },
        Profile { name: "tables that grow", layers: [1, 2], strings: Strings::Many, pools: [1300, 1300, 2], kinds: &[14, 1, 9], plain: 99, passages: [2, 4], nodes: 6, others: [1, 1], graft: 4000, ..MIXED },
        Profile { name: "pairs, containers, diagnostics", others: [12, 60], nodes: 5, passages: [2, 8], ..MIXED },
        Profile { name: "text start and end", passages: [0, 3], nodes: 3, edges: true, ..MIXED },
        Profile { name: "blocks and warichu", kinds: &[13], nodes: 12, passages: [3, 9], others: [1, 1], ..MIXED },
        Profile { name: "foreign normalized text", foreign: 90, chars: &["漢", "é", "𠮷", "a"], ..MIXED },
    ]
}

/// Its flat layers come to 3583 strings and over.
pub const FRESH: Profile =
    Profile { name: "strings of one layer alone", layers: [1, 2], strings: Strings::Fresh, pools: [3000, 3000, 2], kinds: &[14, 1, 9], plain: 99, passages: [16, 20], nodes: 6, others: [1, 1], graft: 8000, ..MIXED };

pub struct Gen<'a> {
    pub r: Rng,
    pub p: &'a Profile,
    /// the kinds of this book's bodies
    kinds: &'static [u8],
}

impl<'a> Gen<'a> {
    pub fn new(r: Rng, p: &'a Profile) -> Self {
        Self { r, p, kinds: p.kinds }
    }
}

pub fn boundaries(text: &[u8]) -> Vec<usize> {
    (0..=text.len()).filter(|i| text.get(*i).is_none_or(|b| b & 0xc0 != 0x80)).collect()
}

/// The places behind some bytes: newlines, or the blank lines at which passages may be cut.
pub fn behind(text: &[u8], what: &[u8]) -> Vec<usize> {
    (0..=text.len()).filter(|i| text[..*i].ends_with(what)).collect()
}

fn hash(s: &[u8]) -> u64 {
    s.iter().fold(0_u64, |h, b| (h.rotate_left(5) ^ u64::from(*b)).wrapping_mul(0x517c_c1b7_2722_0a95))
}

/// Strings whose first slots of 256 are 253 to 255, 0 and 1: probes that go on, also around the table's end.
fn colliding() -> Vec<Vec<u8>> {
    let two = |i: u8, j: u8| vec![i, j];
    let all: Vec<Vec<u8>> = (b'a'..=b'z').flat_map(|i| (b'a'..=b'z').map(move |j| two(i, j))).collect();
    let with = |slot: u64, n: usize| all.iter().filter(|s| hash(s) % 256 == slot).take(n).cloned().collect::<Vec<_>>();
    [with(255, 5), with(254, 3), with(253, 2), with(0, 3), with(1, 1)].concat()
}

impl Gen<'_> {
    fn plain(&mut self) -> [u32; 2] {
        if self.r.chance(50) { [self.r.word(), self.r.word()] } else { [0, 0] }
    }

    pub fn text(&mut self) -> Vec<u8> {
        let mut out = String::new();
        for _ in 0..self.r.within(self.p.passages[0], self.p.passages[1]) {
            for _ in 0..self.r.below(6) {
                out.push_str(*self.r.pick(self.p.chars));
            }
            out.push_str(*self.r.pick(&["\n\n", "\n\n", "\n\n", "\n", "\n\n\n", ""]));
        }
        out.into_bytes()
    }

    fn string(&mut self, place: usize, collide: &[Vec<u8>]) -> Vec<u8> {
        match self.p.strings {
            Strings::Colliding => self.r.pick(collide).clone(),
            Strings::Dependent => self.r.pick(&["a", "b", "漢", "a", "", "a"]).as_bytes().to_vec(),
            Strings::Many if !self.r.chance(10) => format!("{:x}", place * 7 % 5000).into_bytes(),
            Strings::Fresh => format!("{:x}", self.r.next() as u32).into_bytes(),
            Strings::Long => match self.r.below(9) {
                0 => vec![],
                1 => vec![self.r.below(128) as u8],
                2 => vec![b'a'; 63],
                3 => vec![*self.r.pick(b"ab"); 64],
                4 | 5 => vec![*self.r.pick(b"ab"); 65],
                6 => "漢".repeat(22).into_bytes(),
                7 => [&[b'a'; 64][..], &[*self.r.pick(b"xyz")]].concat(),
                _ => vec![0; self.r.within(60, 70)],
            },
            _ if self.r.chance(5) => self.r.pick(&[&"a".repeat(64), &"a".repeat(65), &"漢".repeat(22)]).as_bytes().to_vec(),
            _ => self.r.pick(SHORT).as_bytes().to_vec(),
        }
    }

    /// counts of a pool for each layer
    fn counts(&mut self, layers: usize, most: usize) -> Vec<usize> {
        (0..layers).map(|_| if most > 20 { self.r.within(most / 3, most) } else { *self.r.pick(&[0, 1.min(most), 2.min(most), 3.min(most), most, most]) }).collect()
    }

    /// a range inside one layer, or an empty one
    fn range_in(&mut self, counts: &[usize], most: usize) -> (u32, u32) {
        let total: usize = counts.iter().sum();
        if total == 0 || self.r.chance(10) {
            return (self.r.within(0, total) as u32, 0);
        }
        let start = self.r.below(total);
        let mut end = 0;
        for n in counts {
            end += n;
            if start < end {
                break;
            }
        }
        let most = if self.r.chance(3) { end - start } else { most.min(end - start) };
        (start as u32, self.r.within(1, most) as u32)
    }
}

/// The pools while they are made, numbered across the layers.
struct Pools {
    counts: [Vec<usize>; 3],
    contents: Vec<Content>,
    segments: Vec<Seg>,
}

impl Pools {
    fn strings(&self) -> usize {
        self.counts[0].iter().sum()
    }
    fn high(&self, start: u32, len: u32) -> u8 {
        self.segments[start as usize..(start + len) as usize].iter().map(|s| s.level).max().unwrap_or(0)
    }
    /// whether a body of this level may name the run; a Node's level is above all in it, text segments have 0
    fn below(&self, start: u32, len: u32, level: u8) -> bool {
        len == 0 || self.high(start, len) < level
    }
}

impl Gen<'_> {
    fn content_range(&mut self, p: &Pools, level: u8) -> [u32; 2] {
        let most = match self.p.strings {
            Strings::Many => 1300,
            Strings::Fresh => 3000,
            Strings::Colliding | Strings::Long => 6,
            Strings::Dependent => 1,
            _ => 1 + self.r.below(2) * self.r.below(3),
        };
        let deep = self.p.levels.is_empty();
        let mut best: Option<([u32; 2], u8)> = None;
        for _ in 0..if deep { 60 } else { 10 } {
            let (a, n) = self.range_in(&p.counts[1], most);
            let named = &p.contents[a as usize..(a + n) as usize];
            if named.iter().all(|c| c.0 == 0 || p.below(c.1, c.2, level)) {
                if !deep {
                    return [a, n];
                }
                let high = named.iter().map(|c| if c.0 == 1 { 1 + p.high(c.1, c.2) } else { 0 }).max().unwrap_or(0);
                if best.is_none_or(|b| b.1 < high) {
                    best = Some(([a, n], high));
                }
            }
        }
        best.map_or([self.r.within(0, p.contents.len()) as u32, 0], |b| b.0)
    }
    fn segment_range(&mut self, p: &Pools, level: u8) -> [u32; 2] {
        for _ in 0..10 {
            let (a, n) = self.range_in(&p.counts[2], 2);
            if p.below(a, n, level) {
                return [a, n];
            }
        }
        [self.r.within(0, p.segments.len()) as u32, 0]
    }
    fn id(&mut self, p: &Pools) -> u32 {
        self.r.below(p.strings()) as u32
    }
    fn maybe(&mut self, p: &Pools) -> u32 {
        if self.r.chance(60) { self.id(p) } else { NONE }
    }

    fn body(&mut self, p: &Pools, kind: Option<u8>, level: u8) -> Body {
        let plain = self.plain();
        let mut kind = kind.unwrap_or_else(|| *self.r.pick(self.kinds));
        if p.strings() == 0 && [3, 10, 11, 12, 13].contains(&kind) {
            kind = *self.r.pick(&[1, 4, 5, 6, 7, 8, 9, 14, 15]);
        }
        let mut tag = 0;
        let mut words = vec![];
        match kind {
            1 | 15 => {
                words.extend(self.content_range(p, level));
                words.extend(self.content_range(p, level));
            }
            2 => {
                let origin = if self.p.strings == Strings::Dependent { *self.r.pick(&[1, 1, 1, 0]) } else { self.r.below(4) as u8 };
                tag = 4 * origin + self.r.below(if p.strings() > 0 { 4 } else { 2 }) as u8;
                words.extend(self.content_range(p, level));
                if tag % 4 > 1 {
                    words.push(self.id(p));
                }
            }
            3 => {
                tag = self.r.below(3) as u8;
                words.push(self.id(p));
                if tag == 2 {
                    words.push(self.maybe(p));
                }
            }
            9 | 14 => words.extend(self.content_range(p, level)),
            10 | 12 => words.push(self.id(p)),
            11 => {
                tag = self.r.below(3) as u8;
                words.extend([self.id(p), self.maybe(p), self.maybe(p), self.maybe(p)]);
                match tag {
                    1 => words.push(self.id(p)),
                    2 => words.extend(self.segment_range(p, level)),
                    _ => {}
                }
            }
            13 => {
                tag = if self.r.chance(50) { self.r.below(14) as u8 } else { *self.r.pick(&[4, 5]) };
                words.push(self.id(p));
            }
            _ => {}
        }
        Body { plain, ..Body::new(kind, tag, &words) }
    }

    /// The level of the segment at a place of a pool.
    fn level(&mut self, place: usize) -> u8 {
        if self.p.levels.is_empty() { 32.min(place as u8 % 36 + 1) } else { *self.r.pick(self.p.levels) }
    }

    fn pools(&mut self, layers: usize) -> (Pools, Vec<Layer>) {
        if self.p.strings == Strings::Dependent {
            self.kinds = *self.r.pick(&[&[1][..], &[2], &[1, 2], &[1, 2, 14], &[2, 14]]);
        }
        let [ns, mut nc, mut ng] = self.p.pools.map(|most| self.counts(layers, most));
        if ns.iter().sum::<usize>() == 0 {
            nc.fill(0);
            ng.fill(0);
        }
        let deep = self.p.levels.is_empty() && ns.iter().sum::<usize>() > 0;
        let (contents, segments) = (nc.iter().sum::<usize>(), ng.iter().sum::<usize>());
        let mut p = Pools { counts: [ns, nc, ng], contents: vec![], segments: vec![] };
        for i in 0..segments {
            let tag = if self.p.levels.is_empty() && i > 1 { *self.r.pick(&[3, 3, 3, 3, 3, 0]) } else { *self.r.pick(&[0, 0, 1, 2, 3, 3]) };
            let level = if tag == 3 { self.level(i) } else { 0 };
            p.segments.push(Seg { tag, level, body: Body::default() });
        }
        for _ in 0..contents {
            let plain = self.r.chance(self.p.plain);
            let (tag, (a, b)) = if plain { (0, (self.id(&p), 0)) } else { (1, self.range_in(&p.counts[2].clone(), 1 + self.r.clone().below(2))) };
            p.contents.push((tag, a, b));
        }
        for i in 0..segments {
            let (tag, level) = (p.segments[i].tag, p.segments[i].level);
            p.segments[i].body = match tag {
                0 => Body { plain: self.plain(), ..Body::new(0, 0, &[self.id(&p)]) },
                1 => self.body(&p, Some(3), 0),
                2 => self.body(&p, Some(13), 0),
                _ => self.body(&p, None, level),
            };
        }
        if deep && layers == 1 && self.r.chance(30) {
            self.ladder(&mut p);
        }
        let collide = if self.p.strings == Strings::Colliding { colliding() } else { vec![] };
        let mut made = vec![];
        let (mut a, mut b, mut c) = (0, 0, 0);
        for i in 0..layers {
            let (n, m, k) = (p.counts[0][i], p.counts[1][i], p.counts[2][i]);
            let strings = (a..a + n).map(|place| self.string(place, &collide)).collect();
            made.push(Layer { strings, contents: p.contents[b..b + m].to_vec(), segments: p.segments[c..c + k].to_vec() });
            (a, b, c) = (a + n, b + m, c + k);
        }
        (p, made)
    }

    /// Each Node segment's run is the one segment before it, so that runs in runs go as deep as levels do.
    fn ladder(&mut self, p: &mut Pools) {
        let most = p.contents.len().min(p.segments.len());
        for i in 0..most {
            p.contents[i] = (1, i as u32, 1);
            if i == 0 {
                p.segments[0] = Seg { tag: 0, level: 0, body: Body::new(0, 0, &[self.id(p)]) };
                continue;
            }
            let below = i as u32 - 1;
            let body = match *self.r.pick(&[1, 9, 14, 15, 11]) {
                kind @ (1 | 15) => Body::new(kind, 0, &[below, 1, 0, 0]),
                11 => Body::new(11, 2, &[self.id(p), NONE, NONE, NONE, below, 1]),
                kind => Body::new(kind, 0, &[below, 1]),
            };
            p.segments[i] = Seg { tag: 3, level: i.min(32) as u8, body };
        }
        // above 32 a run would hold a level of its own, and the segments behind were made for other contents
        for i in most.min(33)..p.segments.len() {
            p.segments[i] = Seg { tag: 3, level: 32, body: Body::new(5, 0, &[]) };
        }
    }

    fn nodes(&mut self, p: &Pools, text: &[u8], most: usize) -> Vec<Node> {
        let marks = if self.r.chance(90) { boundaries(text) } else { (0..=text.len()).collect() };
        let mut at = 0;
        let mut out = vec![];
        for _ in 0..self.r.within(0, most) {
            at += self.r.below(5);
            let end = at + 1 + *self.r.pick(&[0, 0, 0, 1, 2, 4]);
            if end >= marks.len() {
                break;
            }
            let (start, end) = (marks[at] as u32, marks[end] as u32);
            let across = text[start as usize..end as usize].windows(2).any(|w| w == b"\n\n");
            if !across || self.r.chance(20) {
                let class = if self.p.strings == Strings::Dependent { usize::from(self.r.chance(5)) as u8 } else { *self.r.pick(&[0, 0, 0, 0, 0, 0, 1, 1, 2, 3]) };
                let inline = if class > 1 { self.r.below(2) as u8 } else { 0 };
                let body = if class > 1 { Body { plain: self.plain(), ..Body::default() } } else { self.body(p, None, 99) };
                out.push(Node { class, inline, start, end, offset: 0, body });
            }
            at = marks.iter().position(|m| *m == end as usize).unwrap();
        }
        out
    }

    fn utf8(&mut self, len: usize) -> Vec<u8> {
        let mut out = vec![];
        while out.len() < len {
            let c = self.r.pick(CHARS).as_bytes();
            if out.len() + c.len() <= len {
                out.extend_from_slice(c);
            }
        }
        out
    }

    /// normalized text and offsets; where the text so made is no UTF-8 (a node that ends inside a character), another of its length
    fn lay(&mut self, b: &mut Book) {
        b.lay();
        if std::str::from_utf8(&b.norm).is_err() || self.r.chance(self.p.foreign) {
            b.norm = self.utf8(b.norm.len());
        }
        for n in &mut b.nodes {
            if self.r.chance(30) {
                n.offset = n.offset - n.padding() + self.r.below(n.image() as usize) as u32;
            }
        }
    }

    fn span(&mut self, len: usize) -> (u32, u32) {
        let start = self.r.below(len);
        (start as u32, len.min(start + *self.r.pick(&[1, 1, 2, 3, 3, 5, 9])) as u32)
    }

    fn others(&mut self, b: &mut Book, kinds: &[u8]) {
        let (n, m) = (b.text.len(), b.norm.len());
        let [many, most] = self.p.others;
        for _ in 0..self.r.within(0, many) * usize::from(n > 1) {
            let (start, end) = self.span(n - 1);
            let close = if self.r.chance(20) { self.r.within(end as usize, n - 1) } else { (n - 1).min(end as usize + self.r.below(4)) };
            let last = self.r.within(close + 1, n.min(close + 3));
            b.pairs.push(Pair { kind: self.r.below(5) as u8, at: [start, end, close as u32, last as u32] });
        }
        for _ in 0..self.r.within(0, many) * usize::from(m > 1) {
            let open = self.r.below(m - 1);
            let close = (m - 1).min(open + *self.r.pick(&[1, 2, 3, 5, 8, 30]));
            b.containers.push(Container { plain: self.r.word(), open: open as u32, close: close as u32 });
        }
        for _ in 0..self.r.within(0, most) * usize::from(n > 0) {
            let (start, end) = self.span(n);
            let rank = *self.r.pick(&[0, 1, 1, 2, 300, NONE]);
            b.diagnostics.push(Diagnostic { kind: *self.r.pick(kinds), rank, start, end, plain: self.r.word() });
        }
        if self.r.chance(33) {
            self.marks(b, kinds);
        }
        if self.r.chance(30) {
            b.diagnostics.sort_by_key(|d| (d.start, d.end, d.rank));
        }
    }

    /// Marks of no width: at both ends and at cuts more often than elsewhere, at a place often several, of few ranks, so that keys are equal.
    fn marks(&mut self, b: &mut Book, kinds: &[u8]) {
        let (n, edges) = (b.text.len(), boundaries(&b.text));
        let [lines, cuts] = [&b"\n"[..], b"\n\n"].map(|s| behind(&b.text, s));
        for _ in 0..self.r.within(1, 4.max(self.p.others[1])) {
            let at = match self.r.below(10) {
                0 | 1 => 0,
                2 | 3 => n,
                4..=6 if !cuts.is_empty() => *self.r.pick(&cuts),
                7 if !lines.is_empty() => *self.r.pick(&lines),
                8 => self.r.within(0, n),
                _ => *self.r.pick(&edges),
            };
            let rank = *self.r.pick(&[0, 1, 1]);
            for _ in 0..*self.r.pick(&[1, 1, 1, 2, 3]) {
                b.diagnostics.push(Diagnostic { kind: *self.r.pick(kinds), rank, start: at as u32, end: at as u32, plain: self.r.word() });
            }
        }
    }

    /// Closes of what is not open and opens of what is not closed are taken out.
    fn balance(nodes: &mut Vec<Node>) {
        let step = |n: &Node| match (n.class, n.body.kind, n.body.tag) {
            (2, ..) => (0, 1),
            (3, ..) => (0, -1),
            (_, 13, 4) => (1, 1),
            (_, 13, 5) => (1, -1),
            _ => (0, 0),
        };
        let mut open = [vec![], vec![]];
        let mut keep = vec![true; nodes.len()];
        for (i, n) in nodes.iter().enumerate() {
            match step(n) {
                (k, 1) => open[k].push(i),
                (k, -1) => keep[i] = open[k].pop().is_some(),
                _ => {}
            }
        }
        for i in open.concat() {
            keep[i] = false;
        }
        let mut k = keep.into_iter();
        nodes.retain(|_| k.next().unwrap());
    }

    pub fn old(&mut self) -> Book {
        let layers = self.r.within(self.p.layers[0], self.p.layers[1]);
        let (p, layers) = self.pools(layers);
        let text = self.text();
        let mut nodes = self.nodes(&p, &text, self.p.nodes);
        if self.r.chance(80) {
            Self::balance(&mut nodes);
        }
        let mut b = Book { text, layers, nodes, ..Book::default() };
        self.lay(&mut b);
        self.others(&mut b, &[0, 1, 2, 3, 4]);
        b
    }

    pub fn reading(&mut self, text: &[u8]) -> Book {
        loop {
            let (p, layers) = self.pools(1);
            let mut nodes = self.nodes(&p, text, self.p.nodes);
            if self.r.chance(88) {
                Self::balance(&mut nodes);
            }
            let mut b = Book { text: text.to_vec(), layers, nodes, ..Book::default() };
            let [contents, segments] = crate::doc01::adds(&b);
            if contents.saturating_add(segments) > self.p.graft {
                continue;
            }
            self.lay(&mut b);
            let kinds: &[u8] = if self.r.chance(92) { &[0, 1, 4] } else { &[0, 1, 2, 3, 4] };
            self.others(&mut b, kinds);
            return b;
        }
    }

    pub fn edit(&mut self, text: &[u8]) -> (u32, u32, Vec<u8>) {
        let mut cuts = behind(text, b"\n\n");
        cuts.retain(|at| *at < text.len());
        if !cuts.is_empty() && self.r.chance(3) {
            // what is behind a blank line is taken away, so that the reading has no text
            return (*self.r.pick(&cuts) as u32, text.len() as u32, vec![]);
        }
        let marks = boundaries(text);
        let mut at = self.r.below(marks.len());
        if self.p.edges || self.r.chance(10) {
            at = *self.r.pick(&[0, 0, marks.len() - 1, marks.len() - 1, at]);
        }
        let last = match self.r.below(10) {
            0..=3 => at,
            4 => self.r.within(at, marks.len() - 1),
            _ => self.r.within(at, (marks.len() - 1).min(at + 5)),
        };
        let (start, end) = (marks[at], marks[last]);
        let new = *self.r.pick(&["", "x", "a", "漢", "ab", "\n", "\n\n", "b\n\na", "漢字あ", "𠮷x", "\n\n\n"]);
        let new = if new.is_empty() && start == end { "x" } else { new };
        let new = if self.r.chance(3) { text[start..end].to_vec() } else { new.as_bytes().to_vec() };
        (start as u32, end as u32, new)
    }
}
