// A book for the drivers, and how long a call takes.
// A tape under construction; `strings` are the bytes behind both texts.
#[derive(Default)]
struct Book {
    text: Vec<u8>, normalized: Vec<u8>, strings: Vec<u8>, lengths: Vec<u32>, contents: Vec<u8>, segments: Vec<u8>, nodes: Vec<u8>, pairs: Vec<u8>, containers: Vec<u8>, diagnostics: Vec<u8>,
    ends: Vec<[usize; 3]>, // of all layers but the last: how many strings, and how many bytes of contents and of segments, are before the next one
}

impl Book {
    fn word(v: &mut Vec<u8>, w: u32) { v.extend_from_slice(&w.to_le_bytes()); }
    fn words(v: &mut Vec<u8>, words: &[u32]) { for w in words { Self::word(v, *w); } }
    fn string(&mut self, s: &str) -> u32 { self.strings.extend_from_slice(s.as_bytes()); self.lengths.push(s.len() as u32); self.lengths.len() as u32 - 1 }
    fn content(&mut self, tag: u8, first: u32, second: u32) -> u32 {
        self.contents.extend_from_slice(&[4, tag]);
        Self::words(&mut self.contents, &[first, second]);
        self.contents.len() as u32 / 10 - 1
    }
    fn plain(&mut self, s: &str) -> u32 { let id = self.string(s); self.content(0, id, 0) }
    fn segment(&mut self, tag: u8, level: u8, kind: u8, words: [u32; 6]) -> u32 {
        self.segments.extend_from_slice(&[5, tag, level, kind, 0, 0, 0, 0, 0, 0, 0, 0, 0]);
        Self::words(&mut self.segments, &words);
        self.segments.len() as u32 / 37 - 1
    }
    fn put(&mut self, s: &str) { self.text.extend_from_slice(s.as_bytes()); self.normalized.extend_from_slice(s.as_bytes()); }
    // a node over `s`; its image is three bytes of the normalized text
    fn node(&mut self, s: &str, kind: u8, tag: u8, words: [u32; 6]) {
        let (start, at) = (self.text.len() as u32, self.normalized.len() as u32);
        self.text.extend_from_slice(s.as_bytes());
        self.normalized.extend_from_slice("\u{e001}".as_bytes());
        let n = &mut self.nodes;
        n.extend_from_slice(&[6, 0, 0]); Self::words(n, &[start, self.text.len() as u32, at]);
        n.extend_from_slice(&[kind, tag]); Self::words(n, &[0, 0]); Self::words(n, &words);
    }
    // a node of class 2 or 3 in a line of its own; its image is seven bytes; answers its normalized offset
    fn block(&mut self, s: &str, class: u8) -> u32 {
        let (start, at) = (self.text.len() as u32, self.normalized.len() as u32 + 2);
        self.text.extend_from_slice(s.as_bytes());
        self.normalized.extend_from_slice("\n\n\u{e002}\n\n".as_bytes());
        let n = &mut self.nodes;
        n.extend_from_slice(&[6, class, 0]); Self::words(n, &[start, self.text.len() as u32, at]);
        n.extend_from_slice(&[0; 34]);
        at
    }
    fn directive(&mut self, s: &str, kind: u8) { let id = self.string(s); self.node(s, 13, kind, [id, 0, 0, 0, 0, 0]); }
    fn format(&mut self, s: &str, target: &str) { let t = self.plain(target); self.node(s, 2, 4, [t, 1, 0, 0, 0, 0]); }
    fn pair(&mut self, open: (usize, usize), close: (usize, usize)) {
        self.pairs.extend_from_slice(&[7, 0]);
        Self::words(&mut self.pairs, &[open.0, open.1, close.0, close.1].map(|w| w as u32));
    }
    fn container(&mut self, open: u32, close: u32) { self.containers.push(8); Self::words(&mut self.containers, &[0, open, close]); }
    // a NonCanonicalDirective
    fn diagnostic(&mut self, start: usize, end: usize) { self.diagnostics.extend_from_slice(&[9, 1]); Self::words(&mut self.diagnostics, &[3, start as u32, end as u32, 0]); }
    fn ruby(&mut self, base: &str, reading: &str) { let (b, r) = (self.plain(base), self.plain(reading)); self.node(base, 1, 0, [b, 1, r, 1, 0, 0]); }
    fn end(&self) -> [usize; 3] { [self.lengths.len(), self.contents.len(), self.segments.len()] }
    // what comes now is of a further layer; numbers run on
    fn next_layer(&mut self) { self.ends.push(self.end()); }
    fn done(&self) -> (Vec<u8>, Vec<u8>) {
        let mut t = vec![1]; Self::words(&mut t, &[self.text.len() as u32, self.normalized.len() as u32]);
        let mut from = [0; 3];
        for to in self.ends.iter().copied().chain([self.end()]) {
            t.push(2);
            for l in &self.lengths[from[0]..to[0]] { t.push(3); Self::word(&mut t, *l); }
            t.extend_from_slice(&self.contents[from[1]..to[1]]);
            t.extend_from_slice(&self.segments[from[2]..to[2]]);
            from = to;
        }
        for part in [&self.nodes, &self.pairs, &self.containers, &self.diagnostics] { t.extend_from_slice(part); }
        t.push(10);
        let mut d = self.text.clone(); d.extend_from_slice(&self.normalized); d.extend_from_slice(&self.strings);
        (t, d)
    }
}

// best and median of 15 calls, in seconds
fn times(mut f: impl FnMut()) -> (f64, f64) {
    let mut v: Vec<f64> = (0..15).map(|_| { let t = std::time::Instant::now(); f(); t.elapsed().as_secs_f64() }).collect();
    v.sort_by(|a, b| a.partial_cmp(b).unwrap());
    (v[0], v[7])
}
