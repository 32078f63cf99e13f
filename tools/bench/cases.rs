// The cases of the benchmark. In each the old book has one passage of n nodes, whose first character is corrected into two, so that all
// behind it moves; the reading is that passage, read again. Strings of one layer are unlike, as the Rust's interner leaves them.
const BEFORE: &str = "誤";
const AFTER: &str = "訂正";

// what a paragraph, and a passage, of a book has
#[derive(Clone, Copy, PartialEq)]
enum Kind {
    Plain,   // text alone
    Ruby,    // a Ruby in each paragraph
    Formats, // a Ruby in each paragraph and up to 2,000 Formats that refer to a target which is no Ruby's base
    Deep,    // a Ruby of 32 levels in each paragraph
    Lists,   // a Ruby and a pair in each paragraph, a container around every tenth, a diagnostic in every tenth
}

#[derive(Clone, Copy, PartialEq)]
enum Place { Front, Middle, End }

struct Case { book: Tape, edit: (usize, usize), replacement: &'static str, reading: Tape, nodes: usize }

fn ruby_text(base: &str, reading: &str) -> String { format!("｜{base}《{reading}》") }

fn ruby(b: &mut Book, base: &str, reading: &str) {
    let words = [b.plain(base), 1, b.plain(reading), 1, 0, 0];
    b.node(&ruby_text(base, reading), 1, 0, words);
}

fn format(b: &mut Book, target: &str) { b.format(&format!("［＃「{target}」に傍点］"), target); }

// a Ruby whose base is a Ruby, and so on: 32 segments, levels 1 to 32
fn deep_of(b: &mut Book, text: &str, base: u32, reading: u32) {
    let mut inner = b.content(0, base, 0);
    for level in 1..=32 {
        let outer = b.content(0, reading, 0);
        let segment = b.segment(3, level, 1, [inner, 1, outer, 1, 0, 0]);
        inner = b.content(1, segment, 1);
    }
    let outer = b.content(0, reading, 0);
    b.node(text, 1, 0, [inner, 1, outer, 1, 0, 0]);
}

fn deep(b: &mut Book, base: &str, reading: &str) {
    let ids = [base, reading].map(|s| b.string(s));
    deep_of(b, &ruby_text(base, reading), ids[0], ids[1]);
}

fn paragraph(b: &mut Book, kind: Kind, i: usize, formats_every: usize) {
    let start = b.text.len();
    let framed = kind == Kind::Lists && i % 10 == 0;
    let open = if framed { b.block("［＃ここから罫囲み］", 2) } else { 0 };
    b.put("「青空文庫の本を読む人は」");
    if kind == Kind::Lists { b.pair((start, start + 3), (b.text.len() - 3, b.text.len())); }
    let (base, reading) = (format!("語{i}"), format!("ご{i}"));
    match kind {
        Kind::Plain => b.put("文庫"),
        Kind::Deep => deep(b, &base, &reading),
        _ => ruby(b, &base, &reading),
    }
    if kind == Kind::Formats && i % formats_every == 0 { format(b, &format!("言{i}")); }
    b.put("を繰り返し声に出して読んでいた。");
    if framed { b.diagnostic(start, start + 3); let close = b.block("［＃ここで罫囲み終わり］", 3); b.container(open, close); }
    b.put("\n\n");
}

// The corrected passage. 500 readings are shared by its Rubies, because a new layer has 3,583 strings at most.
fn passage(b: &mut Book, first: &str, kind: Kind, n: usize) {
    b.put(first);
    b.put("された段落である。");
    let readings: Vec<u32> = if matches!(kind, Kind::Ruby | Kind::Lists) { (0..n.min(500)).map(|j| b.plain(&format!("く{j}"))).collect() } else { Vec::new() };
    for j in 0..n {
        let base = format!("句{j}");
        match kind {
            Kind::Plain => b.put("文庫"),
            Kind::Formats => format(b, &base),
            Kind::Deep => deep(b, &base, &format!("く{j}")),
            _ => { let words = [b.plain(&base), 1, readings[j % readings.len()], 1, 0, 0]; b.node(&ruby_text(&base, &format!("く{}", j % 500)), 1, 0, words); }
        }
        b.put("と");
    }
    b.put("\n\n");
}

// a book of at most `size` bytes of text, and where its passage begins
fn novel(kind: Kind, size: usize, place: Place, n: usize) -> (Book, usize) {
    const PARAGRAPH: usize = 250; // no paragraph is longer
    let mut all = Book::default();
    passage(&mut all, BEFORE, kind, n);
    let (room, mut b, mut at) = (size - all.text.len() - PARAGRAPH, Book::default(), None);
    let formats_every = (size / 120 / 2000).max(1);
    let from = match place { Place::Front => 0, Place::Middle => room / 2, Place::End => room };
    let mut i = 0;
    loop {
        if at.is_none() && b.text.len() >= from { at = Some(b.text.len()); passage(&mut b, BEFORE, kind, n); }
        if b.text.len() >= room + at.map_or(0, |_| all.text.len()) { break; }
        paragraph(&mut b, kind, i, formats_every);
        i += 1;
    }
    (b, at.unwrap())
}

fn reading(kind: Kind, n: usize) -> Tape { let mut r = Book::default(); passage(&mut r, AFTER, kind, n); r.done() }

fn case_of(b: &Book, at: usize, kind: Kind, n: usize) -> Case {
    Case { book: b.done(), edit: (at, at + BEFORE.len()), replacement: AFTER, reading: reading(kind, n), nodes: b.nodes.len() / 49 }
}

fn simple(kind: Kind, size: usize, place: Place, n: usize) -> Case { let (b, at) = novel(kind, size, place, n); case_of(&b, at, kind, n) }

// How the levels of a tree share runs, so that few records stand for many texts
#[derive(Clone, Copy, PartialEq)]
enum Sharing {
    Turn(u32), // k AngleQuotes on each level; the one at j holds two runs of the level below, those at 2j and 2j + 1 modulo k: of one, the same run twice
    Fields,    // a Ruby on each level; its base and its reading are the run of the level below
    Unlike,    // an AngleQuote on each level, of the run one level below, of that two levels below, and of the first again
}

// how many texts one of the top level stands for
fn texts_of(sharing: Sharing, levels: u8) -> u64 { (0..levels).fold((1, 1), |(a, below), _| (2 * a + if sharing == Sharing::Unlike { below } else { 0 }, a)).0 }

// so many levels above texts; answers the first segment of the top level
fn tree(r: &mut Book, sharing: Sharing, levels: u8) -> u32 {
    let width = if let Sharing::Turn(k) = sharing { k } else { 1 };
    let next = |r: &Book| r.segments.len() as u32 / 37;
    let (id, mut inner) = (r.string("字"), next(r));
    let mut lower = inner;
    for _ in 0..width { r.segment(0, 0, 0, [id, 0, 0, 0, 0, 0]); }
    for level in 1..=levels {
        let first = r.contents.len() as u32 / 10;
        match sharing {
            Sharing::Turn(k) => for i in 0..k + k % 2 { r.content(1, inner + i % k, 1); },
            Sharing::Fields => { r.content(1, inner, 1); }
            Sharing::Unlike => for s in [inner, lower, inner] { r.content(1, s, 1); },
        }
        (lower, inner) = (inner, next(r));
        for j in 0..width {
            match sharing {
                Sharing::Turn(k) => r.segment(3, level, 14, [first + 2 * j % k, 2, 0, 0, 0, 0]),
                Sharing::Fields => r.segment(3, level, 1, [first, 1, first, 1, 0, 0]),
                Sharing::Unlike => r.segment(3, level, 14, [first, 3, 0, 0, 0, 0]),
            };
        }
    }
    inner
}

// m AngleQuotes, unlike their neighbours, over one run of n contents, two texts in turn; above them 31 levels, each with all m and twice the level below.
// Answers the top and how many texts it stands for.
fn wide_tree(r: &mut Book, m: u32, n: u32) -> (u32, u64) {
    let id = r.string("字");
    for _ in 0..2 { r.segment(0, 0, 0, [id, 0, 0, 0, 0, 0]); }
    for i in 0..=n { r.content(1, i % 2, 1); }
    for i in 0..m { r.segment(3, 1, 14, [i % 2, n, 0, 0, 0, 0]); }
    let (wide, mut inner, mut texts) = (2, 2, u64::from(n));
    for level in 2..=32 {
        let first = r.content(1, wide, m);
        for _ in 0..2 { r.content(1, inner, 1); }
        inner = r.segment(3, level, 14, [first, 3, 0, 0, 0, 0]);
        texts = u64::from(m * n) + 2 * texts;
    }
    (inner, texts)
}

// A reading of two nodes that both name one tree, and how many texts they stand for
fn two_trees(make: impl FnOnce(&mut Book) -> (u32, u64)) -> (Case, u64) {
    let (mut b, mut r) = (Book::default(), Book::default());
    b.put(BEFORE);
    b.put("\n\n次の段落\n\n");
    let (inner, texts) = make(&mut r);
    let top = r.content(1, inner, 1);
    for s in ["訂", "正"] { r.node(s, 14, 0, [top, 1, 0, 0, 0, 0]); }
    r.put("\n\n");
    (Case { book: b.done(), edit: (0, BEFORE.len()), replacement: AFTER, reading: r.done(), nodes: 0 }, 2 * texts)
}

// so many diagnostics at equal distances: in the order of the text, or at every 7,919th place, which is far from any order
fn diagnosed(size: usize, count: usize, ordered: bool) -> Case {
    let (mut b, at) = novel(Kind::Ruby, size, Place::Middle, 10);
    let every = b.text.len() / count;
    for i in 0..count { let p = every * if ordered { i } else { i * 7919 % count }; b.diagnostic(p, p + 3); }
    case_of(&b, at, Kind::Ruby, 10)
}

// A book that has been corrected `times` times, each time one passage of n nodes: times + 1 layers. The passage in the middle is still to be corrected.
fn corrected(size: usize, times: usize, n: usize) -> Case {
    let mut b = Book::default();
    let mut at = Vec::new();
    let mut i = 0;
    for k in 0..=times {
        at.push(b.text.len());
        // one layer cannot have a string twice: these passages have no nodes before they are corrected
        b.put(BEFORE); b.put("された段落である。\n\n");
        while b.text.len() < size * (k + 1) / (times + 1) - 250 { paragraph(&mut b, Kind::Ruby, i, 0); i += 1; }
    }
    let mut r = Book::default();
    r.put(AFTER); r.put("された段落である。");
    for j in 0..n { ruby(&mut r, &format!("句{j}"), &format!("く{j}")); r.put("と"); }
    let inserted = String::from_utf8(r.text["訂正された段落である。".len()..].to_vec()).unwrap();
    r.put("\n\n");
    let replacement: &'static str = Box::leak(format!("{AFTER}された段落である。{inserted}").into_boxed_str());
    let old = BEFORE.len() + "された段落である。".len();
    let (mut book, reading) = (b.done(), r.done());
    let middle = at.remove(times / 2);
    for p in at.iter().rev() {
        let mut o = Buffers::new(book.0.len() + 2 * reading.0.len() + 64, book.1.len() + 2 * reading.1.len() + 64);
        let a = merge(&book, (*p, p + old), replacement.as_bytes(), &reading, &mut o);
        assert_eq!(a.number, 0, "a correction before the one that is timed");
        o.tape.truncate(a.tape); o.bytes.truncate(a.bytes);
        book = (o.tape, o.bytes);
    }
    let start = middle + times / 2 * (replacement.len() - old);
    Case { book, edit: (start, start + old), replacement, reading, nodes: b.nodes.len() / 49 + times * n }
}

// A book of 32 layers, each with the strings and records of a 32nd of the paragraphs, as corrections leave them that read one part after the other
// again. The names in it come again, 1,500 bases and as many readings, since a flat layer has 3,583 strings at most. The passage in the middle has no
// nodes, and neither has its reading: such a book takes no others.
fn layered(size: usize, deep: bool) -> Case {
    const NAMES: usize = 1500;
    let (mut b, mut at, mut i) = (Book::default(), 0, 0);
    for layer in 1..=32 {
        if layer > 1 { b.next_layer(); }
        let mut ids = [None; NAMES];
        if layer == 16 { at = b.text.len(); passage(&mut b, BEFORE, Kind::Plain, 0); }
        while b.text.len() + 250 < size * layer / 32 {
            let (base, reading) = (format!("語{}", i % NAMES), format!("ご{}", i % NAMES));
            let [s, t] = *ids[i % NAMES].get_or_insert_with(|| [b.string(&base), b.string(&reading)]);
            b.put("「青空文庫の本を読む人は」");
            if deep { deep_of(&mut b, &ruby_text(&base, &reading), s, t); } else { let words = [b.content(0, s, 0), 1, b.content(0, t, 0), 1, 0, 0]; b.node(&ruby_text(&base, &reading), 1, 0, words); }
            b.put("を繰り返し声に出して読んでいた。\n\n");
            i += 1;
        }
    }
    case_of(&b, at, Kind::Plain, 0)
}

// A block over n paragraphs with a Ruby each, so that no blank line in it is a safe cut; `word` stands in the middle one. Answers where.
fn block(b: &mut Book, word: &str, n: usize) -> usize {
    let readings: Vec<u32> = (0..500).map(|j| b.plain(&format!("く{j}"))).collect();
    let mut at = 0;
    b.block("［＃ここから２字下げ］", 2);
    b.put("\n");
    for j in 0..n {
        if j == n / 2 { at = b.text.len(); b.put(word); }
        let base = format!("句{j}");
        let words = [b.plain(&base), 1, readings[j % 500], 1, 0, 0];
        b.node(&ruby_text(&base, &format!("く{}", j % 500)), 1, 0, words);
        b.put("を繰り返し読む。\n\n");
    }
    b.block("［＃ここで字下げ終わり］", 3);
    b.put("\n\n");
    at
}

// the edit is inside such a block, which stands in the middle of the book
fn blocked(size: usize, n: usize) -> Case {
    let (mut b, mut r, mut i) = (Book::default(), Book::default(), 0);
    block(&mut r, AFTER, n);
    let mut fill = |b: &mut Book, end: usize| while b.text.len() < end { paragraph(b, Kind::Ruby, i, 0); i += 1; };
    fill(&mut b, (size - r.text.len()) / 2);
    let at = block(&mut b, BEFORE, n);
    fill(&mut b, size - 250);
    Case { book: b.done(), edit: (at, at + BEFORE.len()), replacement: AFTER, reading: r.done(), nodes: b.nodes.len() / 49 }
}

#[derive(Clone, Copy, PartialEq)]
enum Group { Sizes(Kind), Readings, Places, Shapes }

// `shown`: the tables in which it stands, and its name in each
struct Entry { shown: Vec<(Group, String)>, make: Box<dyn Fn() -> Case> }

const SIZES: [(usize, &str); 5] = [(10_000, "10 kB"), (100_000, "100 kB"), (1_000_000, "1 MB"), (4_000_000, "4 MB"), (16_777_000, "16 MB")];

fn entry(group: Group, label: &str, make: impl Fn() -> Case + 'static) -> Entry { Entry { shown: vec![(group, label.to_string())], make: Box::new(make) } }

fn thousands(n: usize) -> String {
    let digits = n.to_string();
    let mut s = String::new();
    for (i, c) in digits.chars().enumerate() { if i > 0 && (digits.len() - i) % 3 == 0 { s.push(','); } s.push(c); }
    s
}

fn all_cases() -> Vec<Entry> {
    let mut v = Vec::new();
    for kind in [Kind::Plain, Kind::Ruby, Kind::Formats] {
        for (size, label) in SIZES {
            let n = if kind == Kind::Plain { 0 } else { 10 };
            let mut e = entry(Group::Sizes(kind), label, move || simple(kind, size, Place::Middle, n));
            if kind == Kind::Ruby && label == "1 MB" { e.shown.push((Group::Readings, "10".into())); }
            if kind == Kind::Ruby && (label == "1 MB" || label == "16 MB") { e.shown.push((Group::Places, format!("{label}, in the middle"))); }
            v.push(e);
        }
    }
    for n in [1, 100, 1000, 3000] { v.push(entry(Group::Readings, &thousands(n), move || simple(Kind::Ruby, 1_000_000, Place::Middle, n))); }
    for (size, label) in [SIZES[2], SIZES[4]] {
        for (place, name) in [(Place::Front, "at the front"), (Place::End, "at the end")] { v.push(entry(Group::Places, &format!("{label}, {name}"), move || simple(Kind::Ruby, size, place, 10))); }
    }
    let mut shape = |label, make: fn() -> Case| v.push(entry(Group::Shapes, label, make));
    shape("1 MB, a tree of 32 levels in each paragraph, 10 in the passage", || simple(Kind::Deep, 1_000_000, Place::Middle, 10));
    shape("100 kB, a tree of 32 levels in each paragraph, 1,000 in the passage", || simple(Kind::Deep, 100_000, Place::Middle, 1000));
    shape("4 MB, 200,000 diagnostics in order", || diagnosed(4_000_000, 200_000, true));
    shape("4 MB, 200,000 diagnostics out of order", || diagnosed(4_000_000, 200_000, false));
    shape("1 MB, a pair in each paragraph, a container and a diagnostic in every tenth", || simple(Kind::Lists, 1_000_000, Place::Middle, 10));
    shape("1 MB, a block over 3,000 paragraphs around the edit, all read again", || blocked(1_000_000, 3000));
    shape("1 MB, corrected 30 times before: 31 layers", || corrected(1_000_000, 30, 10));
    v
}
