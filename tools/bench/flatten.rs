// Flattening (document 02, wish 6) beside the merge of the same book, and beside the Rust's own graft of all its nodes.

const FLAT: usize = 12; // with 16384 work words
const FLAT_WORDS: usize = 13; // with one more for each string of the old book

struct FlatRow { name: &'static str, text: usize, nodes: usize, strings: [usize; 2], bytes: [usize; 2], times: [Option<Times>; SIDES] }

// how many strings the layers of a tape have
fn strings_of(tape: &[u8]) -> usize {
    let (mut at, mut count) = (9, 0);
    loop {
        at += match tape[at] { 2 => 1, 3 => { count += 1; 5 }, 4 => 10, 5 => 37, _ => return count };
    }
}

fn flat_row(name: &'static str, c: &Case, seconds: f64, cost: f64) -> FlatRow {
    let merged = agree(name, c);
    let r = in_rust(c);
    let flat = r.book.flattened().write();
    let words = 16384 + strings_of(&c.book.0);
    let [mut few, mut many] = [16384, words].map(|n| Buffers { work: vec![7; n], ..Buffers::new(flat.0.len(), flat.1.len()) });
    for o in [&mut few, &mut many] {
        let a = flatten(&c.book, o);
        assert_eq!((a.number, a.tape, a.bytes), (0, flat.0.len(), flat.1.len()), "{name}: flattened");
        assert!(o.tape == flat.0 && o.bytes == flat.1 && o.work.iter().all(|w| *w == 0), "{name}: the flat book");
    }
    let (mut exact, mut copy) = (Buffers::new(merged.0.len(), merged.1.len()), flat.clone());
    let mut sides: Vec<Side> = vec![
        (FLAT, Box::new(|| clock(|| flatten(&c.book, &mut few)))),
        (FLAT_WORDS, Box::new(|| clock(|| flatten(&c.book, &mut many)))),
        (CHECK, Box::new(|| clock(|| check_book(&c.book)))),
        (MERGE, Box::new(|| clock(|| ours(c, &mut exact)))),
        (REPARSE, Box::new(|| clock(|| r.book.grafted()))),
        (TAPES, Box::new(|| clock(|| { let book = RustBook::read(&c.book.0, &c.book.1).unwrap(); let flat = book.flattened(); (flat.write(), flat, book) }))),
    ];
    if unsafe { limit_known() } == 1 { sides.push((LIMIT, Box::new(|| clock(|| limit(c, &flat, &mut copy))))); }
    let times = measure(seconds, cost, &mut sides);
    drop(sides);
    let row = FlatRow { name, text: r.book.text().len(), nodes: c.nodes, strings: [strings_of(&c.book.0), strings_of(&flat.0)], bytes: [c.book.0.len() + c.book.1.len(), flat.0.len() + flat.1.len()], times };
    eprintln!("flattening, {name}: {}", [FLAT, FLAT_WORDS, CHECK, MERGE, REPARSE, TAPES, LIMIT].map(|i| duration(row.median(i))).join(", "));
    row
}

const FLAT_DEEP: &str = "1 MB, a tree of 32 levels in each paragraph";

fn flat_rows(seconds: f64, cost: f64) -> Vec<FlatRow> {
    let mut rows: Vec<FlatRow> = SIZES.iter().map(|(size, name)| flat_row(name, &layered(*size, false), seconds, cost)).collect();
    rows.push(flat_row(FLAT_DEEP, &layered(1_000_000, true), seconds, cost));
    rows
}

impl FlatRow {
    fn median(&self, side: usize) -> f64 { self.times[side].map_or(f64::NAN, |t| t.median) }
}

fn flat_table(rows: &[FlatRow]) -> String {
    let heads = ["text", "nodes", "strings", "of them in the flat layer", "tape and bytes", "of the flat book", "flattening, 16384 words", "one more for each string", "of it `check_book`", "the limit", "the merge",
        "the Rust's graft", "with tapes, plain", "flattening / merge", "flattening / limit", "flattening / graft"];
    let mut s = format!("| {} |\n{}|\n", heads.join(" | "), "|---".repeat(heads.len()));
    for r in rows {
        let counts = [r.nodes, r.strings[0], r.strings[1], r.bytes[0], r.bytes[1]].map(thousands);
        let times = [FLAT, FLAT_WORDS, CHECK, LIMIT, MERGE, REPARSE, TAPES].map(|i| if i == LIMIT && r.times[i].is_none() { "no AVX2".into() } else { cell(r.times[i]) });
        let ratios = [MERGE, LIMIT, REPARSE].map(|i| r.times[i].map_or(String::new(), |_| format!("**{}**", figures(r.median(FLAT) / r.median(i)))));
        s += &format!("| {} | {} | {} | {} |\n", r.name, counts.join(" | "), times.join(" | "), ratios.join(" | "));
    }
    s
}

// From 1 MB to 16 MB of text: 1 is linear.
fn flat_exponent(rows: &[FlatRow], side: usize) -> String {
    let row = |name: &str| rows.iter().find(|r| r.name == name).unwrap();
    let (a, b) = (row("1 MB"), row("16 MB"));
    format!("{:.2}", (b.median(side) / a.median(side)).ln() / (b.text as f64 / a.text as f64).ln())
}
