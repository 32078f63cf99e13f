//! Ours: the program `oracle`. Standard input is that of the program `merge` (document 01, 'Runs'); the answer is the Rust's: a line
//! `region S E reused U reread R counts C CH TH A LB RS PS tape HEX bytes HEX`, `none N` with document 01's number for the reason, `other text`,
//! `panic WORDS` or `unreadable`. With `--lines` each input line is `M HEX` (merge), `R HEX` (region alone) or `L HEX` (lookups in the old book).
use oracle::judge::{self, Answer, judge};
use oracle::tape::{Book, Reading};
use std::io::{BufRead, Read, Write};
use std::panic::{AssertUnwindSafe, catch_unwind};

struct Case {
    book: Option<Book>,
    start: usize,
    end: usize,
    replacement: String,
    reading: Option<Reading>,
}

fn read_case(input: &[u8]) -> Option<Case> {
    let (head, mut rest) = input.split_at_checked(28)?;
    let w: Vec<usize> = head.chunks(4).map(|b| u32::from_le_bytes(b.try_into().unwrap()) as usize).collect();
    let mut part = |i: usize| -> Option<&[u8]> {
        let (part, behind) = rest.split_at_checked(w[i])?;
        rest = behind;
        Some(part)
    };
    let (tape, bytes, replacement, rtape, rbytes) = (part(0)?, part(1)?, part(4)?, part(5)?, part(6)?);
    if !rest.is_empty() {
        return None;
    }
    let replacement = String::from_utf8(replacement.to_vec()).ok()?;
    Some(Case { book: Book::read(tape, bytes), start: w[2], end: w[3], replacement, reading: Reading::read(rtape, rbytes) })
}

fn hex(b: &[u8]) -> String {
    if b.is_empty() { "-".to_owned() } else { b.iter().map(|x| format!("{x:02x}")).collect() }
}

fn show_merge(c: &Case) -> Option<String> {
    Some(match judge(c.book.as_ref()?, c.start..c.end, &c.replacement, c.reading.as_ref()?) {
        Answer::None(n) => format!("none {n}"),
        Answer::OtherText => "other text".to_owned(),
        Answer::Panic(words) => format!("panic {words}"),
        Answer::Merged(m) => {
            let (tape, bytes) = m.book.write();
            let counts = m.counts().map(|n| n.to_string()).join(" ");
            let moved = if m.keys_moved { " equal keys moved" } else { "" };
            format!("region {} {} reused {} reread {} counts {counts} tape {} bytes {}{moved}", m.region.start, m.region.end, m.reused, m.reread, hex(&tape), hex(&bytes))
        }
    })
}

fn show_region(c: &Case) -> Option<String> {
    let book = c.book.as_ref()?;
    Some(match catch_unwind(AssertUnwindSafe(|| judge::region(book, c.start..c.end, &c.replacement))) {
        Ok(Ok(r)) => format!("region {} {}", r.start, r.end),
        Ok(Err(n)) => format!("none {n}"),
        Err(_) => "panic".to_owned(),
    })
}

/// `node_at_source` of every offset up to one past the end, as places, and `diagnostics_allow_incremental`
fn show_lookups(c: &Case) -> Option<String> {
    let book = c.book.as_ref()?;
    let place = |o: u32| judge::node_at_source(book, o).map_or("-".to_owned(), |i| i.to_string());
    let places: Vec<String> = (0..book.text().len() as u32 + 2).map(place).collect();
    Some(format!("allow {} places {}", judge::diagnostics_allow_incremental(book), places.join(" ")))
}

fn show(mode: &str, input: &[u8]) -> String {
    let Some(case) = read_case(input) else { return "unreadable".to_owned() };
    let shown = match mode {
        "R" => show_region(&case),
        "L" => show_lookups(&case),
        _ => show_merge(&case),
    };
    shown.unwrap_or("unreadable".to_owned())
}

fn unhex(h: &str) -> Vec<u8> {
    (0..h.len() / 2).map(|i| u8::from_str_radix(&h[2 * i..2 * i + 2], 16).expect("hex")).collect()
}

fn main() {
    std::panic::set_hook(Box::new(|_| {}));
    let mut stdout = std::io::stdout();
    if std::env::args().nth(1).as_deref() == Some("--lines") {
        for line in std::io::stdin().lock().lines() {
            let line = line.expect("a line");
            let (mode, h) = line.split_once(' ').expect("a mode and a case");
            writeln!(stdout, "{}", show(mode, &unhex(h))).expect("written");
            stdout.flush().expect("written");
        }
    } else {
        let mut input = Vec::new();
        std::io::stdin().read_to_end(&mut input).expect("read");
        println!("{}", show("M", &input));
    }
}
