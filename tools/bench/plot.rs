// docs/benchmarks.svg: time over the size of the text, both axes logarithmic, one panel for each kind of book.
struct Line { side: usize, name: &'static str, colour: &'static str, dash: &'static str, mark: &'static str }

const LINES: [Line; 7] = [
    Line { side: TAPES, name: "the Rust's reparse with tapes, plain reader and writer", colour: "#e69f00", dash: "", mark: "M-4.5,3.5 L4.5,3.5 L0,-5 Z" },
    Line { side: QUICK, name: "the Rust's reparse with tapes, quick reader and writer", colour: "#cc79a7", dash: "", mark: "M-4.5,-3.5 L4.5,-3.5 L0,5 Z" },
    Line { side: MERGE, name: "our merge, tape to tape, 16384 work words", colour: "#0072b2", dash: "", mark: "M-4,0 A4,4 0 1,0 4,0 A4,4 0 1,0 -4,0 Z" },
    Line { side: WORDS, name: "our merge with 262144 work words", colour: "#009e73", dash: "6 4", mark: "M0,-5 L5,0 L0,5 L-5,0 Z" },
    Line { side: CHECK, name: "of it check_book, which the Rust does not do", colour: "#777777", dash: "2 3", mark: "M-3.5,-3.5 L3.5,3.5 M-3.5,3.5 L3.5,-3.5" },
    Line { side: REPARSE, name: "the Rust's reparse alone, in its own types", colour: "#d55e00", dash: "", mark: "M-4,-4 L4,-4 L4,4 L-4,4 Z" },
    Line { side: LIMIT, name: "the limit: UTF-8 by AVX2, each word read, a copy", colour: "#000000", dash: "1 4", mark: "M-4,0 L4,0 M0,-4 L0,4" },
];

const PANELS: [(Kind, &str); 3] = [(Kind::Plain, "text alone"), (Kind::Ruby, "a Ruby in each paragraph"), (Kind::Formats, "Rubies and up to 2,000 Formats")];
const LEFT: f64 = 78.0;
const TOP: f64 = 62.0;
const WIDTH: f64 = 300.0;
const HEIGHT: f64 = 330.0;
const GAP: f64 = 36.0;

fn text_at(x: f64, y: f64, anchor: &str, more: &str, s: &str) -> String { format!("<text x=\"{x:.1}\" y=\"{y:.1}\" text-anchor=\"{anchor}\" {more}>{s}</text>\n") }

fn marked(l: &Line, x: f64, y: f64) -> String { format!("<path d=\"{}\" transform=\"translate({x:.1},{y:.1})\" fill=\"{c}\" stroke=\"{c}\" stroke-width=\"1.5\"/>\n", l.mark, c = l.colour) }

fn stroke(l: &Line, points: &[(f64, f64)]) -> String {
    let points: Vec<String> = points.iter().map(|(x, y)| format!("{x:.1},{y:.1}")).collect();
    format!("<polyline points=\"{}\" fill=\"none\" stroke=\"{}\" stroke-width=\"2\" stroke-dasharray=\"{}\"/>\n", points.join(" "), l.colour, l.dash)
}

// the powers of ten around all times
fn decades(rows: &[Row]) -> (i32, i32) {
    let times = || rows.iter().filter(|r| matches!(r.shown[0].0, Group::Sizes(_))).flat_map(|r| LINES.iter().map(|l| r.median(l.side))).filter(|t| !t.is_nan());
    (times().fold(f64::MAX, f64::min).log10().floor() as i32, times().fold(f64::MIN, f64::max).log10().ceil() as i32)
}

fn panel(rows: &[Row], number: usize, from: i32, to: i32) -> String {
    let (kind, title) = PANELS[number];
    let left = LEFT + number as f64 * (WIDTH + GAP);
    let x = |bytes: f64| left + 12.0 + (bytes / SIZES[0].0 as f64).log10() / (SIZES[4].0 as f64 / SIZES[0].0 as f64).log10() * (WIDTH - 24.0);
    let y = |seconds: f64| TOP + HEIGHT * (to as f64 - seconds.log10()) / (to - from) as f64;
    let mut s = text_at(left + WIDTH / 2.0, TOP - 10.0, "middle", "font-weight=\"bold\"", title);
    for decade in from..=to {
        let at = y(10f64.powi(decade));
        s += &format!("<line x1=\"{left}\" y1=\"{at:.1}\" x2=\"{}\" y2=\"{at:.1}\" stroke=\"#ddd\"/>\n", left + WIDTH);
        if number == 0 { s += &text_at(left - 6.0, at + 4.0, "end", "", &decade_name(decade)); }
    }
    for (bytes, name) in SIZES {
        let at = x(bytes as f64);
        s += &format!("<line x1=\"{at:.1}\" y1=\"{TOP}\" x2=\"{at:.1}\" y2=\"{}\" stroke=\"#ddd\"/>\n", TOP + HEIGHT);
        s += &text_at(at, TOP + HEIGHT + 17.0, "middle", "", name);
    }
    s += &format!("<rect x=\"{left}\" y=\"{TOP}\" width=\"{WIDTH}\" height=\"{HEIGHT}\" fill=\"none\" stroke=\"#555\"/>\n");
    for l in &LINES {
        let points: Vec<(f64, f64)> = shown(rows, Group::Sizes(kind)).iter().filter(|(_, r)| r.times[l.side].is_some())
            .map(|(_, r)| (x(r.text as f64), y(r.median(l.side)))).collect();
        s += &stroke(l, &points);
        for (x, y) in points { s += &marked(l, x, y); }
    }
    s
}

fn decade_name(decade: i32) -> String {
    let (unit, power) = if decade < -6 { ("ns", decade + 9) } else if decade < -3 { ("us", decade + 6) } else if decade < 0 { ("ms", decade + 3) } else { ("s", decade) };
    format!("{} {unit}", 10i64.pow(power as u32))
}

fn legend(top: f64) -> String {
    let mut s = String::new();
    for (i, l) in LINES.iter().enumerate() {
        let (x, y) = (LEFT + 60.0 + (i % 2) as f64 * 1.5 * (WIDTH + GAP), top + (i / 2) as f64 * 22.0);
        s += &stroke(l, &[(x, y), (x + 34.0, y)]);
        s += &marked(l, x + 17.0, y);
        s += &text_at(x + 42.0, y + 4.0, "start", "", l.name);
    }
    s
}

fn plot(rows: &[Row]) -> String {
    let (from, to) = decades(rows);
    let (width, height) = (LEFT + 3.0 * WIDTH + 2.0 * GAP + 20.0, TOP + HEIGHT + 152.0);
    let mut s = format!("<svg xmlns=\"http://www.w3.org/2000/svg\" viewBox=\"0 0 {width} {height}\" width=\"{width}\" height=\"{height}\" font-family=\"sans-serif\" font-size=\"12\" fill=\"#222\">\n");
    s += &format!("<rect width=\"{width}\" height=\"{height}\" fill=\"white\"/>\n");
    s += &text_at(width / 2.0, 24.0, "middle", "font-size=\"15\" font-weight=\"bold\"", "One passage corrected in the middle of a book: median time of one call");
    let middle = TOP + HEIGHT / 2.0;
    s += &text_at(18.0, middle, "middle", &format!("transform=\"rotate(-90 18 {middle})\""), "time");
    for number in 0..3 { s += &panel(rows, number, from, to); }
    s += &text_at(LEFT + 1.5 * WIDTH + GAP, TOP + HEIGHT + 38.0, "middle", "", "size of the text (both axes logarithmic)");
    s += &legend(TOP + HEIGHT + 64.0);
    s + "</svg>\n"
}
