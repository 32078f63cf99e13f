// docs/BENCHMARKS.md: the template with each {{name}} replaced by what the run gave.

// of the machine, in the last minute
fn load() -> String { std::fs::read_to_string("/proc/loadavg").map_or("unknown".into(), |s| s.split(' ').next().unwrap().to_string()) }

struct Run { start: Instant, load: String, clock: f64 }

fn said_by(program: &str, args: &[&str]) -> String {
    let out = std::process::Command::new(program).args(args).output();
    out.ok().filter(|o| o.status.success()).map_or("unknown".into(), |o| String::from_utf8_lossy(&o.stdout).trim().to_string())
}

fn machine() -> String {
    let cpu = std::fs::read_to_string("/proc/cpuinfo").unwrap_or_default();
    let field = |name: &str| cpu.lines().find(|l| l.starts_with(name)).and_then(|l| l.split(": ").nth(1)).unwrap_or("unknown").to_string();
    let memory = std::fs::read_to_string("/proc/meminfo").unwrap_or_default();
    let kb: f64 = memory.split_whitespace().nth(1).and_then(|s| s.parse().ok()).unwrap_or(0.0);
    format!("{} (family {}, model {}), {} cores, {:.0} GB of memory, {}", field("model name"), field("cpu family"), field("model\t"), cpu.matches("processor\t").count(), kb / 1e6, said_by("uname", &["-sr"]))
}

// three figures
fn figures(x: f64) -> String { if x >= 100.0 { format!("{x:.0}") } else if x >= 10.0 { format!("{x:.1}") } else { format!("{x:.2}") } }

fn duration(seconds: f64) -> String {
    match seconds {
        s if s.is_nan() => "".into(),
        s if s < 0.9995e-3 => format!("{} us", figures(s * 1e6)),
        s if s < 0.9995 => format!("{} ms", figures(s * 1e3)),
        s => format!("{} s", figures(s)),
    }
}

fn cell(t: Option<Times>) -> String { t.map_or(String::new(), |t| format!("{} ({})", duration(t.median), duration(t.best))) }

fn line(r: &Row) -> String {
    let all: Vec<String> = [MERGE, CHECK, REGION, REPARSE, TAPES, QUICK, LIMIT].map(|i| duration(r.median(i))).into();
    let calls: usize = r.times.iter().flatten().map(|t| t.calls).sum();
    format!("{}: {} ({calls} calls)", name_of(r), all.join(", "))
}

fn shown(rows: &[Row], group: Group) -> Vec<(&str, &Row)> {
    let mut v: Vec<(&str, &Row)> = rows.iter().flat_map(|r| r.shown.iter().filter(|s| s.0 == group).map(move |s| (s.1.as_str(), r))).collect();
    let number = |label: &str| label.replace(',', "").parse::<usize>().unwrap();
    match group {
        Group::Readings => v.sort_by_key(|(label, _)| number(label)),
        Group::Places => v.sort_by_key(|(label, _)| (label.starts_with("16"), ["front", "middle", "end"].iter().position(|p| label.ends_with(p)))),
        _ => {}
    }
    v
}

fn table(rows: &[Row], group: Group, first: &str) -> String {
    let heads = [first, "nodes", "tape and bytes", "ours", "of it `check_book`", "up to the region", "the limit", "the Rust's `reparse`", "with tapes, plain", "with tapes, quick",
        "ours / limit", "ours / `reparse`", "ours / plain", "ours / quick"];
    let mut s = format!("| {} |\n{}|\n", heads.join(" | "), "|---".repeat(heads.len()));
    for (label, r) in shown(rows, group) {
        let times = [MERGE, CHECK, REGION, LIMIT, REPARSE, TAPES, QUICK].map(|i| if i == LIMIT && r.times[i].is_none() { "no AVX2".into() } else { cell(r.times[i]) });
        let ratios = [LIMIT, REPARSE, TAPES, QUICK].map(|i| r.times[i].map_or(String::new(), |_| format!("**{}**", figures(r.ratio(MERGE, i)))));
        s += &format!("| {label} | {} | {} | {} | {} |\n", thousands(r.nodes), thousands(r.bytes), times.join(" | "), ratios.join(" | "));
    }
    s
}

fn lent(rows: &[Row]) -> String {
    let mut s = "| book | just the size, 16384 words | buffers of twice the size | 262144 words | twice / just | 262144 / 16384 words |\n|---|---|---|---|---|---|\n".to_string();
    for (kind, name) in [(Kind::Plain, "text alone"), (Kind::Ruby, "a Ruby in each paragraph"), (Kind::Formats, "Rubies and Formats")] {
        for (label, r) in shown(rows, Group::Sizes(kind)) {
            s += &format!("| {name}, {label} | {} | {} | {} | {} | {} |\n", cell(r.times[MERGE]), cell(r.times[TWICE]), cell(r.times[WORDS]), figures(r.ratio(TWICE, MERGE)), figures(r.ratio(WORDS, MERGE)));
        }
    }
    s
}

fn prices(rows: &[Row]) -> String {
    let mut s = "| book | the merge | of it up to number 17 | the price | price / up to 17 | price / merge |\n|---|---|---|---|---|---|\n".to_string();
    for r in rows.iter().filter(|r| has_price(&r.shown[0].0)) {
        s += &format!("| {} | {} | {} | {} | **{}** | {} |\n", name_of(r), cell(r.times[MERGE]), cell(r.times[SHORT]), cell(r.times[PRICE]), figures(r.ratio(PRICE, SHORT)), figures(r.ratio(PRICE, MERGE)));
    }
    s
}

fn power_of_two(n: u64) -> String { format!("{}2^{}", if n.is_power_of_two() { "" } else { "more than " }, n.ilog2()) }

fn shared_prices() -> String {
    let mut s = "| shared on each level | tape and bytes of the reading | texts it stands for | the price |\n|---|---|---|---|\n".to_string();
    for r in shared_rows() { s += &format!("| {} | {} | {} | {} |\n", r.name, thousands(r.bytes), power_of_two(r.texts), cell(Some(r.price))); }
    s
}

fn name_of(r: &Row) -> String {
    let (group, label) = &r.shown[0];
    match group {
        Group::Sizes(Kind::Plain) => format!("text alone, {label}"),
        Group::Sizes(Kind::Ruby) => format!("Rubies, {label}"),
        Group::Sizes(_) => format!("Rubies and Formats, {label}"),
        Group::Readings => format!("Rubies, 1 MB, nodes of the reading: {label}"),
        Group::Places => format!("Rubies, {label}"),
        Group::Shapes => label.clone(),
    }
}

// the cases in which side a takes longer than side b, each with the ratio, the largest first
fn longer(rows: &[Row], a: usize, b: usize) -> Vec<(f64, String)> {
    let mut v: Vec<(f64, String)> = rows.iter().map(|r| (r.ratio(a, b), name_of(r))).filter(|(x, _)| *x > 1.0).collect();
    v.sort_by(|a, b| b.0.total_cmp(&a.0));
    v
}

fn count(rows: &[Row], a: usize, b: usize) -> String {
    let v = longer(rows, a, b);
    match &v[..] {
        [] => "in no case".into(),
        [one] => format!("in one of {} cases, {} times", rows.len(), figures(one.0)),
        [first, .., last] => format!("in {} of {} cases, {} to {} times", v.len(), rows.len(), figures(last.0), figures(first.0)),
    }
}

// the first `most` of them
fn list(rows: &[Row], a: usize, b: usize, most: usize) -> String {
    let v = longer(rows, a, b);
    let all: Vec<String> = v.iter().take(most).map(|(x, name)| format!("\n- {} times: {name}", figures(*x))).collect();
    match v.len() {
        0 => "in no case.".into(),
        n => format!("{}{}:\n{}", count(rows, a, b), if n > most { ", most in these" } else { "" }, all.concat()),
    }
}

// ---- where the time goes: perf samples the merge of one case, called again and again

type Profile = Vec<(String, f64)>;

fn profile(c: &Case, seconds: u32) -> Profile {
    let mut o = Buffers::new(c.book.0.len() + 4 * c.reading.0.len() + 4096, c.book.1.len() + 2 * c.reading.1.len() + 4096);
    let data = std::env::temp_dir().join(format!("benchmark-{}.perf", std::process::id()));
    let data = data.to_str().unwrap();
    let pid = std::process::id().to_string();
    let perf = std::process::Command::new("perf").args(["record", "-q", "-o", data, "-p", &pid, "--", "sleep", &seconds.to_string()]).stderr(std::process::Stdio::null()).spawn();
    let Ok(mut perf) = perf else { return Vec::new() };
    while perf.try_wait().unwrap().is_none() { black_box(ours(c, &mut o)); }
    let report = said_by("perf", &["report", "-i", data, "--stdio", "--no-children", "-F", "overhead,symbol"]);
    let _ = std::fs::remove_file(data);
    let parsed = report.lines().filter_map(|l| {
        let (share, symbol) = l.trim().split_once('%')?;
        let (ring, name) = symbol.trim().split_once("] ")?;
        Some((if ring == "[k" { "the kernel".to_string() } else { name.trim().to_string() }, share.parse().ok()?))
    });
    let mut sums: Profile = Vec::new();
    for (name, share) in parsed {
        match sums.iter_mut().find(|s| s.0 == name) { Some(s) => s.1 += share, None => sums.push((name, share)) }
    }
    sums.sort_by(|a, b| b.1.total_cmp(&a.1));
    sums
}

const DOES: [(&str, &str); 7] = [
    ("utf8::is_utf8", "number 2: UTF-8 of both texts and of every string of the old book and of the reading"),
    ("incremental::merge", "the merge with all that is inlined into it: the result is written (texts, strings, layers, nodes and the other lists copied, offsets moved), numbers 12 to 16 tested"),
    ("tape::check_laid_out", "numbers 3 to 7 of each record: limits, ids and ranges, levels, places, drift"),
    ("places::places_of", "number 1: where each list begins"),
    ("layout::layout", "number 1: the shape of each record"),
    ("region::chosen_region", "the edit and the region, numbers 8 to 11"),
    ("strings::start_from", "where a string begins in the byte buffer"),
];

fn profile_table(p: &Profile) -> String {
    if p.is_empty() { return "(`perf` was not there when this was written.)\n".into(); }
    let mut s = "| function | share | what it does |\n|---|---|---|\n".to_string();
    for (name, share) in p.iter().filter(|(_, share)| *share >= 1.0) {
        let does = DOES.iter().find(|d| d.0 == name).map_or("", |d| d.1);
        s += &format!("| {} | {share:.0} % | {does} |\n", if does.is_empty() { name.clone() } else { format!("`{name}`") });
    }
    s
}

// the rows whose ratio to the limit is at most so much, and the range of all
fn to_limit(rows: &[Row]) -> String {
    let mut v: Vec<f64> = rows.iter().map(|r| r.ratio(MERGE, LIMIT)).filter(|x| !x.is_nan()).collect();
    v.sort_by(f64::total_cmp);
    let [first, .., last] = v[..] else { return "unknown, as this processor has no AVX2".into() };
    let within = |most: f64| v.iter().filter(|x| **x <= most).count();
    format!("{} to {} times the limit; at most 2 times in {} of {} cases, at most 3 times in {}", figures(first), figures(last), within(2.0), v.len(), within(3.0))
}

fn write(template: &str, docs: &str, rows: &[Row], flat: &[FlatRow], slow: &[HostileRow], p: &Profile, run: &Run) {
    let row = |kind: Kind, label: &str| shown(rows, Group::Sizes(kind)).into_iter().find(|s| s.0 == label).unwrap().1;
    let percent = |x: f64| format!("{:.0} %", 100.0 * x);
    let (largest, formats, usual) = (row(Kind::Ruby, "16 MB"), row(Kind::Formats, "16 MB"), row(Kind::Ruby, "1 MB"));
    let deep = flat.iter().find(|r| r.name == FLAT_DEEP).unwrap();
    let values: Vec<(&str, String)> = vec![
        ("date", said_by("date", &["-u", "+%F %H:%M UTC"])),
        ("machine", machine()),
        ("load", run.load.clone()),
        ("rustc", said_by("rustc", &["--version"])),
        ("rt", said_by("rt", &["version"])),
        ("commit", said_by("git", &["describe", "--always", "--dirty"])),
        ("minutes", format!("{:.1}", run.start.elapsed().as_secs_f64() / 60.0)),
        ("plain", table(rows, Group::Sizes(Kind::Plain), "text")),
        ("ruby", table(rows, Group::Sizes(Kind::Ruby), "text")),
        ("formats", table(rows, Group::Sizes(Kind::Formats), "text")),
        ("readings", table(rows, Group::Readings, "nodes of the reading")),
        ("places", table(rows, Group::Places, "book and edit")),
        ("shapes", table(rows, Group::Shapes, "book")),
        ("lent", lent(rows)),
        ("prices", prices(rows)),
        ("shared-prices", shared_prices()),
        ("flat", flat_table(flat)),
        ("flat-exponent", flat_exponent(flat, FLAT)),
        ("flat-words-exponent", flat_exponent(flat, FLAT_WORDS)),
        ("merge-exponent", flat_exponent(flat, MERGE)),
        ("flat-deep", duration(deep.median(FLAT))),
        ("flat-deep-graft", figures(deep.median(FLAT) / deep.median(REPARSE))),
        ("behind-count", count(rows, MERGE, REPARSE)),
        ("ahead-count", count(rows, REPARSE, MERGE)),
        ("behind-tapes-count", count(rows, MERGE, TAPES)),
        ("ahead-tapes-count", count(rows, TAPES, MERGE)),
        ("behind-quick-count", count(rows, MERGE, QUICK)),
        ("ahead-quick-count", count(rows, QUICK, MERGE)),
        ("behind-quick", list(rows, MERGE, QUICK, 99)),
        ("intern-share", percent(usual.ratio(INTERN, QUICK))),
        ("without-intern", figures(usual.median(MERGE) / (usual.median(QUICK) - usual.median(INTERN)))),
        ("to-limit", to_limit(rows)),
        ("hostile", hostile_table(slow)),
        ("hostile-summary", if slow.is_empty() { String::new() } else { hostile_summary(slow) }),
        ("archive", std::env::var("ARCHIVE").map_or("that of `rt lib` in crates/exports".into(), |s| format!("one that was given, `{s}`, and may be unproved"))),
        ("behind", list(rows, MERGE, REPARSE, 6)),
        ("ahead", list(rows, REPARSE, MERGE, 99)),
        ("behind-tapes", list(rows, MERGE, TAPES, 99)),
        ("check-share", percent(largest.ratio(CHECK, MERGE))),
        ("check-reparse", figures(largest.ratio(CHECK, REPARSE))),
        ("rest-reparse", figures((largest.median(MERGE) - largest.median(CHECK)) / largest.median(REPARSE))),
        ("words-16384", duration(formats.median(MERGE))),
        ("words-262144", duration(formats.median(WORDS))),
        ("words-rust", duration(formats.median(REPARSE))),
        ("words-ratio", figures(formats.ratio(WORDS, REPARSE))),
        ("clock", duration(run.clock)),
        ("profile", profile_table(p)),
    ];
    let mut text = std::fs::read_to_string(template).unwrap();
    for (name, value) in &values { text = text.replace(&format!("{{{{{name}}}}}"), value.trim_end()); }
    print!("{text}");
    std::fs::write(format!("{docs}/BENCHMARKS.md"), &text).unwrap();
    std::fs::write(format!("{docs}/benchmarks.svg"), plot(rows)).unwrap();
    assert!(!text.contains("{{"), "a name in the template that is not known");
}
