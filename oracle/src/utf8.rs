//! Number 2 against the Rust's `from_utf8`: byte strings, random and damaged, go to `check_book` as the text, as a string between strings, and cut
//! into four parts as text, normalized text and two strings. utf8 [--seed N] [--count N] prints how many there were and how many differ.

#[path = "../../bindings/rust/src/ffi.rs"]
mod ffi;
#[path = "../../bindings/rust/src/lent.rs"]
mod lent;

struct Random(u64);

impl Random {
    fn next(&mut self) -> u64 {
        self.0 ^= self.0 >> 12;
        self.0 ^= self.0 << 25;
        self.0 ^= self.0 >> 27;
        self.0.wrapping_mul(0x2545_f491_4f6c_dd1d) >> 32
    }
    fn below(&mut self, n: usize) -> usize {
        (self.next() * n as u64 >> 32) as usize
    }
    fn of<T: Copy>(&mut self, all: &[T]) -> T {
        all[self.below(all.len())]
    }
}

// first and last of each range of RFC 3629's table, and their neighbours
const BYTES: [u8; 26] = [
    0x00, 0x7f, 0x80, 0x8f, 0x90, 0x9f, 0xa0, 0xbf, 0xc0, 0xc1, 0xc2, 0xdf, 0xe0, 0xe1, 0xec, 0xed, 0xee, 0xef, 0xf0, 0xf1, 0xf3, 0xf4, 0xf5, 0xf7, 0xf8, 0xff,
];
const CHARS: [char; 16] = [
    '\0', 'a', '\u{7f}', '\u{80}', '\u{7ff}', '\u{800}', '\u{fff}', '\u{1000}', '青', '\u{cfff}', '\u{d7ff}', '\u{e000}', '\u{ffff}', '\u{10000}', '\u{3ffff}', '\u{10ffff}',
];

fn length(r: &mut Random) -> usize {
    if r.below(100) == 0 { r.below(5000) } else { r.below(301) }
}

/// Whole characters, of one kind for the most part, at most n bytes.
fn valid(r: &mut Random, n: usize) -> Vec<u8> {
    let usual = r.of(&CHARS);
    let mut s = String::new();
    loop {
        let c = if r.below(4) == 0 { r.of(&CHARS) } else { usual };
        if s.len() + c.len_utf8() > n {
            return s.into_bytes();
        }
        s.push(c);
    }
}

/// A place: anywhere, or within four bytes of a multiple of 64, or of the end.
fn place(r: &mut Random, n: usize) -> usize {
    let near = match r.below(3) {
        0 => r.below(n + 1),
        1 => r.below(n / 64 + 1) * 64 + r.below(8),
        _ => n + 4 - r.below(5),
    };
    near.saturating_sub(4).min(n)
}

fn damage(r: &mut Random, s: &mut Vec<u8>) {
    let at = place(r, s.len());
    match r.below(5) {
        0 => s.truncate(at),
        1 => s.insert(at, r.of(&BYTES)),
        2 if at < s.len() => drop(s.remove(at)),
        3 if at < s.len() => s[at] ^= 1 << r.below(8),
        _ if at < s.len() => s[at] = r.of(&BYTES),
        _ => s.push(r.of(&BYTES)),
    }
}

fn string(r: &mut Random) -> Vec<u8> {
    let n = length(r);
    match r.below(8) {
        0 => (0..n).map(|_| r.next() as u8).collect(),
        1 => (0..n).map(|_| r.of(&BYTES)).collect(),
        2 => (0..r.below(7)).map(|_| r.of(&BYTES)).collect(),
        kind => {
            let mut s = valid(r, n);
            for _ in 0..[0, 1, 1, 1, 2][kind - 3] {
                damage(r, &mut s);
            }
            s
        }
    }
}

/// A book of one layer, of these parts: text, normalized text, strings.
fn book(parts: &[&[u8]]) -> (Vec<u8>, Vec<u8>) {
    let word = |p: &[u8]| (p.len() as u32).to_le_bytes();
    let mut tape = [&[1][..], &word(parts[0]), &word(parts[1]), &[2]].concat();
    for p in &parts[2..] {
        tape.push(3);
        tape.extend_from_slice(&word(p));
    }
    tape.push(10);
    (tape, parts.concat())
}

/// Whether both say the same. A book that passes number 2 here has answer 0, or 7 where its texts differ in length.
fn agrees(parts: &[&[u8]]) -> bool {
    let (tape, bytes) = book(parts);
    let number = ffi::check_book(lent::Stored::new(&tape, &bytes));
    let valid = parts.iter().all(|p| core::str::from_utf8(p).is_ok());
    number == if !valid { 2 } else if parts[0].len() == parts[1].len() { 0 } else { 7 }
}

fn cut<'a>(r: &mut Random, s: &'a [u8]) -> [&'a [u8]; 4] {
    let mut at = [0; 3].map(|_| place(r, s.len()));
    at.sort();
    [&s[..at[0]], &s[at[0]..at[1]], &s[at[1]..at[2]], &s[at[2]..]]
}

fn main() {
    let args: Vec<String> = std::env::args().collect();
    let option = |name: &str, usual: u64| args.iter().position(|a| a == name).map_or(usual, |i| args[i + 1].parse().expect("a number"));
    let (seed, count) = (option("--seed", 2026), option("--count", 5_000_000));
    let mut r = Random(seed.wrapping_mul(0x9e37_79b9_7f4a_7c15) | 1);
    let (mut differ, mut whole) = (0, 0);
    for _ in 0..count {
        let (s, before, behind) = (string(&mut r), valid(&mut r, 20), valid(&mut r, 20));
        let (none, parts) = (&b""[..], cut(&mut r, &s));
        whole += u64::from(core::str::from_utf8(&s).is_ok());
        for parts in [&[&s[..], none][..], &[none, none, &before, &s, &behind], &parts] {
            if !agrees(parts) {
                differ += 1;
                if differ <= 10 {
                    println!("differs: {parts:02x?}");
                }
            }
        }
    }
    println!("seed {seed}: {count} strings, {whole} of them UTF-8, in {} books: {differ} differences", 3 * count);
    std::process::exit(i32::from(differ > 0));
}
