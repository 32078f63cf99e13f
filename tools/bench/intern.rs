#![allow(dead_code, unfulfilled_lint_expectations)]
// The same inputs through the Rust's interner and the proved one: fx_hash, and intern of n strings. Medians of 31 runs, taken in turn.
#[path = "intern_rs.rs"]
mod intern_rs;
use intern_rs::*;
use std::hint::black_box;
use std::time::Instant;
unsafe extern "C" {
    fn rt_fx_hash(p: *const u8, n: usize) -> u64;
    fn rt_intern_all(w: *mut u32, wn: usize, s: *mut u8, sn: usize, src: *const u8, srcn: usize, n: u32, width: u32, twice: bool) -> u64;
}
#[inline(never)]
fn rust_hash(b: &[u8]) -> u64 { fx_hash(b) }
fn median(v: &mut Vec<f64>) -> f64 { v.sort_by(|a, b| a.partial_cmp(b).unwrap()); v[v.len() / 2] }
fn duel(label: &str, mut a: impl FnMut() -> u64, mut b: impl FnMut() -> u64) {
    assert_eq!(a(), b());
    let (mut x, mut y) = (vec![], vec![]);
    for _ in 0..31 {
        let t = Instant::now(); black_box(a()); x.push(t.elapsed().as_secs_f64());
        let t = Instant::now(); black_box(b()); y.push(t.elapsed().as_secs_f64());
    }
    let (r, v) = (median(&mut x), median(&mut y));
    println!("{label:42} rust {:9.1} us  rattle {:9.1} us  ratio {:.2}", r * 1e6, v * 1e6, v / r);
}
fn text(japanese: bool, len: usize) -> String {
    let j = ["青", "空", "文", "庫", "の", "本", "を", "読"];
    let mut s = String::new(); let mut i = 0;
    while s.len() < len { if japanese && s.len() + 3 <= len { s += j[i % 8]; } else { s.push((b'a' + (i % 26) as u8) as char); } i += 1; }
    s
}
fn main() {
    for japanese in [false, true] { for len in [8usize, 16, 32, 64] {
        let s = text(japanese, len); let b = s.as_bytes();
        duel(&format!("fx_hash {} {len} bytes x 20000", if japanese { "Japanese" } else { "ASCII" }),
            || { let mut h = 0u64; for _ in 0..20000 { h = h.wrapping_add(rust_hash(black_box(b))); } h },
            || { let mut h = 0u64; for _ in 0..20000 { let b = black_box(b); h = h.wrapping_add(unsafe { rt_fx_hash(b.as_ptr(), b.len()) }); } h });
    } }
    let mut work = vec![0u32; 16384]; let mut strs = vec![0u8; 1 << 18];
    for (label, japanese, width) in [("ASCII", false, 8usize), ("ASCII", false, 24), ("Japanese", true, 24), ("ASCII", false, 64)] {
        let n = 3000usize;
        let mut src = String::new();
        for i in 0..n { let mut t = format!("{i:04}"); t += &text(japanese, width - 4); assert_eq!(t.len(), width); src += &t; }
        for twice in [false, true] {
            let sb = src.as_bytes();
            let rounds = if twice { 2 } else { 1 };
            duel(&format!("intern {n} {label} of {width} bytes, {rounds} x"),
                || { let mut t = StrInterner::default(); for _ in 0..rounds { for i in 0..n { black_box(t.intern(&src[i * width..(i + 1) * width])); } } t.stats.probe_steps },
                || unsafe { rt_intern_all(work.as_mut_ptr(), work.len(), strs.as_mut_ptr(), strs.len(), sb.as_ptr(), sb.len(), n as u32, width as u32, twice) });
        }
    }
}
