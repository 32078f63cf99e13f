// Times the entries on whole books. check_book on books of 100 kB, 1 MB and 16 MB text: the time per byte is of tape and byte buffer
// together. choose_region where its search or number 10 has much to do, beside check_book of the same book, which is a part of it.
// Best and median of 15 runs each.
unsafe extern "C" {
    fn rt_check_book(t: *const u8, tn: usize, d: *const u8, dn: usize) -> u32;
    fn rt_choose_region(t: *const u8, tn: usize, d: *const u8, dn: usize, start: u32, end: u32, r: *const u8, rn: usize, w: *mut u32, wn: usize) -> u64;
}

include!("book.rs");

// A novel of about `size` bytes: a Ruby in every 57 bytes, a blank line behind every eight, and text alone behind 262,143 nodes.
fn novel(size: usize) -> Book {
    let mut b = Book::default();
    let mut i = 0;
    while b.text.len() + 64 <= size && i < 262143 {
        b.put("青空文庫の本を読む人は");
        b.ruby(["青空", "文庫", "漢字"][i % 3], ["あおぞら", "ぶんこ", "かんじ"][i % 3]);
        b.put(if i % 8 == 7 { "を繰返す。\n\n" } else { "を繰り返す" });
        b.put("。");
        i += 1;
    }
    while b.text.len() + 28 <= size { b.put("青空文庫の本を読む\n"); }
    b
}

// `n` paragraphs of 60 bytes with a Ruby each, and `formats` Formats at equal distances whose targets are no Ruby's base
fn rubies(n: usize, formats: usize) -> Book {
    let mut b = Book::default();
    for i in 0..n {
        b.put("青空文庫の本を読む人は");
        b.ruby(&format!("語{i:05}"), "ご");
        if formats > 0 && i % (n / formats) == 0 { b.format("［傍点］", &format!("言{i:05}")); }
        b.put("。\n\n");
    }
    b
}

// a container that opens at the front, and paragraphs with a Ruby each inside of it
fn contained(n: usize, open: impl Fn(&mut Book)) -> Book {
    let mut b = Book::default();
    b.put("はじめ\n\n");
    open(&mut b);
    for _ in 0..n { b.put("\n\n青空文庫の本を読む"); b.ruby("人", "ひと"); }
    b.put("\n\n");
    b
}

// paragraphs in brackets that close behind the blank line, with so many rubies in each
fn bracketed(n: usize, rubies: usize) -> Book {
    let mut b = Book::default();
    b.put("はじめ\n\n");
    for _ in 0..n {
        let o = b.text.len();
        b.put("「青空文庫の本");
        for _ in 0..rubies { b.ruby("人", "ひと"); }
        b.put("\n\nを読む」");
        let c = b.text.len();
        b.pair((o, o + 3), (c - 3, c));
        b.put("\n");
    }
    b
}

// brackets in brackets, each opening behind a blank line, in the order in which they close
fn nested(n: usize) -> Book {
    let mut b = Book::default();
    b.put("はじめ\n\n");
    let opens: Vec<usize> = (0..n).map(|_| { let o = b.text.len(); b.put("「青空文庫の本\n\n"); o }).collect();
    for o in opens.into_iter().rev() {
        let c = b.text.len();
        b.put("」");
        b.pair((o, o + 3), (c, c + 3));
    }
    b.put("\n");
    b
}

// a close without an open in each paragraph
fn unmatched(n: usize) -> Book {
    let mut b = Book::default();
    b.put("はじめ\n\n");
    for _ in 0..n { b.put("青空文庫の本\n"); b.block("［ここで字下げ終わり］", 3); b.put("\n"); }
    b
}

fn measure(label: &str, b: &Book, at: usize) {
    let (t, d) = b.done();
    let mut w = vec![0u32; 16384];
    let r = b"x";
    let check = || unsafe { rt_check_book(t.as_ptr(), t.len(), d.as_ptr(), d.len()) };
    assert_eq!(check(), 0);
    let mut choose = || unsafe { rt_choose_region(t.as_ptr(), t.len(), d.as_ptr(), d.len(), at as u32, at as u32, r.as_ptr(), r.len(), w.as_mut_ptr(), w.len()) };
    let answer = choose();
    let (c, cm) = times(|| { std::hint::black_box(check()); });
    let (a, am) = times(|| { std::hint::black_box(choose()); });
    println!("choose_region: {label}: {} nodes, {} pairs: best {:.1} us, median {:.1} us (check_book of it {:.1} us, {:.1} us); answer {} {}",
        b.nodes.len() / 49, b.pairs.len() / 18, a * 1e6, am * 1e6, c * 1e6, cm * 1e6, answer >> 32, answer & 0xffffffff);
}

fn main() {
    for size in [100_000, 1_000_000, 16_777_215] {
        let b = novel(size);
        let (t, d) = b.done();
        let check = || unsafe { rt_check_book(t.as_ptr(), t.len(), d.as_ptr(), d.len()) };
        assert_eq!(check(), 0);
        let (best, median) = times(|| { std::hint::black_box(check()); });
        let all = (t.len() + d.len()) as f64;
        println!("check_book: text {:8} bytes, {:6} nodes, {:8} bytes in all: best {:9.1} us, median {:9.1} us, {:.3} and {:.3} ns a byte",
            b.text.len(), b.nodes.len() / 49, all, best * 1e6, median * 1e6, best * 1e9 / all, median * 1e9 / all);
    }
    for size in [100_000, 1_000_000, 16_777_215] {
        let b = novel(size);
        measure(&format!("novel of {size} bytes, edit at the front"), &b, 0);
        measure(&format!("novel of {size} bytes, edit at the end"), &b, b.text.len());
    }
    measure("20,000 rubies, no formats", &rubies(20000, 0), 0);
    measure("20,000 rubies, 2,000 referenced formats", &rubies(20000, 2000), 0);
    for n in [1000, 10000, 100000] {
        let b = contained(n, |b| { b.block("［ここから字下げ］", 2); });
        measure(&format!("a block container over {n} paragraphs, edit at the end"), &b, b.text.len() - 1);
        let b = contained(n, |b| b.directive("［割り注］", 4));
        measure(&format!("an unclosed warichu over {n} paragraphs, edit at the end"), &b, b.text.len() - 1);
    }
    for n in [100, 1000, 10000] {
        let b = bracketed(n, 0);
        measure(&format!("{n} brackets across blank lines, edit at the end"), &b, b.text.len() - 1);
    }
    for n in [100, 1000, 10000] {
        let b = nested(n);
        measure(&format!("{n} brackets in brackets across blank lines, edit at the end"), &b, b.text.len() - 1);
    }
    for n in [1000, 10000, 100000] {
        let b = unmatched(n);
        measure(&format!("{n} closes without an open, edit at the end"), &b, b.text.len() - 1);
    }
    let b = bracketed(5000, 4);
    measure("5000 brackets across blank lines with 4 rubies in each, edit at the end", &b, b.text.len() - 1);
}
