//! The proved code, crates/exports/out/libexports.a (`rt lib` in crates/exports), as the Rust binding calls it. Every buffer is lent full of sevens.
use crate::book::{Answer, Case, Room, Stored};
use lent::Edit;

#[path = "../../../bindings/rust/src/ffi.rs"]
mod ffi;
#[path = "../../../bindings/rust/src/lent.rs"]
mod lent;

#[derive(Default)]
pub struct Archive {
    tape: Vec<u8>,
    bytes: Vec<u8>,
    work: Vec<u32>,
}

fn zeros(s: &[u8]) -> bool {
    // no early exit, so that it is done many bytes at a time
    s.iter().fold(0, |a, b| a | b) == 0
}

impl Archive {
    fn lend(&mut self, room: Room) {
        for (buffer, len) in [(&mut self.tape, room[0]), (&mut self.bytes, room[1])] {
            buffer.clear();
            buffer.resize(len, 7);
        }
        self.work.clear();
        self.work.resize(room[2], 0x0707_0707);
    }
    fn given_back(&self, tape: usize, bytes: usize) {
        assert!(zeros(&self.tape[tape..]) && zeros(&self.bytes[bytes..]), "not zero behind the result");
        assert!(self.work.iter().fold(0, |x, y| x | y) == 0, "a work word is not zero");
    }
    /// The answer, or the number. A panic where something behind the result, or a work word, is not zero.
    pub fn merge(&mut self, c: &Case, room: Room) -> Result<Answer, u32> {
        self.lend(room);
        let (book, reading) = (lent::Stored::new(&c.tape, &c.bytes), lent::Stored::new(&c.rtape, &c.rbytes));
        let a = ffi::merge(book, Edit::new(c.start, c.end, &c.replacement), reading, lent::Room::new(&mut self.tape, &mut self.bytes), &mut self.work);
        self.given_back(a.tape, a.bytes);
        if a.number != 0 {
            let rest = [u64::from(a.start), u64::from(a.end), u64::from(a.reused), u64::from(a.reread), a.tape as u64, a.bytes as u64];
            assert!(rest == [0; 6] && a.counts() == [0; 7], "a refusal with an answer");
            return Err(a.number);
        }
        let (tape, bytes) = (self.tape[..a.tape].to_vec(), self.bytes[..a.bytes].to_vec());
        Ok(Answer { region: [a.start, a.end], reused: a.reused, reread: a.reread, counts: a.counts(), tape, bytes })
    }
    /// The flat book, or the number. A panic where something behind the result, or a work word, is not zero.
    pub fn flatten(&mut self, book: &Stored, room: Room) -> Result<Stored, u32> {
        self.lend(room);
        let a = ffi::flatten_book(lent::Stored::new(&book.tape, &book.bytes), lent::Room::new(&mut self.tape, &mut self.bytes), &mut self.work);
        self.given_back(a.tape, a.bytes);
        if a.number != 0 {
            assert!((a.tape, a.bytes) == (0, 0), "a refusal with an answer");
            return Err(a.number);
        }
        Ok(Stored { tape: self.tape[..a.tape].to_vec(), bytes: self.bytes[..a.bytes].to_vec() })
    }
    /// `words` are lent
    pub fn region(&mut self, tape: &[u8], bytes: &[u8], start: u32, end: u32, replacement: &[u8], words: usize) -> Result<[u32; 2], u32> {
        self.work.clear();
        self.work.resize(words, 0x0707_0707);
        let a = ffi::choose_region(lent::Stored::new(tape, bytes), Edit::new(start, end, replacement), &mut self.work);
        assert!(self.work.iter().all(|w| *w == 0), "a word is not zero");
        if a.number == 0 { Ok([a.start, a.end]) } else { Err(a.number) }
    }
}

/// 0, or the number.
pub fn check_book(book: &Stored) -> u32 {
    ffi::check_book(lent::Stored::new(&book.tape, &book.bytes))
}

/// The node, or the number of a book that is none.
pub fn node_at_source(tape: &[u8], bytes: &[u8], offset: u32) -> Result<Option<usize>, u32> {
    let a = ffi::node_at_source(lent::Stored::new(tape, bytes), offset);
    if a.number == 0 { Ok(a.found.then_some(a.node)) } else { Err(a.number) }
}

pub fn diagnostics_allow_incremental(tape: &[u8], bytes: &[u8]) -> Result<bool, u32> {
    let a = ffi::diagnostics_allow_incremental(lent::Stored::new(tape, bytes));
    if a.number == 0 { Ok(a.allowed) } else { Err(a.number) }
}
