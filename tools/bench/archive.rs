// The archive's entries that the drivers call, by the Rust binding's declarations (bindings/rust/src/ffi.rs), on tapes and buffers of their own.
#[path = "../../bindings/rust/src/ffi.rs"]
mod ffi;
#[path = "../../bindings/rust/src/lent.rs"]
mod lent;

// a tape and its byte buffer
type Tape = (Vec<u8>, Vec<u8>);

// what a merge is lent
struct Buffers { tape: Vec<u8>, bytes: Vec<u8>, work: Vec<u32> }

impl Buffers {
    // filled, so that every page is there before a call is timed
    fn new(tape: usize, bytes: usize) -> Self { Buffers { tape: vec![7; tape], bytes: vec![7; bytes], work: vec![7; 16384] } }
    fn lent(&mut self) -> (lent::Room<'_>, &mut [u32]) { (lent::Room::new(&mut self.tape, &mut self.bytes), &mut self.work) }
}

fn stored(b: &Tape) -> lent::Stored<'_> { lent::Stored::new(&b.0, &b.1) }

fn edit(at: (usize, usize), replacement: &[u8]) -> lent::Edit<'_> { lent::Edit::new(at.0 as u32, at.1 as u32, replacement) }

fn check_book(b: &Tape) -> u32 { ffi::check_book(stored(b)) }

fn check_reading(r: &Tape) -> u32 { ffi::check_reading(stored(r)) }

fn choose_region(b: &Tape, at: (usize, usize), replacement: &[u8], words: &mut [u32]) -> ffi::RegionAnswer { ffi::choose_region(stored(b), edit(at, replacement), words) }

fn estimate(b: &Tape, at: (usize, usize), replacement: &[u8], r: &Tape, words: &mut [u32]) -> ffi::PriceAnswer { ffi::estimate(stored(b), edit(at, replacement), stored(r), words) }

fn merge(b: &Tape, at: (usize, usize), replacement: &[u8], r: &Tape, o: &mut Buffers) -> ffi::MergeAnswer {
    let (room, work) = o.lent();
    ffi::merge(stored(b), edit(at, replacement), stored(r), room, work)
}

fn flatten(b: &Tape, o: &mut Buffers) -> ffi::CopyAnswer {
    let (room, work) = o.lent();
    ffi::flatten_book(stored(b), room, work)
}
