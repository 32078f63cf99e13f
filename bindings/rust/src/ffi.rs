//! The entries of the archive: the only `unsafe` code of this crate.
//!
//! The archive is `libexports.a`, made of crates/exports; bindings/c/aozora.h declares the same for
//! C, and the tests below compare all three. `oracle` and `tools/bench` have this file too, by its
//! path, so it names no other module but lent.rs.
//!
//! Each entry is proved to meet its contract on every input. What a contract cannot say, because it
//! is about pointers, is left to the caller in C: a pointer is not null and is valid for its length,
//! and what is written overlaps with nothing else that is passed. Here the type of a slice gives all
//! three: `as_ptr` of a slice is never null, it is valid for `len` items for the time of the call,
//! and a `&mut` slice overlaps with no other. Nothing is kept behind a call.

use super::lent::{Correction, Edit, Orders, Room, Stored};

#[repr(C)]
pub(crate) struct AllowedAnswer {
    pub number: u32,
    pub allowed: bool,
}

#[repr(C)]
pub(crate) struct NodeAnswer {
    pub number: u32,
    pub found: bool,
    pub node: usize,
}

#[repr(C)]
pub(crate) struct RangeAnswer {
    pub number: u32,
    pub found: bool,
    pub place: usize,
    pub count: u32,
}

#[repr(C)]
pub(crate) struct StrAnswer {
    pub number: u32,
    pub found: bool,
    pub start: usize,
    pub end: usize,
}

#[repr(C)]
pub(crate) struct CopyAnswer {
    pub number: u32,
    pub tape: usize,
    pub bytes: usize,
}

#[repr(C)]
pub(crate) struct RegionAnswer {
    pub number: u32,
    pub start: u32,
    pub end: u32,
}

#[repr(C)]
pub(crate) struct PriceAnswer {
    pub number: u32,
    pub reread: u32,
    pub calls: u32,
    pub contents: u32,
    pub segments: u32,
    pub bytes: usize,
}

#[repr(C)]
pub(crate) struct MergeAnswer {
    pub number: u32,
    pub start: u32,
    pub end: u32,
    pub reused: u32,
    pub reread: u32,
    pub calls: u64,
    pub cache_hits: u64,
    pub table_hits: u64,
    pub allocs: u64,
    pub long_bypass: u64,
    pub resizes: u64,
    pub probe_steps: u64,
    pub tape: usize,
    pub bytes: usize,
}

impl MergeAnswer {
    /// The interner's seven counts, in their order.
    #[allow(dead_code)] // for `oracle` and `tools/bench`, which compare them with the Rust's
    pub fn counts(&self) -> [u64; 7] {
        [
            self.calls,
            self.cache_hits,
            self.table_hits,
            self.allocs,
            self.long_bypass,
            self.resizes,
            self.probe_steps,
        ]
    }
}

#[repr(C)]
pub(crate) struct OrdersAnswer {
    pub earlier_first: MergeAnswer,
    pub later_second: MergeAnswer,
    pub later_first: MergeAnswer,
    pub earlier_second: MergeAnswer,
}

unsafe extern "C" {
    fn aozora_check_book(
        tape: *const u8,
        tape_len: usize,
        bytes: *const u8,
        bytes_len: usize,
    ) -> u32;
    fn aozora_check_reading(
        tape: *const u8,
        tape_len: usize,
        bytes: *const u8,
        bytes_len: usize,
    ) -> u32;
    fn aozora_diagnostics_allow_incremental(
        tape: *const u8,
        tape_len: usize,
        bytes: *const u8,
        bytes_len: usize,
    ) -> AllowedAnswer;
    fn aozora_node_at_source(
        tape: *const u8,
        tape_len: usize,
        bytes: *const u8,
        bytes_len: usize,
        offset: u32,
    ) -> NodeAnswer;
    fn aozora_lookup_str(
        tape: *const u8,
        tape_len: usize,
        bytes: *const u8,
        bytes_len: usize,
        id: u32,
    ) -> StrAnswer;
    fn aozora_lookup_contents(
        tape: *const u8,
        tape_len: usize,
        bytes: *const u8,
        bytes_len: usize,
        start: u32,
        len: u32,
    ) -> RangeAnswer;
    fn aozora_lookup_segments(
        tape: *const u8,
        tape_len: usize,
        bytes: *const u8,
        bytes_len: usize,
        start: u32,
        len: u32,
    ) -> RangeAnswer;
    fn aozora_copy_book(
        tape: *const u8,
        tape_len: usize,
        bytes: *const u8,
        bytes_len: usize,
        out_tape: *mut u8,
        out_tape_len: usize,
        out_bytes: *mut u8,
        out_bytes_len: usize,
    ) -> CopyAnswer;
    fn aozora_flatten_book(
        tape: *const u8,
        tape_len: usize,
        bytes: *const u8,
        bytes_len: usize,
        out_tape: *mut u8,
        out_tape_len: usize,
        out_bytes: *mut u8,
        out_bytes_len: usize,
        work: *mut u32,
        work_len: usize,
    ) -> CopyAnswer;
    fn aozora_choose_region(
        tape: *const u8,
        tape_len: usize,
        bytes: *const u8,
        bytes_len: usize,
        start: u32,
        end: u32,
        replacement: *const u8,
        replacement_len: usize,
        words: *mut u32,
        words_len: usize,
    ) -> RegionAnswer;
    fn aozora_estimate(
        tape: *const u8,
        tape_len: usize,
        bytes: *const u8,
        bytes_len: usize,
        start: u32,
        end: u32,
        replacement: *const u8,
        replacement_len: usize,
        reading_tape: *const u8,
        reading_tape_len: usize,
        reading_bytes: *const u8,
        reading_bytes_len: usize,
        work: *mut u32,
        work_len: usize,
    ) -> PriceAnswer;
    fn aozora_merge(
        tape: *const u8,
        tape_len: usize,
        bytes: *const u8,
        bytes_len: usize,
        start: u32,
        end: u32,
        replacement: *const u8,
        replacement_len: usize,
        reading_tape: *const u8,
        reading_tape_len: usize,
        reading_bytes: *const u8,
        reading_bytes_len: usize,
        out_tape: *mut u8,
        out_tape_len: usize,
        out_bytes: *mut u8,
        out_bytes_len: usize,
        work: *mut u32,
        work_len: usize,
    ) -> MergeAnswer;
    fn aozora_merge_for_desk(
        desk: u32,
        ledger: *mut u32,
        ledger_len: usize,
        tape: *const u8,
        tape_len: usize,
        bytes: *const u8,
        bytes_len: usize,
        start: u32,
        end: u32,
        replacement: *const u8,
        replacement_len: usize,
        reading_tape: *const u8,
        reading_tape_len: usize,
        reading_bytes: *const u8,
        reading_bytes_len: usize,
        out_tape: *mut u8,
        out_tape_len: usize,
        out_bytes: *mut u8,
        out_bytes_len: usize,
        work: *mut u32,
        work_len: usize,
    ) -> MergeAnswer;
    fn aozora_merge_both_orders(
        tape: *const u8,
        tape_len: usize,
        bytes: *const u8,
        bytes_len: usize,
        start1: u32,
        end1: u32,
        replacement1: *const u8,
        replacement1_len: usize,
        reading_tape1: *const u8,
        reading_tape1_len: usize,
        reading_bytes1: *const u8,
        reading_bytes1_len: usize,
        start2: u32,
        end2: u32,
        replacement2: *const u8,
        replacement2_len: usize,
        reading_tape2: *const u8,
        reading_tape2_len: usize,
        reading_bytes2: *const u8,
        reading_bytes2_len: usize,
        tape1: *mut u8,
        tape1_len: usize,
        bytes1: *mut u8,
        bytes1_len: usize,
        tape2: *mut u8,
        tape2_len: usize,
        bytes2: *mut u8,
        bytes2_len: usize,
        tape3: *mut u8,
        tape3_len: usize,
        bytes3: *mut u8,
        bytes3_len: usize,
        tape4: *mut u8,
        tape4_len: usize,
        bytes4: *mut u8,
        bytes4_len: usize,
        work: *mut u32,
        work_len: usize,
    ) -> OrdersAnswer;
}

pub(crate) fn check_book(book: Stored<'_>) -> u32 {
    // SAFETY: both pointers are those of borrowed slices: not null, valid for their lengths;
    // nothing is written.
    unsafe {
        aozora_check_book(
            book.tape.as_ptr(),
            book.tape.len(),
            book.bytes.as_ptr(),
            book.bytes.len(),
        )
    }
}

pub(crate) fn check_reading(reading: Stored<'_>) -> u32 {
    // SAFETY: both pointers are those of borrowed slices: not null, valid for their lengths;
    // nothing is written.
    unsafe {
        aozora_check_reading(
            reading.tape.as_ptr(),
            reading.tape.len(),
            reading.bytes.as_ptr(),
            reading.bytes.len(),
        )
    }
}

pub(crate) fn diagnostics_allow_incremental(book: Stored<'_>) -> AllowedAnswer {
    // SAFETY: both pointers are those of borrowed slices: not null, valid for their lengths;
    // nothing is written.
    unsafe {
        aozora_diagnostics_allow_incremental(
            book.tape.as_ptr(),
            book.tape.len(),
            book.bytes.as_ptr(),
            book.bytes.len(),
        )
    }
}

pub(crate) fn node_at_source(book: Stored<'_>, offset: u32) -> NodeAnswer {
    // SAFETY: both pointers are those of borrowed slices: not null, valid for their lengths;
    // nothing is written.
    unsafe {
        aozora_node_at_source(
            book.tape.as_ptr(),
            book.tape.len(),
            book.bytes.as_ptr(),
            book.bytes.len(),
            offset,
        )
    }
}

pub(crate) fn lookup_str(book: Stored<'_>, id: u32) -> StrAnswer {
    // SAFETY: both pointers are those of borrowed slices: not null, valid for their lengths;
    // nothing is written.
    unsafe {
        aozora_lookup_str(
            book.tape.as_ptr(),
            book.tape.len(),
            book.bytes.as_ptr(),
            book.bytes.len(),
            id,
        )
    }
}

pub(crate) fn lookup_contents(book: Stored<'_>, start: u32, len: u32) -> RangeAnswer {
    // SAFETY: both pointers are those of borrowed slices: not null, valid for their lengths;
    // nothing is written.
    unsafe {
        aozora_lookup_contents(
            book.tape.as_ptr(),
            book.tape.len(),
            book.bytes.as_ptr(),
            book.bytes.len(),
            start,
            len,
        )
    }
}

pub(crate) fn lookup_segments(book: Stored<'_>, start: u32, len: u32) -> RangeAnswer {
    // SAFETY: both pointers are those of borrowed slices: not null, valid for their lengths;
    // nothing is written.
    unsafe {
        aozora_lookup_segments(
            book.tape.as_ptr(),
            book.tape.len(),
            book.bytes.as_ptr(),
            book.bytes.len(),
            start,
            len,
        )
    }
}

pub(crate) fn copy_book(book: Stored<'_>, room: Room<'_>) -> CopyAnswer {
    // SAFETY: all pointers are those of borrowed slices: not null, valid for their lengths; the two
    // that are written are borrowed `&mut`, so they overlap with nothing that is passed.
    unsafe {
        aozora_copy_book(
            book.tape.as_ptr(),
            book.tape.len(),
            book.bytes.as_ptr(),
            book.bytes.len(),
            room.tape.as_mut_ptr(),
            room.tape.len(),
            room.bytes.as_mut_ptr(),
            room.bytes.len(),
        )
    }
}

pub(crate) fn flatten_book(book: Stored<'_>, room: Room<'_>, work: &mut [u32]) -> CopyAnswer {
    // SAFETY: all pointers are those of borrowed slices: not null, valid for their lengths; the
    // three that are written are borrowed `&mut`, so they overlap with nothing that is passed.
    unsafe {
        aozora_flatten_book(
            book.tape.as_ptr(),
            book.tape.len(),
            book.bytes.as_ptr(),
            book.bytes.len(),
            room.tape.as_mut_ptr(),
            room.tape.len(),
            room.bytes.as_mut_ptr(),
            room.bytes.len(),
            work.as_mut_ptr(),
            work.len(),
        )
    }
}

pub(crate) fn choose_region(book: Stored<'_>, edit: Edit<'_>, words: &mut [u32]) -> RegionAnswer {
    // SAFETY: all pointers are those of borrowed slices: not null, valid for their lengths; the
    // words are borrowed `&mut`, so they overlap with nothing that is passed.
    unsafe {
        aozora_choose_region(
            book.tape.as_ptr(),
            book.tape.len(),
            book.bytes.as_ptr(),
            book.bytes.len(),
            edit.start,
            edit.end,
            edit.replacement.as_ptr(),
            edit.replacement.len(),
            words.as_mut_ptr(),
            words.len(),
        )
    }
}

pub(crate) fn estimate(
    book: Stored<'_>,
    edit: Edit<'_>,
    reading: Stored<'_>,
    work: &mut [u32],
) -> PriceAnswer {
    // SAFETY: all pointers are those of borrowed slices: not null, valid for their lengths; the
    // words are borrowed `&mut`, so they overlap with nothing that is passed.
    unsafe {
        aozora_estimate(
            book.tape.as_ptr(),
            book.tape.len(),
            book.bytes.as_ptr(),
            book.bytes.len(),
            edit.start,
            edit.end,
            edit.replacement.as_ptr(),
            edit.replacement.len(),
            reading.tape.as_ptr(),
            reading.tape.len(),
            reading.bytes.as_ptr(),
            reading.bytes.len(),
            work.as_mut_ptr(),
            work.len(),
        )
    }
}

pub(crate) fn merge(
    book: Stored<'_>,
    edit: Edit<'_>,
    reading: Stored<'_>,
    room: Room<'_>,
    work: &mut [u32],
) -> MergeAnswer {
    // SAFETY: all pointers are those of borrowed slices: not null, valid for their lengths; the
    // three that are written are borrowed `&mut`, so they overlap with nothing that is passed.
    unsafe {
        aozora_merge(
            book.tape.as_ptr(),
            book.tape.len(),
            book.bytes.as_ptr(),
            book.bytes.len(),
            edit.start,
            edit.end,
            edit.replacement.as_ptr(),
            edit.replacement.len(),
            reading.tape.as_ptr(),
            reading.tape.len(),
            reading.bytes.as_ptr(),
            reading.bytes.len(),
            room.tape.as_mut_ptr(),
            room.tape.len(),
            room.bytes.as_mut_ptr(),
            room.bytes.len(),
            work.as_mut_ptr(),
            work.len(),
        )
    }
}

pub(crate) fn merge_for_desk(
    desk: u32,
    ledger: &mut [u32],
    book: Stored<'_>,
    edit: Edit<'_>,
    reading: Stored<'_>,
    room: Room<'_>,
    work: &mut [u32],
) -> MergeAnswer {
    // SAFETY: all pointers are those of borrowed slices: not null, valid for their lengths; the
    // four that are written are borrowed `&mut`, so they overlap with nothing else that is passed.
    unsafe {
        aozora_merge_for_desk(
            desk,
            ledger.as_mut_ptr(),
            ledger.len(),
            book.tape.as_ptr(),
            book.tape.len(),
            book.bytes.as_ptr(),
            book.bytes.len(),
            edit.start,
            edit.end,
            edit.replacement.as_ptr(),
            edit.replacement.len(),
            reading.tape.as_ptr(),
            reading.tape.len(),
            reading.bytes.as_ptr(),
            reading.bytes.len(),
            room.tape.as_mut_ptr(),
            room.tape.len(),
            room.bytes.as_mut_ptr(),
            room.bytes.len(),
            work.as_mut_ptr(),
            work.len(),
        )
    }
}

pub(crate) fn merge_both_orders(
    book: Stored<'_>,
    earlier: Correction<'_>,
    later: Correction<'_>,
    rooms: Orders<Room<'_>>,
    work: &mut [u32],
) -> OrdersAnswer {
    // SAFETY: all pointers are those of borrowed slices: not null, valid for their lengths; the
    // nine that are written are each borrowed `&mut`, so they overlap with nothing else that is
    // passed.
    unsafe {
        aozora_merge_both_orders(
            book.tape.as_ptr(),
            book.tape.len(),
            book.bytes.as_ptr(),
            book.bytes.len(),
            earlier.edit.start,
            earlier.edit.end,
            earlier.edit.replacement.as_ptr(),
            earlier.edit.replacement.len(),
            earlier.reading.tape.as_ptr(),
            earlier.reading.tape.len(),
            earlier.reading.bytes.as_ptr(),
            earlier.reading.bytes.len(),
            later.edit.start,
            later.edit.end,
            later.edit.replacement.as_ptr(),
            later.edit.replacement.len(),
            later.reading.tape.as_ptr(),
            later.reading.tape.len(),
            later.reading.bytes.as_ptr(),
            later.reading.bytes.len(),
            rooms.earlier_first.tape.as_mut_ptr(),
            rooms.earlier_first.tape.len(),
            rooms.earlier_first.bytes.as_mut_ptr(),
            rooms.earlier_first.bytes.len(),
            rooms.later_second.tape.as_mut_ptr(),
            rooms.later_second.tape.len(),
            rooms.later_second.bytes.as_mut_ptr(),
            rooms.later_second.bytes.len(),
            rooms.later_first.tape.as_mut_ptr(),
            rooms.later_first.tape.len(),
            rooms.later_first.bytes.as_mut_ptr(),
            rooms.later_first.bytes.len(),
            rooms.earlier_second.tape.as_mut_ptr(),
            rooms.earlier_second.tape.len(),
            rooms.earlier_second.bytes.as_mut_ptr(),
            rooms.earlier_second.bytes.len(),
            work.as_mut_ptr(),
            work.len(),
        )
    }
}

#[cfg(test)]
mod tests {
    //! Structs: the header is compiled, and says sizes and offsets of its own. Entries: read as text,
    //! here, in the header, and in the crates of which the archive is made.

    use super::*;
    use std::fmt::Write;
    use std::fs;
    use std::mem::{align_of, offset_of, size_of};
    use std::path::Path;
    use std::process::Command;

    fn size_of_field<T, F>(_: fn(&T) -> &F) -> usize {
        size_of::<F>()
    }

    macro_rules! layout {
        ($($c:literal $rust:ty { $($field:ident),+ })+) => {
            /// One line for each struct: its name, size and alignment, and of each field name,
            /// offset and size.
            fn ours() -> String {
                let mut out = String::new();
                $(
                    write!(out, "{} {} {}", $c, size_of::<$rust>(), align_of::<$rust>()).unwrap();
                    $(write!(out, " {} {} {}", stringify!($field), offset_of!($rust, $field), size_of_field(|x: &$rust| &x.$field)).unwrap();)+
                    out += "\n";
                )+
                out
            }

            /// A C program that prints the same.
            fn program() -> String {
                let mut out = String::from("#include <stdio.h>\n#include \"aozora.h\"\nint main(void) {\n");
                $(
                    writeln!(out, "printf(\"{0} %zu %zu\", sizeof({0}), _Alignof({0}));", $c).unwrap();
                    $(writeln!(out, "printf(\" {1} %zu %zu\", offsetof({0}, {1}), sizeof((({0} *)0)->{1}));", $c, stringify!($field)).unwrap();)+
                    out += "puts(\"\");\n";
                )+
                out + "return 0; }\n"
            }

            /// Here and in C.
            const NAMES: &[(&str, &str)] = &[$((stringify!($rust), $c)),+];
        };
    }

    layout! {
        "aozora_allowed" AllowedAnswer { number, allowed }
        "aozora_node" NodeAnswer { number, found, node }
        "aozora_range" RangeAnswer { number, found, place, count }
        "aozora_str" StrAnswer { number, found, start, end }
        "aozora_copy" CopyAnswer { number, tape, bytes }
        "aozora_region" RegionAnswer { number, start, end }
        "aozora_price" PriceAnswer { number, reread, calls, contents, segments, bytes }
        "aozora_merge_answer" MergeAnswer { number, start, end, reused, reread, calls, cache_hits, table_hits, allocs, long_bypass, resizes, probe_steps, tape, bytes }
        "aozora_orders_answer" OrdersAnswer { earlier_first, later_second, later_first, earlier_second }
    }

    fn file(path: &str) -> String {
        fs::read_to_string(Path::new(env!("CARGO_MANIFEST_DIR")).join("../..").join(path)).unwrap()
    }

    /// What a text in Rust or Rattle declares, as C does: a slice is a pointer and a length.
    fn entries(text: &str) -> Vec<String> {
        let entry = |text: &str| {
            let (name, rest) = text.split_once('(').unwrap();
            let (parameters, rest) = rest.split_once(") -> ").unwrap();
            let answer = rest.split([';', '\n']).next().unwrap().rsplit("::").next().unwrap();
            let answer = NAMES.iter().find(|n| n.0 == answer).map_or("uint32_t", |n| n.1);
            let parameters = parameters.split(',').filter_map(|p| p.trim().split_once(": "));
            let parameters = parameters.map(|(name, kind)| match &*kind.replace("'a ", "") {
                "u32" => format!("uint32_t {name}"),
                "usize" => format!("size_t {name}"),
                "*const u8" => format!("const uint8_t *{name}"),
                "*mut u8" => format!("uint8_t *{name}"),
                "*mut u32" => format!("uint32_t *{name}"),
                "&[u8]" => format!("const uint8_t *{name}, size_t {name}_len"),
                "&mut [u8]" => format!("uint8_t *{name}, size_t {name}_len"),
                "&mut [u32]" => format!("uint32_t *{name}, size_t {name}_len"),
                other => format!("{other} {name}"), // equal to none of the header
            });
            let parameters = parameters.collect::<Vec<_>>().join(", ");
            format!("{answer} aozora_{}({parameters})", name.trim_end_matches("<'a>"))
        };
        let mut all: Vec<_> = text.split("fn aozora_").skip(1).map(entry).collect();
        all.sort();
        all
    }

    /// What the header declares.
    fn header_entries() -> Vec<String> {
        let mut text = file("bindings/c/aozora.h");
        while let Some(start) = text.find("/*") {
            let end = start + text[start..].find("*/").unwrap() + 2;
            text.replace_range(start..end, "");
        }
        let line = |part: &str| part.split_whitespace().collect::<Vec<_>>().join(" ");
        let names = |d: &String| d.split('(').next().unwrap().split(' ').count() == 2;
        let mut all: Vec<_> =
            text.split(';').map(line).filter(|d| d.ends_with(')') && names(d)).collect();
        all.sort();
        all
    }

    #[test]
    fn entries_are_those_of_the_header_and_the_archive() {
        let (_, ours) = include_str!("ffi.rs").split_once("unsafe extern").unwrap();
        let ours = entries(ours.split_once("\n}\n").unwrap().0);
        assert_eq!(ours, header_entries());
        assert_eq!(ours, entries(&file("crates/exports/src/lib.rt")));
    }

    #[test]
    fn structs_are_those_of_the_archive() {
        let theirs = file("crates/answers/src/lib.rt");
        let fields = |text: &str, name: &str| -> Vec<String> {
            let (_, body) = text.split_once(&format!("struct {name} {{\n")).unwrap();
            body.split('}').next().unwrap().lines().map(|f| f.trim().to_owned()).collect()
        };
        for (name, _) in NAMES {
            assert_eq!(fields(include_str!("ffi.rs"), name), fields(&theirs, name), "{name}");
        }
    }

    #[test]
    fn structs_are_those_of_the_header() {
        let dir = std::env::temp_dir().join(format!("aozora-layout-{}", std::process::id()));
        fs::create_dir_all(&dir).unwrap();
        fs::write(dir.join("layout.c"), program()).unwrap();
        let header = Path::new(env!("CARGO_MANIFEST_DIR")).join("../c");
        let mut cc = Command::new("cc");
        cc.args(["-std=c11", "-Wall", "-Werror", "-I"])
            .arg(header)
            .arg("-o")
            .arg(dir.join("layout"))
            .arg(dir.join("layout.c"));
        assert!(cc.status().unwrap().success());
        let theirs = Command::new(dir.join("layout")).output().unwrap().stdout;
        fs::remove_dir_all(&dir).unwrap();
        assert_eq!(String::from_utf8(theirs).unwrap(), ours());
    }
}
