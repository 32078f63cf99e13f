//! A sample of the Rust's answers for the crate `vectors`: small cases, chosen so that each thing that can be met is met a few times.
use crate::book::{Answer, Case, Room};
use crate::doc01;
use oracle::judge::fx_hash;
use std::collections::HashMap;
use std::path::Path;

/// how often each thing is wanted, a refusal twice as often
const TIMES: u32 = 4;
const CASES: usize = 399;
const BYTES: usize = 234_000;

#[derive(Default)]
pub struct Sample {
    /// the size of an accepted case
    pub most: usize,
    met: HashMap<String, u32>,
    count: usize,
    stream: Vec<u8>,
    lines: String,
}

fn words(out: &mut Vec<u8>, ws: &[usize]) {
    for w in ws {
        out.extend_from_slice(&(*w as u32).to_le_bytes());
    }
}

/// A case as the crate `cases` reads it; the room, two lengths and the reading stand in its replacement.
fn put(out: &mut Vec<u8>, label: &str, c: &Case, room: Room) {
    let mut rest = Vec::new();
    words(&mut rest, &[room[0], room[1], room[2], c.replacement.len(), c.rtape.len()]);
    for part in [&c.replacement, &c.rtape, &c.rbytes] {
        rest.extend_from_slice(part);
    }
    words(out, &[label.len(), c.tape.len(), c.bytes.len(), c.start as usize, c.end as usize, rest.len()]);
    for part in [label.as_bytes(), &c.tape, &c.bytes, &rest] {
        out.extend_from_slice(part);
    }
}

/// What a case has in it: its class and answer, what the merge met, kinds and tags in its reading.
fn things(class: &str, c: &Case, answer: &Result<&Answer, u32>, met: &[&str]) -> Vec<String> {
    if let Err(n) = answer {
        return vec![format!("refused {n}")];
    }
    let mut out: Vec<String> = met.iter().map(|m| format!("{class}: {m}")).collect();
    out.push(format!("{class}: accepted"));
    let reading = doc01::read(&c.rtape, &c.rbytes).expect("a reading");
    out.extend(reading.nodes.iter().map(|n| format!("node {} {} {} {}", n.class, n.inline, n.body.kind, n.body.tag)));
    out.extend(reading.layers[0].segments.iter().map(|s| format!("segment {} {} {}", s.tag, s.body.kind, s.body.tag)));
    out
}

impl Sample {
    /// `answer` is the Rust's.
    pub fn offer(&mut self, class: &str, c: &Case, room: Room, answer: Result<&Answer, u32>, met: &[&str]) {
        let size = 100 + c.tape.len() + c.bytes.len() + c.rtape.len() + c.rbytes.len();
        let things = things(class, c, &answer, met);
        let times = |t: &String| self.met.get(t).copied().unwrap_or(0);
        let wanted = things.iter().map(times).min().expect("an answer is a thing");
        let (times, most) = if answer.is_ok() { (TIMES, self.most) } else { (2 * TIMES, 900) };
        if wanted >= times || size > most || self.count == CASES || self.stream.len() + size > BYTES {
            return;
        }
        for t in things {
            *self.met.entry(t).or_default() += 1;
        }
        self.count += 1;
        let label = format!("Rust {}, {class}", self.count);
        put(&mut self.stream, &label, c, room);
        let said = match answer {
            Ok(a) => format!("{}, tape {:016x} bytes {:016x}", a.line(), fx_hash(&a.tape), fx_hash(&a.bytes)),
            Err(n) => format!("refused {n}"),
        };
        self.lines += &format!("{label}: {said}, rest 0 0 0\n");
    }

    pub fn write(&self, folder: &Path) {
        std::fs::create_dir_all(folder).expect("a folder");
        std::fs::write(folder.join("stdin"), &self.stream).expect("written");
        std::fs::write(folder.join("stdout"), &self.lines).expect("written");
        println!("{} cases, {} bytes, {} things met", self.count, self.stream.len(), self.met.len());
    }
}
