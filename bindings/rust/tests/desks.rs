//! Document 02, wish 4: merges for desks, and the ledger that they are charged to.
#![allow(missing_docs, clippy::pedantic)]

mod common;

use aozora_incremental::*;
use common::{ABC, Lent, desk_agrees, plain, ruby_reading};

const ENOUGH: Lengths = Lengths { tape: 256, bytes: 256 };

fn x() -> Edit<'static> {
    Edit::new(4, 5, "x")
}

/// A reading of the second passage with this many nodes, and the edit.
fn nodes(count: usize) -> (String, StoredBook) {
    let mut b = BookBuilder::new();
    for _ in 0..count {
        b.node("x", NodeRef::Inline(Node::PageBreak));
    }
    let reading = b.text("xb\n\n").build_reading().unwrap();
    ("x".repeat(count + 1), reading)
}

/// P5 for a desk, on buffers that are full of 0xAA.
fn p5(desk: u32, ledger: &mut [u32]) -> (Result<Merged<Lengths>, Refusal>, Lent) {
    let mut lent = Lent::new(ENOUGH, WORK_WORDS);
    let (old, reading) = (plain(ABC), ruby_reading());
    let answer = lent.merge_for_desk(desk, ledger, old.as_stored(), x(), reading.as_stored());
    (answer, lent)
}

#[test]
fn p5_for_a_desk() {
    let (old, reading) = (plain(ABC), ruby_reading());
    let mut ledger = Ledger::new();
    let merged = merge_for_desk(&mut ledger, 7, &old, x(), &reading);
    assert_eq!(merged, merge(&old, x(), &reading));
    assert!(ledger.charged().eq([(7, 1)]));
    desk_agrees(old.as_stored(), x(), reading.as_stored(), &merged);
}

#[test]
fn first_and_last_desk() {
    let (old, reading) = (plain(ABC), ruby_reading());
    let mut ledger = Ledger::new();
    for desk in [0, 63, 63] {
        assert!(merge_for_desk(&mut ledger, desk, &old, x(), &reading).is_ok());
    }
    for desk in [64, 65, 1 << 16, u32::MAX] {
        let refused = merge_for_desk(&mut ledger, desk, &old, x(), &reading);
        assert_eq!(refused, Err(Refusal::DeskOrLedger));
        assert_eq!(ledger.total(desk), None);
    }
    assert!(ledger.charged().eq([(0, 1), (63, 2)]));
}

#[test]
fn ledgers_of_other_lengths() {
    for len in [0, 1, 63, 65, 128] {
        for desk in [0, 62, 63, 64] {
            let mut ledger = vec![9; len];
            let (answer, lent) = p5(desk, &mut ledger);
            assert_eq!(answer, Err(Refusal::DeskOrLedger), "{len} {desk}");
            assert!(lent.is_zero() && ledger == vec![9; len], "{len} {desk}");
        }
    }
}

/// 19, then 1 to 18, then 20: where several hold, the first is answered.
#[test]
fn the_order_of_the_numbers() {
    let (old, reading, none) = (plain(ABC), ruby_reading(), Stored::new(&[], &[]));
    let ask = |desk, len, total, book, edit, reading, room, words| {
        let (mut lent, mut ledger) = (Lent::new(room, words), vec![total; len]);
        let answer = lent.merge_for_desk(desk, &mut ledger, book, edit, reading);
        assert!(lent.is_zero() && ledger == vec![total; len]);
        answer.unwrap_err().number()
    };
    let (old, reading) = (old.as_stored(), reading.as_stored());
    let (short, all) = (Lengths::default(), WORK_WORDS);
    let full = u32::MAX;
    assert_eq!(ask(64, 64, full, none, x(), reading, short, 0), 19);
    assert_eq!(ask(63, 63, full, none, x(), reading, short, 0), 19);
    assert_eq!(ask(63, 64, full, none, x(), none, short, 0), 1);
    assert_eq!(ask(63, 64, full, old, Edit::new(5, 4, "x"), none, short, 0), 8);
    assert_eq!(ask(63, 64, full, old, x(), none, short, 0), 1);
    assert_eq!(ask(63, 64, full, old, Edit::new(4, 5, "z"), reading, short, 0), 12);
    assert_eq!(ask(63, 64, full, old, x(), reading, short, all), 18);
    assert_eq!(ask(63, 64, full, old, x(), reading, ENOUGH, all - 1), 18);
    assert_eq!(ask(63, 64, full, old, x(), reading, ENOUGH, all), 20);
}

#[test]
fn full_totals() {
    let mut ledger = [3; DESKS];
    ledger[40] = u32::MAX - 1;
    let (answer, lent) = p5(40, &mut ledger);
    assert_eq!((answer.unwrap().reread, ledger[40]), (1, u32::MAX));
    assert!(!lent.is_zero());

    let before = ledger;
    let (answer, lent) = p5(40, &mut ledger);
    assert_eq!((answer, ledger), (Err(Refusal::TotalFull), before));
    assert!(lent.is_zero(), "the merge had been made already");

    assert!(p5(41, &mut ledger).0.is_ok(), "another desk has its own total");
    assert_eq!(ledger[41], 4);
}

/// The sum is what must fit, and it is not charged in part.
#[test]
fn totals_that_would_pass() {
    let (old, (replacement, reading)) = (plain(ABC), nodes(5));
    let edit = Edit::new(4, 5, &replacement);
    for (total, after) in [(u32::MAX - 5, Some(u32::MAX)), (u32::MAX - 4, None), (u32::MAX, None)] {
        let mut ledger = Ledger::from([total; DESKS]);
        let answer = merge_for_desk(&mut ledger, 0, &old, edit, &reading);
        assert_eq!(answer.map(|merged| merged.reread), after.map(|_| 5).ok_or(Refusal::TotalFull));
        assert_eq!((ledger.total(0), ledger.total(1)), (after.or(Some(total)), Some(total)));
    }
}

/// A reading without nodes adds 0, also at a full total.
#[test]
fn no_nodes() {
    let full = Ledger::from([u32::MAX; DESKS]);
    let mut ledger = full.clone();
    let merged = merge_for_desk(&mut ledger, 12, &plain(ABC), x(), &plain("xb\n\n")).unwrap();
    assert_eq!((merged.reread, ledger), (0, full));

    let mut ledger = Ledger::new();
    assert!(merge_for_desk(&mut ledger, 12, &plain(ABC), x(), &plain("xb\n\n")).is_ok());
    assert_eq!(ledger, Ledger::default());
}

/// A list of merges over several desks, with refused ones in between.
#[test]
fn several_desks() {
    let old = plain(ABC);
    let list: [(u32, usize, Result<u32, Refusal>); 8] = [
        (3, 2, Ok(2)),
        (17, 1, Ok(1)),
        (64, 4, Err(Refusal::DeskOrLedger)),
        (3, 5, Ok(5)),
        (63, 0, Ok(0)),
        (5, 7, Err(Refusal::OtherText)),
        (17, 9, Ok(9)),
        (0, 1, Ok(1)),
    ];
    let mut ledger = Ledger::new();
    for (desk, count, answer) in list {
        let (mut replacement, reading) = nodes(count);
        if answer == Err(Refusal::OtherText) {
            replacement += "z";
        }
        let merged =
            merge_for_desk(&mut ledger, desk, &old, Edit::new(4, 5, &replacement), &reading);
        assert_eq!(merged.map(|merged| merged.reread), answer);
    }
    let accepted = || list.iter().filter_map(|&(desk, _, answer)| Some((desk, answer.ok()?)));
    for desk in 0..64 {
        let own: u32 = accepted().filter(|a| a.0 == desk).map(|a| a.1).sum();
        assert_eq!(ledger.total(desk), Some(own), "{desk}");
    }
    assert_eq!(ledger.sum(), accepted().map(|a| u64::from(a.1)).sum::<u64>());
    assert!(ledger.charged().eq([(0, 1), (3, 7), (17, 10)]));
    assert_eq!(
        ledger.to_string(),
        "desk  0 reread  1\ndesk  3 reread  7\ndesk 17 reread 10\nsum     reread 18"
    );
}

#[test]
fn invoices() {
    assert_eq!(Ledger::new().to_string(), "no desk has rereads");
    let mut totals = [0; DESKS];
    totals[9] = 1;
    assert_eq!(Ledger::from(totals).to_string(), "desk  9 reread 1\nsum     reread 1");
    (totals[10], totals[63]) = (1234, u32::MAX);
    assert_eq!(
        Ledger::from(totals).to_string(),
        "desk  9 reread          1\n\
         desk 10 reread       1234\n\
         desk 63 reread 4294967295\n\
         sum     reread 4294968530"
    );
    // the sum is longer than each total
    let full = Ledger::from([u32::MAX; DESKS]);
    assert_eq!(full.sum(), 64 * 4_294_967_295);
    let invoice = full.to_string();
    assert_eq!(invoice.lines().count(), 65);
    assert!(invoice.lines().all(|line| line.len() == "sum     reread 274877906880".len()));
    assert!(invoice.ends_with("sum     reread 274877906880"));
}

#[test]
fn ledgers() {
    let totals = std::array::from_fn(|i| i as u32);
    let ledger = Ledger::from(totals);
    assert_eq!(ledger.totals(), &totals);
    assert_eq!((ledger.total(0), ledger.total(63), ledger.total(64)), (Some(0), Some(63), None));
    assert_eq!(ledger.charged().count(), 63);
    assert_eq!(ledger.sum(), 2016);
    assert_ne!(ledger, Ledger::new());
    assert_eq!(Ledger::new(), Ledger::from([0; DESKS]));
}
