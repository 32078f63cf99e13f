//! A day's corrections of one book by several desks, and the invoice by desk.
use aozora_incremental::{
    Book, BookBuilder, Edit, Ledger, Merged, Node, NodeRef, Refusal, StoredBook, choose_region,
    merge_for_desk,
};

/// What a parser says of a passage. This one knows a single mark.
fn read(passage: &str) -> Result<StoredBook, Refusal> {
    let mut reading = BookBuilder::new();
    for part in passage.split_inclusive('レ') {
        let words = part.trim_end_matches('レ');
        reading.text(words);
        if words != part {
            let mark = reading.string("レ");
            reading.node("レ", NodeRef::Inline(Node::Kaeriten { mark }));
        }
    }
    reading.build_reading()
}

/// Writes `new` where the book has `old`.
fn correct(
    ledger: &mut Ledger,
    desk: u32,
    book: &StoredBook,
    old: &str,
    new: &str,
) -> Result<Merged, Refusal> {
    let text = Book::new(book)?.text();
    let start = text.find(old).unwrap_or(text.len());
    let place = |n| u32::try_from(n).unwrap_or(u32::MAX);
    let edit = Edit::new(place(start), place(start + old.len()), new);
    let region = choose_region(book, edit)?.range();
    let before = text.get(region.start..start).unwrap_or_default();
    let behind = text.get(start + old.len()..region.end).unwrap_or_default();
    let reading = read(&format!("{before}{new}{behind}"))?;
    merge_for_desk(ledger, desk, book, edit, &reading)
}

fn main() -> Result<(), Refusal> {
    let poem = "春眠不覚暁\n\n処処聞啼鳥\n\n夜来風雨声\n\n花落知多少\n\n";
    let (mut book, mut ledger) = (BookBuilder::new().text(poem).build()?, Ledger::new());
    for (desk, old, new) in [
        (12, "不覚暁", "不レ覚レ暁"),
        (3, "聞啼鳥", "聞レ啼鳥"),
        (64, "知多少", "知レ多少"), // there is no such desk
        (12, "春眠", "春、眠"),     // the passage is reread with both of its marks
        (3, "風雨声", "風雨聲"),    // a passage without marks costs nothing
    ] {
        match correct(&mut ledger, desk, &book, old, new) {
            Ok(merged) => {
                println!("desk {desk}: {merged}");
                book = merged.book;
            }
            Err(refusal) => println!("desk {desk}: {refusal}"),
        }
    }
    print!("{}", Book::new(&book)?.text());
    println!("{ledger}");
    Ok(())
}
