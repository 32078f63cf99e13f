//! Document 01's P5: "aa⏎⏎bb⏎⏎cc" with one letter of the middle passage corrected, and a reading
//! with one Ruby.
use aozora_incremental::{
    Book, BookBuilder, Edit, Node, NodeRef, Refusal, choose_region, estimate, merge,
};

fn main() -> Result<(), Refusal> {
    let old = BookBuilder::new().text("aa\n\nbb\n\ncc").build()?;
    let edit = Edit::new(4, 5, "x");
    let region = choose_region(&old, edit)?;
    println!(
        "to reread: {region}, {:?} with the edit in it",
        Book::new(&old)?.source(region).unwrap_or_default()
    );

    // what a parser says of "xb\n\n"
    let mut reading = BookBuilder::new();
    let (base, read) = (reading.plain("x"), reading.plain("b"));
    reading.node("xb", NodeRef::Inline(Node::Ruby { base, reading: read })).text("\n\n");
    let reading = reading.build_reading()?;

    println!("the price: {}", estimate(&old, edit, &reading)?);
    let merged = merge(&old, edit, &reading)?;
    println!("{merged}");
    let book = Book::new(&merged.book)?;
    println!("{:?}", book.text());
    for node in book.nodes() {
        if let Ok(Some(tree)) = book.tree(&node) {
            println!("{}: {tree}", node.source_span);
        }
    }
    Ok(())
}
