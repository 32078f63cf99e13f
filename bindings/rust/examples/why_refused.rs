//! Reads a tape and its byte buffer, and says why they are refused, or what the book has.
//!
//! `why_refused TAPE BYTES [--reading]`
use aozora_incremental::{Book, Refusal, Stored};
use std::process::ExitCode;
use std::{env, fs};

fn summary(book: &Book<'_>) {
    println!(
        "accepted: text {} bytes, normalized {} bytes",
        book.text().len(),
        book.normalized().len()
    );
    println!(
        "layers {}, strings {}, contents {}, segments {}",
        book.layers().len(),
        book.string_count(),
        book.content_count(),
        book.segment_count()
    );
    println!(
        "nodes {}, pairs {}, containers {}, diagnostics {}",
        book.nodes().len(),
        book.pairs().len(),
        book.containers().len(),
        book.diagnostics().len()
    );
    for node in book.nodes().take(10) {
        let text = book.source(node.source_span).unwrap_or("(cuts a character)");
        match book.tree_within(&node, 1000) {
            Ok(Some(tree)) => println!("{} {text:?}: {tree}", node.source_span),
            Ok(None) => println!("{} {text:?}: {:?}", node.source_span, node.node),
            Err(large) => println!("{} {text:?}: {large}", node.source_span),
        }
    }
}

fn main() -> ExitCode {
    let arguments: Vec<String> = env::args().skip(1).collect();
    let (tape, bytes, reading) = match arguments.iter().map(String::as_str).collect::<Vec<_>>()[..]
    {
        [tape, bytes] => (tape, bytes, false),
        [tape, bytes, "--reading"] => (tape, bytes, true),
        _ => {
            eprintln!("why_refused TAPE BYTES [--reading]");
            return ExitCode::from(2);
        }
    };
    let (tape, bytes) = match (fs::read(tape), fs::read(bytes)) {
        (Ok(tape), Ok(bytes)) => (tape, bytes),
        (Err(error), _) | (_, Err(error)) => {
            eprintln!("{error}");
            return ExitCode::from(2);
        }
    };
    let stored = Stored::new(&tape, &bytes);
    let book: Result<Book<'_>, Refusal> =
        if reading { Book::reading(stored) } else { Book::new(stored) };
    match book {
        Ok(book) => {
            summary(&book);
            ExitCode::SUCCESS
        }
        Err(refusal) => {
            println!("{refusal}");
            ExitCode::FAILURE
        }
    }
}
