//! Tables as lines to be printed, and back: prints the text of the tables of a state file, then whether they are read
//! from it as they were, and what is said of the text without its last byte.
//!
//!     exhibit [FILE]    the tables in FILE, by default examples/state.words
use mms::{Refusal, Tables};
use std::{env, error::Error, fs};

/// Reads a text; prints the answer, and whether these are its tables or which line is bad.
fn read_again(what: &str, text: &str, tables: &Tables) {
    match text.parse::<Tables>() {
        Ok(again) if again == *tables => println!("{}: answer 0, the same tables", what),
        Ok(_) => println!("{}: answer 0", what),
        Err(refusal @ Refusal::NotARequest(bad)) => {
            println!("{}: answer {}, line {}", what, refusal.number(), bad.line())
        }
        Err(refusal) => println!("{}: answer {}", what, refusal.number()),
    }
}

fn main() -> Result<(), Box<dyn Error>> {
    let name = env::args().nth(1).unwrap_or_else(|| "examples/state.words".to_string());
    let tables = Tables::from_bytes(&fs::read(name)?)?;
    let text = tables.to_text()?;
    print!("{}", text);
    if !text.is_empty() {
        read_again("without its last byte", &text[..text.len() - 1], &tables);
    }
    read_again("whole", &text, &tables);
    Ok(())
}
