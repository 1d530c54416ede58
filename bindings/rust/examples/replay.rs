//! A day in one call: all requests of a script, on the tables of a state file. It prints the answer of each, and how
//! many were done.
//!
//!     replay [FILE [SCRIPT]]    by default examples/state.words and examples/copies.script
use mms::{BadLine, Refusal, Request, Tables};
use std::{env, error::Error, fs};

/// Lines of a request's text.
const LINES: usize = 7;

/// The requests of a script: each next seven lines are one.
fn requests(script: &[u8]) -> Result<Vec<Request>, BadLine> {
    let lines: Vec<&[u8]> = script.split_inclusive(|&byte| byte == b'\n').collect();
    lines.chunks(LINES).map(|text| Request::from_text(&text.concat())).collect()
}

fn main() -> Result<(), Box<dyn Error>> {
    let mut names = env::args().skip(1);
    let mut named = |default: &str| names.next().unwrap_or_else(|| default.to_string());
    let mut tables = Tables::from_bytes(&fs::read(named("examples/state.words"))?)?;
    let day = requests(&fs::read(named("examples/copies.script"))?)?;
    let answers = tables.run(&day);
    for (number, answer) in (1..).zip(&answers) {
        println!("request {}: answer {}", number, answer.map_or_else(Refusal::number, |()| 0));
    }
    println!("{} of {} done", answers.iter().filter(|answer| answer.is_ok()).count(), day.len());
    Ok(())
}
