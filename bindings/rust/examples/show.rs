//! Two requests and a list on case state S1: user 2 asks to be shown 4.1, which lies in a marked container and is
//! refused, then 5, which is accepted.
//!
//!     show [FILE]    with the tables in FILE, by default examples/state.words
use mms::{Operation, Reference, Refusal, Request, Shown, Tables, User};
use std::{env, error::Error, fs};

/// Asks for value and label of what the reference names; prints the answer, and the notice that the user now has.
fn show(tables: &mut Tables, user: User, reference: &Reference) {
    let asked = tables.step(&Request::show(user, reference, Shown::VALUE_AND_LABEL));
    let answer = asked.map_or_else(Refusal::number, |()| 0);
    let (held, operation, missed) = match tables.notice(user) {
        Some(notice) => (notice.held.number(), notice.operation.map_or(0, Operation::number), notice.missed),
        None => (0, 0, 0),
    };
    println!("show {}: answer {}; held {} of operation {}, missed {}", reference, answer, held, operation, missed);
}

fn main() -> Result<(), Box<dyn Error>> {
    let name = env::args().nth(1).unwrap_or_else(|| "examples/state.words".to_string());
    let mut tables = Tables::from_bytes(&fs::read(name)?)?;
    let user = User::try_from(2)?;
    show(&mut tables, user, &"4.1".parse()?);
    show(&mut tables, user, &"5".parse()?);
    for reference in tables.list(user)? {
        println!("may be shown {}", reference);
    }
    Ok(())
}
