//! Tables as `state.words` has them, then a script of requests to them, on standard output: for a program that reads both [rules 12.1, 12.2].
use crate::tables::s1::show;
use crate::texts::cases;
use generate::layout::{refusal, REQUEST_WORDS};
use generate::{dice_for, s1};
use ordinary::Right;
use std::io::{self, Write};

/// With every so many-th seed the tables may be bad.
const DAMAGE_EVERY: u64 = 8;
/// More bytes than the longest text has.
const ROOM: usize = 256;
/// In a hundred requests, so many are any words that have a text.
const ANY_WORDS: u32 = 3;

/// The bytes of tables, the lowest of each word first.
fn state(tables: &[u32]) -> Vec<u8> {
    tables.iter().flat_map(|word| word.to_le_bytes()).collect()
}

/// The text of a request, if it has one.
fn text(request: &[u32; REQUEST_WORDS]) -> Option<Vec<u8>> {
    let mut room = vec![0; ROOM];
    let reply = ordinary::write::<Right>(request, &mut room);
    room.truncate(reply.number as usize);
    Some(room).filter(|_| reply.answer == refusal::ACCEPTED)
}

/// Tables, and a script of so many requests to them, each made with the tables in view that those before it leave. Where the tables may be bad,
/// the requests are made for what they were before they were damaged. A request that has no text is left out.
pub fn generated(seed: u64, requests: u64) -> io::Result<()> {
    let mut dice = dice_for(seed, 0);
    let mut tables = generate::tables(&mut dice);
    let mut given = tables.clone();
    if seed % DAMAGE_EVERY == DAMAGE_EVERY - 1 {
        generate::damage(&mut dice, &mut given);
    }
    let mut out = io::BufWriter::new(io::stdout());
    out.write_all(&state(&given))?;
    let mut written = 0;
    while written < requests {
        let any = dice.chance(ANY_WORDS);
        let request = if any { cases::good(&mut dice) } else { generate::request(&mut dice, &tables) };
        if let Some(text) = text(&request) {
            out.write_all(&text)?;
            written += 1;
            ordinary::step::<Right>(&mut tables, &request);
        }
    }
    out.flush()
}

/// Case state S1 and the script of two requests that document 01 gives for it.
pub fn of_s1() -> io::Result<()> {
    let mut bytes = state(&s1());
    for request in [show(2, &[4, 1], 3), show(2, &[5], 3)] {
        bytes.extend(text(&request).unwrap_or_default());
    }
    let mut out = io::stdout();
    out.write_all(&bytes)?;
    out.flush()
}
