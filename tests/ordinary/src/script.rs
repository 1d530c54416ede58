//! The program: a script of requests, and what is reported of each [section 12 of the rules].

use crate::check;
use crate::ladder;
use crate::refusal::Refusal;
use crate::tables::{user_words, User};
use crate::text::read;
use crate::words::*;
use crate::Rules;
use std::io::Write;

/// Bytes of a word in the state file, the lowest first.
const WORD_BYTES: usize = 4;

/// What is written for each request.
struct Report {
    answer: u32,
    held: u32,
    missed: u32,
}

/// Answers the requests of a script one after another, up to the first that can't be read.
pub fn whole<R: Rules>(state: &[u8], script: &[u8]) -> Vec<u8> {
    let mut tables = load::<R>(state);
    let mut output = Vec::new();
    let mut rest = script;
    while !rest.is_empty() {
        let (report, behind) = match read::next::<R>(rest) {
            Ok((request, behind)) => (answer::<R>(&mut tables, &request), behind),
            Err(_) => (Report::of(Refusal::NotARequest), &[][..]),
        };
        report.write(&mut output);
        rest = behind;
    }
    output
}

/// The tables that a state file holds, where they pass the check; else what every request is refused with. They are checked here only,
/// since no request takes tables that pass to others.
fn load<R: Rules>(state: &[u8]) -> Result<Tables, Refusal> {
    Refusal::BadLength.unless(state.len() == TABLE_WORDS * WORD_BYTES)?;
    let mut tables = [0; TABLE_WORDS];
    for (word, bytes) in tables.iter_mut().zip(state.chunks_exact(WORD_BYTES)) {
        *word = u32::from_le_bytes(bytes.try_into().expect("four bytes"));
    }
    check::judge::<R>(&tables).map(|()| tables)
}

/// Answers one request, and tells the requester's notice as the request has left it.
fn answer<R: Rules>(tables: &mut Result<Tables, Refusal>, request: &Request) -> Report {
    let tables = match tables {
        Ok(tables) => tables,
        Err(refusal) => return Report::of(*refusal),
    };
    let answer = ladder::advance::<R>(tables, request);
    match User::present(tables, request[request::USER]) {
        Some(user) => {
            let words = user_words(tables, user);
            Report { answer, held: words[user::HELD], missed: words[user::MISSED] }
        }
        None => Report { answer, held: 0, missed: 0 },
    }
}

impl Report {
    /// What is told of a request that nobody was asked about: a refusal, and no notice.
    fn of(refusal: Refusal) -> Report {
        Report { answer: refusal as u32, held: 0, missed: 0 }
    }

    /// Puts the three lines behind what was written before.
    fn write(&self, output: &mut Vec<u8>) {
        writeln!(output, "answer={}\nheld={}\nmissed={}", self.answer, self.held, self.missed)
            .expect("a vector takes all that is written");
    }
}
