//! The desk as one would write it by hand, from the documents and their readings alone; the rules' numbers were added for who reads.
//!
//! Nothing here is proved. The proved desk is compared with this one word for word, and timed against it.

mod access;
mod check;
mod effects;
mod form;
mod ladder;
mod level;
mod list;
mod reference;
mod refusal;
mod rules;
mod run;
mod script;
mod set;
mod tables;
mod tables_text;
mod text;
mod words;

pub use refusal::Reply;
pub use rules::{Calls, Desk, Right, Rules, Wrong, WRONG};
pub use words::{ENTRY_WORDS, REQUEST_WORDS, TABLE_WORDS};

use level::Level;
use refusal::Refusal;
use tables::User;
use words::{Request, Tables};

/// Answers 0 for well-formed and secure tables, else 1 to 3.
pub fn check<R: Rules>(tables: &[u32]) -> Reply {
    Reply::to(checked::<R>(tables).map(|_| 0))
}

/// Answers a request, 0 to 16, and brings the tables to where that answer leaves them.
pub fn step<R: Rules>(tables: &mut [u32], request: &[u32]) -> Reply {
    match lent(tables, request).and_then(|(tables, request)| {
        check::judge::<R>(tables)?;
        Ok(ladder::advance::<R>(tables, request))
    }) {
        Ok(answer) => Reply { answer, number: 0 },
        Err(refusal) => Reply::to(Err(refusal)),
    }
}

/// Answers requests one after another as `step` does, each in its place of the answers, and checks the tables once. It
/// refuses with 1 alone, and then leaves both.
pub fn run<R: Rules>(tables: &mut [u32], requests: &[u32], answers: &mut [u32]) -> Reply {
    Reply::to(run::whole::<R>(tables, requests, answers).map(|()| 0))
}

/// Answers a request as `step` does, for tables that `check` has passed; both slices must have their right lengths.
pub fn advance<R: Rules>(tables: &mut [u32], request: &[u32]) -> u32 {
    let (tables, request) = lent(tables, request).expect("2,304 words of tables and 16 of a request");
    ladder::advance::<R>(tables, request)
}

/// Writes every reference that the user could show into the room, as entries of five words, and answers their count.
pub fn list<R: Rules>(tables: &[u32], user: u32, room: &mut [u32]) -> Reply {
    let admitted = checked::<R>(tables).and_then(|tables| {
        let user = User::present(tables, user).ok_or(Refusal::UnknownRequester)?;
        let device = tables::device_of(tables, user).ok_or(Refusal::NotLoggedOn)?;
        Ok((tables, user, device))
    });
    match admitted {
        Ok((tables, user, device)) => list::Disclosure::new::<R>(tables, user, device).write::<R>(room),
        Err(refusal) => Reply::to(Err(refusal)),
    }
}

/// Reads a text into the sixteen words of a request, which stay as they are unless the answer is 0.
pub fn read<R: Rules>(text: &[u8], request: &mut [u32]) -> Reply {
    match request.try_into() {
        Ok(request) => text::read::whole::<R>(text, request),
        Err(_) => Reply::to(Err(Refusal::BadLength)),
    }
}

/// Writes a request as text, and answers how many bytes it has.
pub fn write<R: Rules>(request: &[u32], room: &mut [u8]) -> Reply {
    match request.try_into() {
        Ok(request) => text::write::whole::<R>(request, room),
        Err(_) => Reply::to(Err(Refusal::BadLength)),
    }
}

/// Writes tables as text, and answers how many bytes it has.
pub fn write_tables<R: Rules>(tables: &[u32], room: &mut [u8]) -> Reply {
    match tables.try_into() {
        Ok(tables) => tables_text::write::whole::<R>(tables, room),
        Err(_) => Reply::to(Err(Refusal::BadLength)),
    }
}

/// Reads a text into the words of tables, which stay as they are unless the answer is 0.
pub fn read_tables<R: Rules>(text: &[u8], tables: &mut [u32]) -> Reply {
    match tables.try_into() {
        Ok(tables) => tables_text::read::whole::<R>(text, tables),
        Err(_) if R::LENGTHS => tables_text::read::whole::<R>(text, &mut [0; TABLE_WORDS]),
        Err(_) => Reply::to(Err(Refusal::BadLength)),
    }
}

/// Gives what the program writes for the bytes of `state.words` (none if it is missing) and a script.
pub fn script<R: Rules>(state: &[u8], script: &[u8]) -> Vec<u8> {
    script::whole::<R>(state, script)
}

/// Whether one level is at most another, as every call of the desk takes it.
pub fn at_most<R: Rules>(a: u32, b: u32) -> bool {
    Level(a).at_most::<R>(Level(b))
}

/// Whether one set of roles is within another, as every call of the desk takes it.
pub fn roles_within(a: u32, b: u32) -> bool {
    access::is_within(a, b)
}

/// Both slices as what they should be, or rung 1.
fn lent<'a>(tables: &'a mut [u32], request: &'a [u32]) -> Result<(&'a mut Tables, &'a Request), Refusal> {
    match (tables.try_into(), request.try_into()) {
        (Ok(tables), Ok(request)) => Ok((tables, request)),
        _ => Err(Refusal::BadLength),
    }
}

/// The tables behind a slice, or which of rungs 1 to 3 refuses them.
fn checked<R: Rules>(tables: &[u32]) -> Result<&Tables, Refusal> {
    let tables: &Tables = tables.try_into().map_err(|_| Refusal::BadLength)?;
    check::judge::<R>(tables).map(|()| tables)
}
