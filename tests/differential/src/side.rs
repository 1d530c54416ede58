//! The two sides that are compared: a desk written by hand, and the proved one.
use mms::words;
use ordinary::{Desk, Reply};

/// A desk written by hand, right or wrong.
pub type ByHand<'a> = &'a (dyn Desk + Sync);

/// Who is asked.
#[derive(Clone, Copy)]
pub enum Side<'a> {
    Ordinary(ByHand<'a>),
    Proved,
}

impl Side<'_> {
    /// What it is called in a report.
    pub fn name(self) -> &'static str {
        match self {
            Side::Ordinary(_) => "ordinary",
            Side::Proved => "proved",
        }
    }

    /// The state check.
    pub fn check(self, tables: &[u32]) -> Reply {
        match self {
            Side::Ordinary(desk) => desk.check(tables),
            Side::Proved => reply(words::check(tables)),
        }
    }

    /// One request.
    pub fn step(self, tables: &mut [u32], request: &[u32]) -> Reply {
        match self {
            Side::Ordinary(desk) => desk.step(tables, request),
            Side::Proved => reply(words::step(tables, request)),
        }
    }

    /// Requests one after another.
    pub fn run(self, tables: &mut [u32], requests: &[u32], answers: &mut [u32]) -> Reply {
        match self {
            Side::Ordinary(desk) => desk.run(tables, requests, answers),
            Side::Proved => reply(words::run(tables, requests, answers)),
        }
    }

    /// The disclosure list of a user.
    pub fn list(self, tables: &[u32], user: u32, room: &mut [u32]) -> Reply {
        match self {
            Side::Ordinary(desk) => desk.list(tables, user, room),
            Side::Proved => reply(words::list(tables, user, room)),
        }
    }

    /// The text of a request.
    pub fn write(self, request: &[u32], room: &mut [u8]) -> Reply {
        match self {
            Side::Ordinary(desk) => desk.write(request, room),
            Side::Proved => reply(words::write(request, room)),
        }
    }

    /// The words of a text.
    pub fn read(self, text: &[u8], request: &mut [u32]) -> Reply {
        match self {
            Side::Ordinary(desk) => desk.read(text, request),
            Side::Proved => reply(words::read(text, request)),
        }
    }

    /// The text of tables.
    pub fn write_tables(self, tables: &[u32], room: &mut [u8]) -> Reply {
        match self {
            Side::Ordinary(desk) => desk.write_tables(tables, room),
            Side::Proved => reply(words::write_tables(tables, room)),
        }
    }

    /// The tables of a text.
    pub fn read_tables(self, text: &[u8], tables: &mut [u32]) -> Reply {
        match self {
            Side::Ordinary(desk) => desk.read_tables(text, tables),
            Side::Proved => reply(words::read_tables(text, tables)),
        }
    }
}

/// What the proved desk answered, as the other one puts it.
fn reply(proved: words::Answer) -> Reply {
    Reply { answer: proved.no, number: proved.number }
}
