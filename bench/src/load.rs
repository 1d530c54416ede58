//! What calls are made on: tables, and for each call the number of its tables and what else it takes.
use crate::side::{Outcome, Side};
use generate::full::ENTRIES_MOST;
use generate::layout::{ENTRY_WORDS, REQUEST_WORDS, TABLE_WORDS};
use generate::longest::TABLES_TEXT_MOST;

/// The bytes of the longest text of a request.
pub const TEXT_MOST: usize = 166;

/// The requests of a run.
pub const RUN_REQUESTS: usize = 10_000;

/// The words of a request.
pub type Request = [u32; REQUEST_WORDS];

/// The calls that are measured; `Advance` is the step without the check.
#[derive(Clone, Copy, Debug, PartialEq, Eq)]
pub enum Call {
    Check,
    Step,
    Advance,
    Run,
    List,
    Read,
    Write,
    ReadTables,
    WriteTables,
}

impl Call {
    /// As it is named in the output and on the command line.
    pub fn name(self) -> &'static str {
        match self {
            Call::Check => "check",
            Call::Step => "step",
            Call::Advance => "advance",
            Call::Run => "run",
            Call::List => "list",
            Call::Read => "read",
            Call::Write => "write",
            Call::ReadTables => "read_tables",
            Call::WriteTables => "write_tables",
        }
    }
}

/// Lent to calls to write to: large enough for any list, any text, any request, any tables and the answers of any run.
#[derive(Clone, PartialEq, Eq)]
pub struct Rooms {
    pub entries: Vec<u32>,
    pub text: Vec<u8>,
    pub request: Request,
    pub answers: Vec<u32>,
    pub tables: Vec<u32>,
    pub tables_text: Vec<u8>,
}

impl Rooms {
    /// Rooms with nothing in them.
    pub fn new() -> Rooms {
        let entries = vec![0; ENTRIES_MOST as usize * ENTRY_WORDS];
        let answers = vec![0; RUN_REQUESTS];
        let (tables, tables_text) = (vec![0; TABLE_WORDS], vec![0; TABLES_TEXT_MOST]);
        Rooms { entries, text: vec![0; TEXT_MOST], request: [0; REQUEST_WORDS], answers, tables, tables_text }
    }

    /// The sum of the answers that the last run has left; no other call writes there.
    pub fn answered(&self) -> Outcome {
        self.answers.iter().map(|&answer| Outcome::from(answer)).sum()
    }
}

/// A pass makes the calls one after the other, each on its tables as those before have left them. What a call does not take is not there.
#[derive(Clone, Debug, Default, PartialEq, Eq)]
pub struct Load {
    /// As a pass finds them.
    pub tables: Vec<Vec<u32>>,
    /// Of each call, which tables.
    pub places: Vec<usize>,
    pub requests: Vec<Request>,
    pub users: Vec<u32>,
    /// Of requests; or of all tables, in their order.
    pub texts: Vec<Vec<u8>>,
    /// The words of all requests of a run, which is one call, on the first tables.
    pub run: Vec<u32>,
}

impl Load {
    /// How many calls of this kind a pass makes.
    pub fn calls(&self, call: Call) -> usize {
        match call {
            Call::Check | Call::ReadTables | Call::WriteTables => self.places.len(),
            Call::Step | Call::Advance | Call::Write => self.requests.len(),
            Call::Run => usize::from(!self.run.is_empty()),
            Call::List => self.users.len(),
            Call::Read => self.texts.len(),
        }
    }

    /// Call number `at` of a pass, on these tables and rooms.
    #[inline(always)]
    pub fn call(&self, at: usize, call: Call, side: &Side, tables: &mut [Vec<u32>], rooms: &mut Rooms) -> Outcome {
        match call {
            Call::Check => (side.check)(&tables[self.places[at]]),
            Call::Step => (side.step)(&mut tables[self.places[at]], &self.requests[at]),
            Call::Advance => (side.advance)(&mut tables[self.places[at]], &self.requests[at]),
            Call::Run => (side.run)(&mut tables[self.places[at]], &self.run, &mut rooms.answers),
            Call::List => (side.list)(&tables[self.places[at]], self.users[at], &mut rooms.entries),
            Call::Read => (side.read)(&self.texts[at], &mut rooms.request),
            Call::Write => (side.write)(&self.requests[at], &mut rooms.text),
            Call::ReadTables => (side.read_tables)(&self.texts[self.places[at]], &mut rooms.tables),
            Call::WriteTables => (side.write_tables)(&tables[self.places[at]], &mut rooms.tables_text),
        }
    }

    /// The first `calls` calls of a pass, and the sum of their outcomes. The kind of call is asked about once and not in the loop, so that
    /// little but the calls is measured.
    #[inline]
    pub fn pass(&self, calls: usize, call: Call, side: &Side, tables: &mut [Vec<u32>], rooms: &mut Rooms) -> Outcome {
        match call {
            Call::Check => sum(calls, |at| self.call(at, Call::Check, side, tables, rooms)),
            Call::Step => sum(calls, |at| self.call(at, Call::Step, side, tables, rooms)),
            Call::Advance => sum(calls, |at| self.call(at, Call::Advance, side, tables, rooms)),
            Call::Run => sum(calls, |at| self.call(at, Call::Run, side, tables, rooms)),
            Call::List => sum(calls, |at| self.call(at, Call::List, side, tables, rooms)),
            Call::Read => sum(calls, |at| self.call(at, Call::Read, side, tables, rooms)),
            Call::Write => sum(calls, |at| self.call(at, Call::Write, side, tables, rooms)),
            Call::ReadTables => sum(calls, |at| self.call(at, Call::ReadTables, side, tables, rooms)),
            Call::WriteTables => sum(calls, |at| self.call(at, Call::WriteTables, side, tables, rooms)),
        }
    }
}

/// The sum of what calls 0 to `calls` - 1 give.
#[inline(always)]
fn sum(calls: usize, mut call: impl FnMut(usize) -> Outcome) -> Outcome {
    (0..calls).fold(0, |sum, at| sum.wrapping_add(call(at)))
}
