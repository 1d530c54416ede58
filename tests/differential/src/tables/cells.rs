//! Which answers the steps of a run gave, by operation, and whether these are the ones that can be given.
use crate::outcome::Out;
use generate::layout::{refusal, request, OPERATION_MOST, STEP_MOST};

/// Answers 0 to 16.
const COLUMNS: usize = STEP_MOST as usize + 1;
/// The operations, and before them one row for whatever is none.
const ROWS: usize = OPERATION_MOST as usize + 1;

/// What an operation asks for; from this it follows which answers it can get.
struct Row {
    name: &'static str,
    operands: u32,
    /// Is some operand to be of a certain sort?
    sorted: bool,
    /// Refusals 11 to 16, as its own rule in section 6 lists them.
    own: &'static [usize],
}

/// A row of the table below.
const fn row(name: &'static str, operands: u32, sorted: bool, own: &'static [usize]) -> Row {
    Row { name, operands, sorted, own }
}

/// By operation [rules 6.1 to 6.20].
const TABLE: [Row; ROWS] = [
    row("-", 0, false, &[]),
    row("create", 1, true, &[13, 14]),
    row("delete", 1, true, &[15]),
    row("move", 2, true, &[13, 14, 15]),
    row("edit", 1, true, &[]),
    row("copy", 2, true, &[13]),
    row("level", 1, true, &[12, 13]),
    row("mark", 1, true, &[]),
    row("grant", 1, false, &[14]),
    row("revoke", 1, false, &[]),
    row("show", 1, true, &[13, 14, 15]),
    row("clear", 0, false, &[]),
    row("login", 1, true, &[15]),
    row("logout", 0, false, &[]),
    row("current roles", 0, false, &[11, 12, 13]),
    row("clearance", 0, false, &[11, 12, 13]),
    row("authorised roles", 0, false, &[11, 12, 13]),
    row("maximum", 1, true, &[12, 13]),
    row("device level", 1, true, &[12, 13]),
    row("release", 1, true, &[12]),
    row("acknowledge", 0, false, &[16]),
];

/// Can an operation get an answer at all? Where it can, the run must show it; where it can't, no desk may give it.
fn can_be(operation: usize, given: usize) -> bool {
    let row = &TABLE[operation];
    match given as u32 {
        // Something that is no operation ends at the form of the request.
        refusal::ACCEPTED => operation != 0,
        // Lengths, tables, requester and form are judged whatever is asked.
        refusal::BAD_LENGTH..=refusal::BAD_REQUEST => true,
        // Only a login and an acknowledgement are open to somebody who is off.
        refusal::NOT_LOGGED_ON => operation != 0 && row.name != "login" && row.name != "acknowledge",
        // These are about operands: nowhere, no triple, behind a mark. A login gets 9 too: what it names can lie behind a mark, although no
        // device does, since the kind is judged later.
        refusal::NO_SUCH_NAME..=refusal::MARKED => row.operands > 0,
        // Any kind does for a grant and a revocation.
        refusal::WRONG_KIND => row.sorted,
        _ => row.own.contains(&given),
    }
}

/// The row of a request, which may be too short to have an operation.
fn row_of(request: &[u32]) -> usize {
    match request.get(request::OPERATION) {
        Some(&operation) if operation <= OPERATION_MOST => operation as usize,
        _ => 0,
    }
}

/// How often each operation got each answer.
pub struct Cells {
    counts: [[u64; COLUMNS]; ROWS],
}

impl Cells {
    /// Nothing is counted yet.
    pub fn new() -> Cells {
        Cells { counts: [[0; COLUMNS]; ROWS] }
    }

    /// Counts a step. A desk that gives something else than 0 to 16 has been found out before.
    pub fn count(&mut self, request: &[u32], given: u32) {
        self.counts[row_of(request)][given as usize] += 1;
    }

    /// How many steps were accepted.
    pub fn accepted(&self) -> u64 {
        self.counts.iter().map(|row| row[refusal::ACCEPTED as usize]).sum()
    }

    /// How many cells were reached that can be.
    pub fn reached(&self) -> u64 {
        every_cell().filter(|&(row, given)| can_be(row, given) && self.counts[row][given] > 0).count() as u64
    }

    /// Writes the table of counts; a dot stands where nothing can.
    pub fn print(&self, out: Out) {
        let head: String = (0..COLUMNS).map(|given| format!("{:>7}", given)).collect();
        out.line(format_args!("{:<20}{}", "operation", head));
        for (number, row) in TABLE.iter().enumerate() {
            let cells: String = (0..COLUMNS).map(|given| self.cell(number, given)).collect();
            out.line(format_args!("{:>2} {:<17}{}", number, row.name, cells));
        }
    }

    /// One cell as it is printed.
    fn cell(&self, operation: usize, given: usize) -> String {
        match self.counts[operation][given] {
            0 if !can_be(operation, given) => format!("{:>7}", "."),
            count => format!("{:>7}", count),
        }
    }

    /// Names the cells that should have been reached and were not, and those that were and can't be; gives their number.
    pub fn name_amiss(&self, out: Out) -> u64 {
        let mut amiss = 0;
        for (operation, given) in every_cell() {
            let (can, was) = (can_be(operation, given), self.counts[operation][given] > 0);
            if can != was {
                let complaint = if can { "not reached" } else { "no desk may give this" };
                out.line(format_args!("{}: operation {}, answer {}", complaint, TABLE[operation].name, given));
                amiss += 1;
            }
        }
        amiss
    }
}

/// All pairs of a row and an answer.
fn every_cell() -> impl Iterator<Item = (usize, usize)> {
    (0..ROWS).flat_map(|row| (0..COLUMNS).map(move |given| (row, given)))
}
