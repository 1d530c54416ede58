//! Which line rule the bad lines broke, by what was due there, and whether every rule was broken at every line that has it [rule 16.3].
use crate::outcome::Out;
use generate::tables_text::{Bad, Due, Reason};

/// What stands above the columns, by reason: the text ends before the line, or in it; another key; fewer numbers or more; no number; leading
/// zeros; 33 bits or more; a number out of range; one that does not rise; a triple of zeros.
const HEADS: [&str; Reason::ALL.len()] =
    ["missing", "no LF", "key", "parts", "number", "zeros", "32 bits", "range", "rising", "0.0.0"];

/// Can a line be bad for this reason? Where it can, the run must show it; where it can't, no line may be found so.
fn can_be(due: Due, reason: Reason) -> bool {
    let starts_record = due.may_end();
    match reason {
        // What may be left out is never missing.
        Reason::Missing => !starts_record,
        Reason::Unended | Reason::Key | Reason::NoNumber | Reason::Zeros | Reason::Bits => true,
        Reason::Parts => due.parts() > 1,
        Reason::Range => {
            starts_record || due == Due::KIND || due == Due::PLACES || matches!(due, Due::Triples | Due::Triple)
        }
        Reason::Rising => starts_record,
        Reason::Nil => due == Due::Triple,
    }
}

/// How often each line was bad for each reason.
pub struct Cells {
    rows: Vec<(Due, [u64; Reason::ALL.len()])>,
}

impl Cells {
    /// Nothing is counted yet.
    pub fn new() -> Cells {
        Cells { rows: Due::all().into_iter().map(|due| (due, [0; Reason::ALL.len()])).collect() }
    }

    /// Counts a bad line.
    pub fn count(&mut self, bad: &Bad) {
        let row = self.rows.iter_mut().find(|(due, _)| *due == bad.due).expect("every line has a row");
        row.1[bad.reason as usize] += 1;
    }

    /// All cells: what was due, the reason, and how often.
    fn every(&self) -> impl Iterator<Item = (Due, Reason, u64)> + '_ {
        self.rows.iter().flat_map(|(due, counts)| Reason::ALL.map(|reason| (*due, reason, counts[reason as usize])))
    }

    /// How many cells were reached that can be.
    pub fn reached(&self) -> usize {
        self.every().filter(|&(due, reason, count)| can_be(due, reason) && count > 0).count()
    }

    /// Writes the table of counts; a dot stands where nothing can.
    pub fn print(&self, out: Out) {
        let head: String = HEADS.iter().map(|head| format!("{:>8}", head)).collect();
        out.line(format_args!("{:<12}{}", "bad line", head));
        for (due, counts) in &self.rows {
            let cell = |reason: Reason| match counts[reason as usize] {
                0 if !can_be(*due, reason) => format!("{:>8}", "."),
                count => format!("{:>8}", count),
            };
            out.line(format_args!("{:<12}{}", due.key(), Reason::ALL.map(cell).concat()));
        }
    }

    /// Names the cells that should have been reached and were not, and those that were and can't be; gives their number.
    pub fn name_amiss(&self, out: Out) -> u64 {
        let amiss = self.every().filter(|&(due, reason, count)| can_be(due, reason) != (count > 0));
        let told = amiss.map(|(due, reason, count)| {
            let complaint = if count == 0 { "not reached" } else { "no line can be found so" };
            out.line(format_args!("{}: {}, {}", complaint, due.key(), HEADS[reason as usize]));
        });
        told.count() as u64
    }
}
