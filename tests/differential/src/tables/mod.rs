//! Check, step and list: the same tables, requests and rooms go to both desks, and everything that either leaves is compared.
mod by_step;
pub mod call;
mod cells;
mod corners;
mod lent;
mod list_call;
mod list_tally;
mod lists;
pub mod rooms;
mod run;
pub mod s1;
mod samples;

use crate::difference::Difference;
use crate::outcome::{again, Out, Outcome};
use crate::side::ByHand;
use run::Run;
use std::panic::{catch_unwind, AssertUnwindSafe};

/// What a run is asked for.
pub struct Comparison<'a> {
    pub seed: u64,
    /// So many steps on good tables.
    pub steps: u64,
    /// One table alone, to replay it.
    pub only: Option<u64>,
    /// Who checks and steps, and who lists, against the proved desk.
    pub stepping: ByHand<'a>,
    pub listing: ByHand<'a>,
    /// What to give besides to run it again.
    pub options: String,
    /// The run is given up after so many differences.
    pub most_differences: u64,
}

/// Goes through as many tables as the steps take. At a difference a table is left, since the two desks no longer stand in the same place.
pub fn run(what: &Comparison, out: Out) -> Outcome {
    let mut run = Run::new(what);
    let mut outcome = Outcome::default();
    let mut number = what.only.unwrap_or(1);
    out.line(format_args!("tables: seed {}, {} steps{}", what.seed, what.steps, what.options));
    while run.steps < what.steps && outcome.differences + outcome.amiss < what.most_differences {
        go_through(what, &mut run, number, &mut outcome, out);
        if what.only.is_some() {
            out.line(format_args!("table {} alone: {} steps, {} differences", number, run.steps, outcome.differences));
            return outcome;
        }
        number += 1;
    }
    outcome.amiss += summarise(&run, number - 1, out);
    out.line(format_args!(
        "{} steps, {} cells reached, {} missing, {} differences",
        run.steps,
        run.cells.reached(),
        outcome.amiss,
        outcome.differences
    ));
    outcome
}

/// Goes through one table. A desk that panics has given no answer at all: something is amiss then, but it is no difference.
fn go_through(what: &Comparison, run: &mut Run, number: u64, outcome: &mut Outcome, out: Out) {
    let ended = catch_unwind(AssertUnwindSafe(|| run.table(number)));
    match ended {
        Ok(Ok(())) => (),
        Ok(Err(difference)) => {
            report(what, run, number, &difference, out);
            let call = difference.call;
            outcome.first.get_or_insert_with(|| {
                format!("{}: table {}, request {}, after {} steps", call, number, run.request, run.steps)
            });
            outcome.differences += 1;
        }
        Err(_) => {
            report(what, run, number, &Difference::new("some call", "panicked, as standard error says"), out);
            outcome.amiss += 1;
        }
    }
}

/// Says what differed, and how to see it again.
fn report(what: &Comparison, run: &Run, number: u64, difference: &Difference, out: Out) {
    out.line(format_args!("difference: {}: {}", difference.call, difference.complaint));
    out.line(format_args!(
        "  seed {}, table {}, request {}, after {} steps",
        what.seed, number, run.request, run.steps
    ));
    for detail in &difference.details {
        out.line(format_args!("  {}", detail));
    }
    let same = again(format_args!("tables {} {} table={}{}", what.seed, what.steps, number, what.options));
    out.line(format_args!("  again: {}", same));
}

/// Writes what was reached; gives the number of things amiss.
fn summarise(run: &Run, tables: u64, out: Out) -> u64 {
    run.cells.print(out);
    out.line(format_args!("tables: {}; steps accepted, on tables good or bad: {}", tables, run.cells.accepted()));
    let [good, other_length, not_well_formed, not_secure] = run.checks;
    out.line(format_args!(
        "state checks, answered 0: {}, 1: {}, 2: {}, 3: {}",
        good, other_length, not_well_formed, not_secure
    ));
    run.corners.print(out);
    run.lists.tally.print(out);
    let unchecked = (0..run.checks.len()).filter(|&given| run.checks[given] == 0);
    let mut amiss = 0;
    for given in unchecked {
        out.line(format_args!("not reached: state check, answer {}", given));
        amiss += 1;
    }
    amiss + run.cells.name_amiss(out) + run.corners.name_unreached(out) + run.lists.tally.name_unreached(out)
}
