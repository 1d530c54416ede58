//! Runs [request M-100]: both desks are given the same tables, requests and places, in one run and in pieces, and must leave what single
//! steps leave.
mod call;
mod history;
mod lengths;
pub mod s1;
mod sights;
mod tally;

use crate::difference::Difference;
use crate::guarded;
use crate::outcome::{again, Out, Outcome};
use crate::rounds::Comparison;
use crate::tables::call::Calls;
use call::{Asked, RunCalls};
use generate::layout::TABLE_WORDS;
use generate::{dice_for, full, Dice};
use history::{requests_to, History};
use sights::Ran;
use std::panic::{catch_unwind, AssertUnwindSafe};
use tally::Tally;

/// The round whose run is the longest, and how many requests it has.
const LONGEST_IN: u64 = 2;
const LONGEST: usize = 10_000;
/// Requests of any other round.
const REQUESTS_MOST: u32 = 300;
/// From one round with full tables to the next.
const FULL_EVERY: u64 = 4;
/// Requests in a piece, and in a run on tables that may be bad.
const PIECE_MOST: usize = 40;
const TO_DAMAGED_MOST: usize = 12;
/// Tables that may be bad, in each round.
const DAMAGED: u32 = 8;
/// Spare places.
const SPARE_MOST: u32 = 9;

/// Compares so many rounds, and says what was reached and what differed.
pub fn run(what: &Comparison, out: Out) -> Outcome {
    let mut rounds = Rounds::new(what);
    let mut outcome = Outcome::default();
    let done = match what.go("runs", &mut outcome, out, |number, outcome| rounds.go_through(number, outcome, out)) {
        Some(done) => done,
        None => return outcome,
    };
    rounds.tally.print(out);
    outcome.amiss += rounds.tally.name_unreached(out);
    out.line(format_args!(
        "{} rounds, {} runs, {} requests in them, {} not reached, {} differences",
        done,
        rounds.tally.runs(),
        rounds.tally.requests(),
        outcome.amiss,
        outcome.differences
    ));
    outcome
}

/// Both desks, and what was seen of them.
struct Rounds<'a> {
    what: &'a Comparison<'a>,
    steps: Calls<'a>,
    calls: RunCalls<'a>,
    tally: Tally,
    dice: Dice,
    /// What is being done, for a report.
    doing: &'static str,
}

impl<'a> Rounds<'a> {
    /// Nothing is compared yet.
    fn new(what: &'a Comparison<'a>) -> Rounds<'a> {
        let (steps, calls) = (Calls::new(what.desk), RunCalls::new(what.desk));
        Rounds { what, steps, calls, tally: Tally::new(), dice: Dice::new(what.seed), doing: "nothing" }
    }

    /// Goes through one round. A desk that panics has given no answer at all: something is amiss then, but it is no difference.
    fn go_through(&mut self, number: u64, outcome: &mut Outcome, out: Out) {
        match catch_unwind(AssertUnwindSafe(|| self.round(number))) {
            Ok(Ok(())) => (),
            Ok(Err(difference)) => {
                self.report(number, &difference, out);
                let first = || format!("{}: round {}, {}", difference.call, number, self.doing);
                outcome.first.get_or_insert_with(first);
                outcome.differences += 1;
            }
            Err(_) => {
                self.report(number, &Difference::new("some call", "panicked, as standard error says"), out);
                outcome.amiss += 1;
            }
        }
    }

    /// Says what differed, and how to see it again.
    fn report(&self, number: u64, difference: &Difference, out: Out) {
        let what = self.what;
        out.line(format_args!("difference: {}: {}", difference.call, difference.complaint));
        out.line(format_args!("  seed {}, round {}, {}", what.seed, number, self.doing));
        for detail in &difference.details {
            out.line(format_args!("  {}", detail));
        }
        let same = again(format_args!("runs {} {} round={}{}", what.seed, what.rounds, number, what.options));
        out.line(format_args!("  again: {}", same));
    }

    /// All of a round follows from the seed and its number.
    fn round(&mut self, number: u64) -> Result<(), Difference> {
        guarded::start_from(number);
        self.dice = dice_for(self.what.seed, number);
        self.doing = "single steps";
        let is_full = number % FULL_EVERY == 0;
        let tables = if is_full { full::full(&mut self.dice) } else { generate::tables(&mut self.dice) };
        let count = if number == LONGEST_IN { LONGEST } else { self.dice.between(1, REQUESTS_MOST) as usize };
        let requests = requests_to(&mut self.dice, &tables, count);
        let history = History::of(&mut self.steps, &tables, &requests)?;
        self.whole(&history)?;
        self.pieces(&history)?;
        self.short(&history)?;
        self.damaged(&history)?;
        self.lengths(&history)
    }

    /// All requests in one run, with as many places and with some more.
    fn whole(&mut self, history: &History) -> Result<(), Difference> {
        self.doing = "all in one run";
        let spare = self.dice.between(1, SPARE_MOST) as usize;
        self.same(history, 0)?;
        self.same(history, spare)
    }

    /// The same requests in pieces, each from the tables that the last one left.
    fn pieces(&mut self, history: &History) -> Result<(), Difference> {
        self.doing = "in pieces";
        let mut tables = history.tables.clone();
        let mut from = 0;
        while from < history.answers.len() {
            let most = PIECE_MOST.min(history.answers.len() - from);
            let to = from + self.dice.below(most as u32 + 1) as usize;
            let places = to - from + self.dice.below(SPARE_MOST) as usize;
            self.calls.run(&Asked { tables: &tables, requests: history.part(from, to), places })?;
            self.expect(&history.answers[from..to])?;
            tables.copy_from_slice(self.calls.left());
            self.tally.piece(to - from);
            from = to;
        }
        match tables == history.after {
            true => Ok(()),
            false => Err(Difference::new("run", "pieces do not leave the tables that single steps leave")),
        }
    }

    /// One request, and none at all, also to words that are no tables.
    fn short(&mut self, history: &History) -> Result<(), Difference> {
        self.doing = "one request, and none";
        let mut words = vec![0; TABLE_WORDS];
        generate::random_words(&mut self.dice, &mut words);
        self.stepped(&history.tables, history.part(0, 1))?;
        self.stepped(&words, history.part(0, 1))?;
        self.stepped(&words, &[])?;
        self.stepped(&history.after, &[])
    }

    /// Some of the requests, and none, to tables that are no longer good, most of the time.
    fn damaged(&mut self, history: &History) -> Result<(), Difference> {
        self.doing = "damaged tables";
        for _ in 0..DAMAGED {
            let from = self.dice.below(history.answers.len() as u32) as usize;
            let most = TO_DAMAGED_MOST.min(history.answers.len() - from);
            let to = from + self.dice.below(most as u32 + 1) as usize;
            let mut tables = history.tables.clone();
            generate::damage(&mut self.dice, &mut tables);
            self.stepped(&tables, history.part(from, to))?;
            self.stepped(&tables, &[])?;
        }
        Ok(())
    }

    /// A run of lengths that don't go together, each way.
    fn lengths(&mut self, history: &History) -> Result<(), Difference> {
        self.doing = "odd lengths";
        let dice = &mut self.dice;
        for odd in lengths::all(dice, history) {
            let asked = odd.asked();
            self.calls.run(&asked)?;
            self.tally.refused(&asked, self.calls.offsets());
        }
        Ok(())
    }

    /// A run of any requests to any tables, which must do what single steps do.
    fn stepped(&mut self, tables: &[u32], requests: &[u32]) -> Result<(), Difference> {
        let history = History::of(&mut self.steps, tables, requests)?;
        let spare = self.dice.below(SPARE_MOST) as usize;
        self.same(&history, spare)
    }

    /// One run of what was done in single steps, with some spare places.
    fn same(&mut self, history: &History, spare: usize) -> Result<(), Difference> {
        let places = history.answers.len() + spare;
        self.calls.run(&Asked { tables: &history.tables, requests: &history.requests, places })?;
        self.expect(&history.answers)?;
        if self.calls.left() != history.after {
            return Err(Difference::new("run", "it does not leave the tables that single steps leave"));
        }
        self.tally.ran(&Ran { history, places }, self.calls.offsets());
        Ok(())
    }

    /// The answers of the last run must be these, which single steps gave.
    fn expect(&self, answers: &[u32]) -> Result<(), Difference> {
        let given = &self.calls.answers()[..answers.len()];
        match given.iter().zip(answers).position(|(given, due)| given != due) {
            None => Ok(()),
            Some(at) => Err(Difference::new("run", "it does not answer as single steps do").with(format!(
                "request {} of {}, from 0 on: run {}, step {}",
                at,
                answers.len(),
                given[at],
                answers[at]
            ))),
        }
    }
}
