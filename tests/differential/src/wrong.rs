//! Every wrong desk must be found out, and by a difference: what a wrong desk fails to reach is no proof against it.
use crate::outcome::{Out, Outcome};
use crate::rounds::Comparison;
use crate::side::ByHand;
use crate::{runs, tables, tables_text, texts};
use ordinary::{Calls, Right, Wrong, WRONG};

/// How much is tried with each.
pub struct Effort {
    pub seed: u64,
    pub steps: u64,
    pub rounds: u64,
}

impl Effort {
    /// The first difference of two desks, one for the steps and one for the lists, with the proved one.
    fn of_tables(&self, stepping: ByHand, listing: ByHand) -> Option<String> {
        let Effort { seed, steps, .. } = *self;
        let (only, options) = (None, String::new());
        let what = tables::Comparison { seed, steps, only, stepping, listing, options, most_differences: 1 };
        tables::run(&what, Out::QUIET).first
    }

    /// The first difference of a desk's reader and writer with the proved ones.
    fn of_texts(&self, desk: ByHand) -> Option<String> {
        let Effort { seed, rounds, .. } = *self;
        texts::run(&texts::Comparison { seed, rounds, desk, options: String::new() }, Out::QUIET).first
    }

    /// The first difference of a desk's runs with the proved ones.
    fn of_runs(&self, desk: ByHand) -> Option<String> {
        let Effort { seed, rounds, .. } = *self;
        let (only, options) = (None, String::new());
        runs::run(&Comparison { seed, rounds, only, desk, options, most_differences: 1 }, Out::QUIET).first
    }

    /// The first difference of a desk's writer and reader of tables with the proved ones.
    fn of_tables_text(&self, desk: ByHand) -> Option<String> {
        let Effort { seed, rounds, .. } = *self;
        let (only, options) = (None, String::new());
        let what = Comparison { seed, rounds, only, desk, options, most_differences: 1 };
        tables_text::run(&what, Out::QUIET).first
    }

    /// Where a wrong desk is noticed first: step and list are tried one without the other, since a wrong list would hide a wrong step.
    fn noticed(&self, wrong: &Wrong) -> Vec<String> {
        let found = match wrong.calls {
            Calls::Tables => vec![self.of_tables(wrong.desk, &Right), self.of_tables(&Right, wrong.desk)],
            Calls::Texts => vec![self.of_texts(wrong.desk)],
            Calls::Runs => vec![self.of_runs(wrong.desk)],
            Calls::TablesText => vec![self.of_tables_text(wrong.desk)],
        };
        found.into_iter().flatten().collect()
    }
}

/// Tries each wrong desk, and says of each where it is noticed.
pub fn run(effort: &Effort, out: Out) -> Outcome {
    let mut outcome = Outcome::default();
    out.line(format_args!(
        "wrong: seed {}, {} steps or {} rounds with each of {} wrong desks",
        effort.seed,
        effort.steps,
        effort.rounds,
        WRONG.len()
    ));
    for wrong in WRONG {
        let noticed = effort.noticed(wrong);
        let found = if noticed.is_empty() { "NOT NOTICED".to_string() } else { noticed.join("; ") };
        out.line(format_args!("{:<8} {:<77} {}", wrong.name, wrong.error, found));
        outcome.amiss += u64::from(noticed.is_empty());
    }
    out.line(format_args!("{} wrong desks, {} not noticed", WRONG.len(), outcome.amiss));
    outcome
}
