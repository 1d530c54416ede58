//! Comparisons that go by rounds, of runs and of the text of tables. Everything in a round follows from the seed and its number, so that
//! one can be replayed alone.
use crate::outcome::{Out, Outcome};
use crate::side::ByHand;

/// What is asked for.
pub struct Comparison<'a> {
    pub seed: u64,
    pub rounds: u64,
    /// One round alone, to replay it.
    pub only: Option<u64>,
    /// Whose calls are held against those of the proved desk.
    pub desk: ByHand<'a>,
    /// What to give besides to run it again.
    pub options: String,
    /// It is given up after so many differences.
    pub most_differences: u64,
}

impl Comparison<'_> {
    /// Goes through the rounds. Gives how many there were, or none where one was replayed alone and all is said.
    pub fn go(
        &self,
        name: &str,
        outcome: &mut Outcome,
        out: Out,
        mut round: impl FnMut(u64, &mut Outcome),
    ) -> Option<u64> {
        out.line(format_args!("{}: seed {}, {} rounds{}", name, self.seed, self.rounds, self.options));
        if let Some(number) = self.only {
            round(number, outcome);
            out.line(format_args!("round {} alone: {} differences", number, outcome.differences));
            return None;
        }
        let mut done = 0;
        while done < self.rounds && outcome.differences < self.most_differences {
            done += 1;
            round(done, outcome);
        }
        Some(done)
    }
}
