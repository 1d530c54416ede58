//! What was seen of the runs, and whether anything is missing.
use super::call::Asked;
use super::sights::{Ran, OF_REFUSED, OF_RUNS};
use crate::guarded::WORD_OFFSETS;
use crate::outcome::Out;
use generate::layout::{refusal, STEP_MOST};

/// Counts of what was seen.
pub struct Tally {
    of_runs: [u64; OF_RUNS.len()],
    of_refused: [u64; OF_REFUSED.len()],
    /// Answers to requests in runs.
    answers: [u64; STEP_MOST as usize + 1],
    /// By where tables, requests and places start.
    starts: [u64; WORD_OFFSETS * WORD_OFFSETS * WORD_OFFSETS],
    runs: u64,
    refused: u64,
    pieces: u64,
    empty_pieces: u64,
}

impl Tally {
    /// Nothing is seen yet.
    pub fn new() -> Tally {
        Tally {
            of_runs: [0; OF_RUNS.len()],
            of_refused: [0; OF_REFUSED.len()],
            answers: [0; STEP_MOST as usize + 1],
            starts: [0; WORD_OFFSETS * WORD_OFFSETS * WORD_OFFSETS],
            runs: 0,
            refused: 0,
            pieces: 0,
            empty_pieces: 0,
        }
    }

    /// How many runs, pieces and refused ones too.
    pub fn runs(&self) -> u64 {
        self.runs + self.refused + self.pieces
    }

    /// How many requests were answered in whole runs.
    pub fn requests(&self) -> u64 {
        self.answers.iter().sum()
    }

    /// Counts a run that was gone through, whose slices started there.
    pub fn ran(&mut self, ran: &Ran, offsets: [usize; 3]) {
        self.runs += 1;
        self.start(offsets);
        ran.history.answers.iter().for_each(|&answer| self.answers[answer as usize] += 1);
        for (count, (_, is_seen)) in self.of_runs.iter_mut().zip(&OF_RUNS) {
            *count += u64::from(is_seen(ran));
        }
    }

    /// Counts a run that was refused.
    pub fn refused(&mut self, asked: &Asked, offsets: [usize; 3]) {
        self.refused += 1;
        self.start(offsets);
        for (count, (_, is_seen)) in self.of_refused.iter_mut().zip(&OF_REFUSED) {
            *count += u64::from(is_seen(asked));
        }
    }

    /// Counts a piece of a run, of so many requests.
    pub fn piece(&mut self, requests: usize) {
        self.pieces += 1;
        self.empty_pieces += u64::from(requests == 0);
    }

    /// Counts where slices started.
    fn start(&mut self, offsets: [usize; 3]) {
        self.starts[offsets.iter().fold(0, |all, offset| all * WORD_OFFSETS + offset)] += 1;
    }

    /// All that must be seen, with how often it was.
    fn sights(&self) -> Vec<(String, u64)> {
        // 1 is no answer to a request of a run, but to the run.
        let answers = (0..=STEP_MOST).filter(|&answer| answer != refusal::BAD_LENGTH);
        let answers = answers.map(|answer| (format!("answer {} to a request", answer), self.answers[answer as usize]));
        let runs = OF_RUNS.iter().map(|(name, _)| format!("run: {}", name)).zip(self.of_runs);
        let refused = OF_REFUSED.iter().map(|(name, _)| format!("refused: {}", name)).zip(self.of_refused);
        let pieces = [("a piece".to_string(), self.pieces), ("a piece of no request".to_string(), self.empty_pieces)];
        answers.chain(runs).chain(refused).chain(pieces).collect()
    }

    /// How many ways the three slices started in.
    fn ways(&self) -> usize {
        self.starts.iter().filter(|&&count| count > 0).count()
    }

    /// Writes what was counted.
    pub fn print(&self, out: Out) {
        for (name, count) in self.sights() {
            out.line(format_args!("{:>7} {}", count, name));
        }
        out.line(format_args!("the three slices started in {} ways of {}", self.ways(), self.starts.len()));
    }

    /// Names what should have been seen and was not; gives the number.
    pub fn name_unreached(&self, out: Out) -> u64 {
        let mut unreached: Vec<String> =
            self.sights().into_iter().filter(|(_, count)| *count == 0).map(|(name, _)| name).collect();
        if self.ways() < self.starts.len() {
            unreached.push("a way in which the three slices start".to_string());
        }
        for name in &unreached {
            out.line(format_args!("not reached: {}", name));
        }
        unreached.len() as u64
    }
}
