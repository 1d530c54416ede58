//! What a run of texts has reached.

use generate::layout::refusal;

use super::damage;
use super::slow::{BEHIND, LINES};
use crate::outcome::Out;

/// The answers that the writer and the reader can give.
const OF_WRITER: [u32; 4] = [refusal::ACCEPTED, refusal::BAD_LENGTH, refusal::BAD_REQUEST, refusal::TOO_SHORT];
const OF_READER: [u32; 3] = [refusal::ACCEPTED, refusal::BAD_LENGTH, refusal::NOT_A_REQUEST];

/// Counts by the line that is bad, 1 to 8; 0 is for a request text.
type Lines = [u64; BEHIND + 1];

/// Counts of answers, and of bad lines by the damage that led to them.
#[derive(Default)]
pub struct Tally {
    written: [u64; refusal::NOT_A_REQUEST as usize + 1],
    read: [u64; refusal::NOT_A_REQUEST as usize + 1],
    lines: Vec<Lines>,
}

impl Tally {
    /// Nothing is reached yet.
    pub fn new() -> Tally {
        Tally { lines: damage::all().map(|_| Lines::default()).collect(), ..Tally::default() }
    }

    /// A writer gave this answer.
    pub fn wrote(&mut self, answer: u32) {
        self.written[answer as usize] += 1;
    }

    /// A reader gave this answer.
    pub fn read(&mut self, answer: u32) {
        self.read[answer as usize] += 1;
    }

    /// A damage led to a text whose first bad line is this one.
    pub fn damaged(&mut self, kind: usize, line: usize) {
        self.lines[kind][line] += 1;
    }

    /// Prints all counts; how many lines and answers were never met is returned.
    pub fn print(&self, out: Out) -> u64 {
        print_counts(out, "writes", &self.written, &OF_WRITER)
            + print_counts(out, "reads", &self.read, &OF_READER)
            + self.print_lines(out)
    }

    /// Each line 1 to 8 must have been the bad one.
    fn print_lines(&self, out: Out) -> u64 {
        let mut all: Lines = Default::default();
        let heads: String = (1..=LINES + 1).map(|line| format!("   line {}", line)).collect();
        out.line(format_args!("{:18}{:>10}{}", "damage", "none", heads));
        for ((name, _), counts) in damage::all().zip(&self.lines) {
            print_row(out, name, counts);
            all.iter_mut().zip(counts).for_each(|(sum, count)| *sum += count);
        }
        print_row(out, "all", &all);
        all[1..].iter().filter(|count| **count == 0).count() as u64
    }
}

/// The counts of one damage.
fn print_row(out: Out, name: &str, counts: &Lines) {
    let lines: String = counts[1..].iter().map(|count| format!("{:9}", count)).collect();
    out.line(format_args!("{:18}{:10}{}", name, counts[0], lines));
}

/// One line of counts by answer; how many of these answers were never given is returned.
fn print_counts(out: Out, calls: &str, counts: &[u64], answers: &[u32]) -> u64 {
    let counted: Vec<String> = answers.iter().map(|no| format!("{}: {}", no, counts[*no as usize])).collect();
    out.line(format_args!("{}, by answer: {}", calls, counted.join(", ")));
    answers.iter().filter(|no| counts[**no as usize] == 0).count() as u64
}
