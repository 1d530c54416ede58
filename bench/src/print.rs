//! The output, in Markdown.
use crate::machine;
use crate::timing::{Report, LEAST};
use bench::figures::{nanoseconds, whole, Spread};
use bench::load::{Call, RUN_REQUESTS};

/// What the names in the first two columns mean.
const NAMES: &str = "
- check, step, run, list, read, write, read_tables, write_tables: the eight calls. A run has 10,000 requests to one tables. advance: the step
  without the check.
- s1: case state S1 alone, again and again; the list is that of user 2.
- middle: tables made by dice, some entities absent and some users off. full: all entities present and all users on, levels and triples
  by dice. fullest: the tables that have the longest list there is.
- mixed: all operations. A name of an operation: that one alone.
- short: texts of 39 bytes. longest: texts of 166 bytes, and of tables texts of 17,721 bytes.";

/// What stands above the lines of the contests.
pub fn heading(seed: u64, repetitions: u32) {
    println!("Machine: {}.", machine::describe());
    println!(
        "Seed {seed}. Nanoseconds for a call: medians of {repetitions} repetitions of each side, in turn, each of {} ms or more.",
        LEAST.as_millis()
    );
    println!("The ratio is the median of the ratios of repetitions next to each other. After it are the quartiles of all three.");
    println!();
    println!("| call | load | proved, ns | ordinary, ns | ratio | proved, quartiles | ordinary, quartiles | ratio, quartiles | a pass |");
    println!("|-|-|-|-|-|-|-|-|-|");
}

/// From the lower quartile to the upper one.
fn between(spread: Spread, write: fn(f64) -> String) -> String {
    format!("{} to {}", write(spread.lower), write(spread.upper))
}

/// A ratio with two digits behind the point.
fn ratio(ratio: f64) -> String {
    format!("{ratio:.2}")
}

/// How many calls there are, and what tells most about them.
fn a_pass(report: &Report) -> String {
    let mean = report.agreed.numbers as f64 / report.calls as f64;
    let about = match report.contest.call {
        Call::List => format!(", {mean:.1} entries each"),
        Call::Write | Call::WriteTables => format!(", {mean:.1} bytes each"),
        Call::Step | Call::Advance => format!(", {} accepted", whole(report.agreed.accepted as u64)),
        Call::Run => {
            format!(" of {} requests, {} accepted", whole(RUN_REQUESTS as u64), whole(report.agreed.accepted as u64))
        }
        Call::Check | Call::Read | Call::ReadTables => String::new(),
    };
    let calls = if report.calls == 1 { "call" } else { "calls" };
    format!("{} {calls}{about}", whole(report.calls as u64))
}

/// The line of a contest. The clock of a processor may change during a run: two repetitions next to each other find it much the same, so
/// their ratio moves less than that of the medians.
pub fn report(report: &Report) {
    let cells = [
        report.contest.call.name().to_string(),
        report.contest.kind.name().to_string(),
        nanoseconds(report.proved.median),
        nanoseconds(report.ordinary.median),
        ratio(report.ratio.median),
        between(report.proved, nanoseconds),
        between(report.ordinary, nanoseconds),
        between(report.ratio, ratio),
        a_pass(report),
    ];
    println!("| {} |", cells.join(" | "));
}

/// What stands below them.
pub fn footing(around: Spread, sum: u64) {
    println!("{NAMES}\n");
    println!(
        "In every figure: the loop and the call through a pointer, {} ns for requests.",
        nanoseconds(around.median)
    );
    println!("Sum of all outcomes, which were compared before: {sum}.");
}
