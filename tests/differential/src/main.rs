//! The proved desk against one written by hand: the same tables, requests and texts go to both, and everything that either leaves is compared.
mod difference;
mod guarded;
mod outcome;
mod rounds;
mod runs;
mod script;
mod side;
mod tables;
mod tables_text;
mod texts;
mod wrong;

use ordinary::{Calls, Right, Wrong, WRONG};
use outcome::{Out, Outcome};
use rounds::Comparison;
use side::ByHand;
use std::process::exit;
use wrong::Effort;

/// What can be asked for.
const USAGE: &str = "\
usage: differential tables SEED STEPS [wrong=NAME] [table=NUMBER]
       differential texts SEED ROUNDS [wrong=NAME]
       differential runs SEED ROUNDS [wrong=NAME] [round=NUMBER]
       differential tables_text SEED ROUNDS [wrong=NAME] [round=NUMBER]
       differential s1
       differential rooms SEED
       differential wrong SEED STEPS ROUNDS
       differential script SEED REQUESTS
       differential script s1

tables:      check, step and list of tables good and bad; table=NUMBER replays one of them alone
texts:       request texts read and written, good ones and damaged ones
runs:        requests in one run, in pieces and in single steps, and runs of odd lengths; round=NUMBER replays one round alone
tables_text: tables written and read as text, good ones and damaged ones; round=NUMBER replays one round alone
s1:          the answers that are listed for case state S1, by document 01 and by request M-101
rooms:       lists of S1, of S1 with something amiss and of full tables, in rooms of every length
wrong:       every wrong desk through tables, texts, runs or tables_text, where it must be noticed
script:      tables as state.words has them, then a script of requests to them

A seed is a number below 2^64, and everything follows from it. The status is 1 if anything differed or was not reached, and 2 if it is not
clear what is wanted. With wrong=NAME the desk written by hand is one of these:";

/// Differences after which a comparison of tables, of runs or of the text of tables is given up.
const DIFFERENCES_MOST: u64 = 5;

/// What is not understood.
struct Unclear;

impl From<std::num::ParseIntError> for Unclear {
    /// A number too large is as unclear as one that is none.
    fn from(_: std::num::ParseIntError) -> Unclear {
        Unclear
    }
}

/// A number in decimal, and nothing else.
fn number(word: &str) -> Result<u64, Unclear> {
    if word.bytes().all(|byte| byte.is_ascii_digit()) {
        Ok(word.parse()?)
    } else {
        Err(Unclear)
    }
}

/// Options behind the numbers of a comparison.
struct Options {
    wrong: Option<&'static Wrong>,
    /// The only table or round.
    only: Option<u64>,
}

/// A wrong desk by its name, for these calls.
fn wrong_desk(name: &str, calls: Calls) -> Result<&'static Wrong, Unclear> {
    WRONG.iter().find(|wrong| wrong.name == name && wrong.calls == calls).ok_or(Unclear)
}

/// What one of many is called that can be replayed alone.
fn one_of_many(calls: Calls) -> Option<&'static str> {
    match calls {
        Calls::Tables => Some("table"),
        Calls::Texts => None,
        Calls::Runs | Calls::TablesText => Some("round"),
    }
}

/// Reads options; each may come once or not at all.
fn options(words: &[&str], calls: Calls) -> Result<Options, Unclear> {
    let mut options = Options { wrong: None, only: None };
    for word in words {
        match word.split_once('=') {
            Some(("wrong", name)) if options.wrong.is_none() => options.wrong = Some(wrong_desk(name, calls)?),
            Some((one, which)) if options.only.is_none() && Some(one) == one_of_many(calls) => {
                options.only = Some(number(which)?)
            }
            _ => return Err(Unclear),
        }
    }
    Ok(options)
}

impl Options {
    /// The desk written by hand.
    fn desk(&self) -> ByHand<'static> {
        self.wrong.map_or(&Right, |wrong| wrong.desk)
    }

    /// What to give besides the numbers to have that desk again.
    fn words(&self) -> String {
        self.wrong.map_or(String::new(), |wrong| format!(" wrong={}", wrong.name))
    }
}

/// Compares check, step and list.
fn run_tables(seed: &str, steps: &str, rest: &[&str]) -> Result<Outcome, Unclear> {
    let options = options(rest, Calls::Tables)?;
    let what = tables::Comparison {
        seed: number(seed)?,
        steps: number(steps)?,
        only: options.only,
        stepping: options.desk(),
        listing: options.desk(),
        options: options.words(),
        most_differences: DIFFERENCES_MOST,
    };
    Ok(tables::run(&what, Out::LOUD))
}

/// Compares the reader and the writer.
fn run_texts(seed: &str, rounds: &str, rest: &[&str]) -> Result<Outcome, Unclear> {
    let options = options(rest, Calls::Texts)?;
    let what = texts::Comparison {
        seed: number(seed)?,
        rounds: number(rounds)?,
        desk: options.desk(),
        options: options.words(),
    };
    Ok(texts::run(&what, Out::LOUD))
}

/// A comparison by rounds, of these calls.
fn by_rounds(seed: &str, rounds: &str, rest: &[&str], calls: Calls) -> Result<Comparison<'static>, Unclear> {
    let options = options(rest, calls)?;
    Ok(Comparison {
        seed: number(seed)?,
        rounds: number(rounds)?,
        only: options.only,
        desk: options.desk(),
        options: options.words(),
        most_differences: DIFFERENCES_MOST,
    })
}

/// Compares runs of requests.
fn run_runs(seed: &str, rounds: &str, rest: &[&str]) -> Result<Outcome, Unclear> {
    Ok(runs::run(&by_rounds(seed, rounds, rest, Calls::Runs)?, Out::LOUD))
}

/// Compares the writer and the reader of tables.
fn run_tables_text(seed: &str, rounds: &str, rest: &[&str]) -> Result<Outcome, Unclear> {
    Ok(tables_text::run(&by_rounds(seed, rounds, rest, Calls::TablesText)?, Out::LOUD))
}

/// What is said of S1, in single requests and in runs.
fn run_s1() -> Outcome {
    let (single, runs) = (tables::s1::run(Out::LOUD), runs::s1::run(Out::LOUD));
    let (differences, amiss) = (single.differences + runs.differences, single.amiss + runs.amiss);
    Outcome { differences, amiss, first: single.first.or(runs.first) }
}

/// Tries every wrong desk.
fn run_wrong(seed: &str, steps: &str, rounds: &str) -> Result<Outcome, Unclear> {
    let effort = Effort { seed: number(seed)?, steps: number(steps)?, rounds: number(rounds)? };
    Ok(wrong::run(&effort, Out::LOUD))
}

/// A script has nothing to complain of but that it could not be written.
fn run_script(words: &[&str]) -> Result<Outcome, Unclear> {
    let written = match words {
        ["s1"] => script::of_s1(),
        [seed, requests] => script::generated(number(seed)?, number(requests)?),
        _ => return Err(Unclear),
    };
    let amiss = u64::from(written.is_err());
    Ok(Outcome { amiss, ..Outcome::default() })
}

/// Does what the words of the command line say.
fn run(words: &[&str]) -> Result<Outcome, Unclear> {
    match words {
        ["tables", seed, steps, rest @ ..] => run_tables(seed, steps, rest),
        ["texts", seed, rounds, rest @ ..] => run_texts(seed, rounds, rest),
        ["runs", seed, rounds, rest @ ..] => run_runs(seed, rounds, rest),
        ["tables_text", seed, rounds, rest @ ..] => run_tables_text(seed, rounds, rest),
        ["s1"] => Ok(run_s1()),
        ["rooms", seed] => Ok(tables::rooms::run(number(seed)?, Out::LOUD)),
        ["wrong", seed, steps, rounds] => run_wrong(seed, steps, rounds),
        ["script", rest @ ..] => run_script(rest),
        _ => Err(Unclear),
    }
}

/// Says on standard error what can be asked for.
fn usage() {
    eprintln!("{}", USAGE);
    for wrong in WRONG {
        eprintln!("  {:<8} {}", wrong.name, wrong.error);
    }
}

/// The status is 0 where all is well, 1 where something is not, 2 where the command line is unclear.
fn main() {
    let words: Vec<String> = std::env::args().skip(1).collect();
    let words: Vec<&str> = words.iter().map(String::as_str).collect();
    match run(&words) {
        Ok(outcome) => exit(i32::from(!outcome.is_good())),
        Err(Unclear) => {
            usage();
            exit(2);
        }
    }
}
