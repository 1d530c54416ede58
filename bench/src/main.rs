//! Times the proved desk and the ordinary one on the same loads, and runs one of them alone for its instructions to be counted.
#![warn(missing_docs)]
mod advance;
mod agree;
mod contest;
mod count;
mod machine;
mod print;
mod script;
mod sides;
mod timing;

use std::path::Path;
use std::{env, process};

const USAGE: &str = "usage:
  bench time SEED REPETITIONS               both sides timed on the same loads, as a table
  bench keep FOLDER [SEED]                  the loads to count with, kept in FOLDER: prints call, load, number of calls and file of each
  bench count CALL LOAD SIDE CALLS FILE     so many calls of one side (proved or ordinary) on the load in FILE, and nothing else
  bench script FOLDER SEED                  the requests of the run as a script, and their tables as state.words, left in FOLDER";
/// The seed where none is given.
const SEED: u64 = 1;
/// The status of a run that found something wrong, and of one that was not asked for anything that there is.
const WRONG: i32 = 1;
const NOT_UNDERSTOOD: i32 = 2;

/// A number of the command line.
fn number<N: std::str::FromStr>(word: &str) -> Result<N, Stop> {
    word.parse().map_err(|_| Stop::Usage)
}

/// Why a run ends early.
enum Stop {
    Usage,
    Wrong(String),
}

impl From<String> for Stop {
    /// A sentence that comes up from a call says what is wrong.
    fn from(message: String) -> Stop {
        Stop::Wrong(message)
    }
}

/// Times all contests and prints what came of them.
fn time(seed: u64, repetitions: u32) -> Result<(), Stop> {
    print::heading(seed, repetitions);
    let mut sum = 0u64;
    for contest in contest::all() {
        let report = timing::time(contest, seed, repetitions)?;
        sum = sum.wrapping_add(report.sum);
        print::report(&report);
    }
    print::footing(timing::around(contest::MIX, seed, repetitions)?, sum);
    Ok(())
}

/// One line for each contest, whose load is kept in a file of the folder.
fn keep(folder: &str, seed: u64) -> Result<(), Stop> {
    for contest in contest::all() {
        let file = Path::new(folder).join(format!("{}.load", contest.name().replace(' ', "-")));
        println!("{} {} {}", contest.name(), count::keep(&contest, seed, &file)?, file.display());
    }
    Ok(())
}

/// A sum in sixteen digits of base 16: to write one takes as many instructions as to write any other, so that a run without calls and one with
/// them differ by the calls alone.
fn digits(sum: u64) -> String {
    (0..16).rev().map(|place| char::from(b"0123456789abcdef"[(sum >> (4 * place)) as usize & 15])).collect()
}

/// Makes so many calls of one side alone, and prints a sum that needs them all.
fn count(words: [&str; 5]) -> Result<(), Stop> {
    let [call, load, side, calls, file] = words;
    let contest = contest::find(call, load).ok_or(Stop::Usage)?;
    let side = sides::SIDES.iter().find(|known| known.name == side).ok_or(Stop::Usage)?;
    println!("sum of the outcomes: {}", digits(count::count(&contest, side, number(calls)?, Path::new(file))?));
    Ok(())
}

/// Leaves the script of the run in a folder, and says on what machine this is.
fn left_in(folder: &str, seed: u64) -> Result<(), Stop> {
    script::keep(seed, Path::new(folder))?;
    println!("Machine: {}. Seed {seed}.", machine::describe());
    Ok(())
}

/// Does what the command line asks for.
fn run(words: &[&str]) -> Result<(), Stop> {
    match *words {
        ["time", seed, repetitions] => match number(repetitions)? {
            0 => Err(Stop::Usage),
            repetitions => time(number(seed)?, repetitions),
        },
        ["keep", folder] => keep(folder, SEED),
        ["keep", folder, seed] => keep(folder, number(seed)?),
        ["count", call, load, side, calls, file] => count([call, load, side, calls, file]),
        ["script", folder, seed] => left_in(folder, number(seed)?),
        _ => Err(Stop::Usage),
    }
}

/// The status is 0 where all is well, 1 where something is not, 2 where the command line is unclear.
fn main() {
    let words: Vec<String> = env::args().skip(1).collect();
    let words: Vec<&str> = words.iter().map(String::as_str).collect();
    match run(&words) {
        Ok(()) => {}
        Err(Stop::Usage) => {
            eprintln!("{USAGE}");
            process::exit(NOT_UNDERSTOOD);
        }
        Err(Stop::Wrong(message)) => {
            eprintln!("{message}");
            process::exit(WRONG);
        }
    }
}
