//! Calls of one side alone, to be counted from outside: a run that makes all calls and one that makes none differ by what the calls took, since
//! all else is the same.
use crate::contest::Contest;
use bench::kept;
use bench::load::{Call, Load, Rooms};
use bench::side::{Outcome, Side};
use std::fs;
use std::path::Path;

/// How many tables a load has: fewer than when it is timed, since counting takes long.
const TABLES: usize = 10;

/// Finds the load of a contest and keeps it in a file; gives the number of its calls, or says what is wrong.
pub fn keep(contest: &Contest, seed: u64, file: &Path) -> Result<usize, String> {
    let load = contest.load(seed, TABLES)?;
    fs::write(file, kept::bytes_of(&load)).map_err(|error| format!("{}: {}", file.display(), error))?;
    Ok(load.calls(contest.call))
}

/// The load that a file keeps. Its tables are checked where the call asks for that, and not elsewhere, which would only be counted.
fn kept_load(contest: &Contest, file: &Path) -> Result<Load, String> {
    let bytes = fs::read(file).map_err(|error| format!("{}: {}", file.display(), error))?;
    let load = kept::load_of(&bytes).ok_or_else(|| format!("{} keeps no load", file.display()))?;
    match contest.call {
        Call::Advance => contest.checked(load),
        _ => Ok(load),
    }
}

/// Makes the first so many calls of a load that a file keeps, and gives the sum of their outcomes; else says what is wrong.
pub fn count(contest: &Contest, side: &Side, calls: usize, file: &Path) -> Result<Outcome, String> {
    let load = kept_load(contest, file)?;
    if calls > load.calls(contest.call) {
        return Err(format!("{}: there are {} calls at most", contest.name(), load.calls(contest.call)));
    }
    let (mut tables, mut rooms) = (load.tables.clone(), Rooms::new());
    let sum = load.pass(calls, contest.call, side, &mut tables, &mut rooms);
    Ok(sum.wrapping_add(rooms.answered()))
}
