//! The proved comparisons of levels and of sets of roles against comparisons by hand: on all pairs that there are, and on numbers beyond them.
mod by_hand;
mod pairs;
mod plain;
mod proved;
mod right;
mod wrong;

use pairs::Pairs;
use std::process::exit;

/// What can be asked for.
const USAGE: &str = "usage: levels SEED

All pairs of levels and of sets of roles, and pairs of numbers beyond them, which follow from the seed, a number below 2^64. The status is 1
if a right comparison differed from the proved one or a wrong one did not, and 2 if it is not clear what is wanted.";

/// What came of the right comparisons.
#[derive(Default)]
struct Outcome {
    differences: u64,
    /// Comparisons that did not hold as often as they must.
    amiss: u64,
}

/// Makes the comparisons that must agree with the proved one everywhere.
fn try_right(seed: u64) -> Outcome {
    let mut outcome = Outcome::default();
    for right in right::all() {
        let found = right.try_on_pairs(seed);
        let is_whole = right.pairs.may_hold(&found);
        let amiss = if is_whole { "" } else { ", WHICH CANNOT BE" };
        println!("{}, by {}: {} of {} hold{}, {}", right.place(), right.what, found.hold, found.pairs, amiss, found);
        outcome.differences += found.differences;
        outcome.amiss += u64::from(!is_whole);
    }
    outcome
}

/// Makes the comparisons that must differ from it somewhere, and says how many do not.
fn try_wrong(seed: u64, wrong: &[by_hand::ByHand]) -> usize {
    let mut not_noticed = 0;
    for wrong in wrong {
        let found = wrong.try_on_pairs(seed);
        let noticed = if found.first.is_some() { found.to_string() } else { "NOT NOTICED".to_string() };
        println!("{}, {}: {}", wrong.place(), wrong.what, noticed);
        not_noticed += usize::from(found.first.is_none());
    }
    not_noticed
}

/// Tries all of them, and says whether all is well.
fn run(seed: u64) -> bool {
    println!("levels: seed {}", seed);
    let outcome = try_right(seed);
    let wrong = wrong::all();
    let not_noticed = try_wrong(seed, &wrong);
    println!(
        "{} pairs of levels, {} of role sets, {} beyond, {} wrong comparisons, {} not noticed, {} differences",
        Pairs::Levels.all(seed).count(),
        Pairs::RoleSets.all(seed).count(),
        Pairs::Beyond.all(seed).count(),
        wrong.len(),
        not_noticed,
        outcome.differences
    );
    outcome.differences == 0 && outcome.amiss == 0 && not_noticed == 0
}

/// The seed that the command line gives, if that is all it gives.
fn seed() -> Option<u64> {
    let mut words = std::env::args().skip(1);
    let seed = words.next()?.parse().ok()?;
    words.next().map_or(Some(seed), |_| None)
}

/// The status is 0 where all is well, 1 where something is not, 2 where the command line is unclear.
fn main() {
    match seed() {
        Some(seed) => exit(i32::from(!run(seed))),
        None => {
            eprintln!("{}", USAGE);
            exit(2);
        }
    }
}
