//! The pairs that comparisons are tried on.
use crate::by_hand::Found;
use generate::layout::{COMPARTMENTS, LEVEL_MOST, ROLES_MOST};
use generate::Dice;

/// Throws of numbers beyond the levels; each pair is taken both ways round.
const THROWS: u32 = 200_000;
/// Bits of a level; a number with a higher bit is none.
const LEVEL_BITS: u32 = u32::BITS - LEVEL_MOST.leading_zeros();
/// Of all pairs of the four ranks, those of which the first is no greater.
const RANKS_IN_ORDER: u64 = 4 + 3 + 2 + 1;

/// Which pairs.
#[derive(Clone, Copy)]
pub enum Pairs {
    /// All pairs of levels.
    Levels,
    /// All pairs of sets of roles.
    RoleSets,
    /// Pairs of numbers, at least one of which is no level, and so no set of roles either.
    Beyond,
}

impl Pairs {
    /// What they are called in a report.
    pub fn name(self) -> &'static str {
        match self {
            Pairs::Levels => "levels",
            Pairs::RoleSets => "role sets",
            Pairs::Beyond => "beyond",
        }
    }

    /// All of them, one after another.
    pub fn all(self, seed: u64) -> Box<dyn Iterator<Item = (u32, u32)>> {
        match self {
            Pairs::Levels => Box::new(up_to(LEVEL_MOST)),
            Pairs::RoleSets => Box::new(up_to(ROLES_MOST)),
            Pairs::Beyond => Box::new(beyond(seed)),
        }
    }

    /// Can a comparison hold so many times? Of all pairs it is known how many, and of others both answers must have been reached.
    pub fn may_hold(self, found: &Found) -> bool {
        match self {
            Pairs::Levels => found.hold == RANKS_IN_ORDER * sets_within(COMPARTMENTS),
            Pairs::RoleSets => found.hold == sets_within(ROLES_MOST),
            Pairs::Beyond => found.hold > 0 && found.hold < found.pairs,
        }
    }
}

/// Of all pairs of subsets, those of which the second has every member of the first: of each member there are three cases, since it is in both,
/// in the second alone or in neither.
fn sets_within(whole: u32) -> u64 {
    3_u64.pow(whole.count_ones())
}

/// All pairs of numbers from 0 to this one.
fn up_to(most: u32) -> impl Iterator<Item = (u32, u32)> {
    (0..=most).flat_map(move |a| (0..=most).map(move |b| (a, b)))
}

/// Pairs from the dice.
fn beyond(seed: u64) -> impl Iterator<Item = (u32, u32)> {
    let mut dice = Dice::new(seed);
    (0..THROWS).flat_map(move |_| {
        let a = no_level(&mut dice);
        let b = beside(&mut dice, a);
        [(a, b), (b, a)]
    })
}

/// A number that is no level: all lengths in bits alike, since most words have a bit near the top.
fn no_level(dice: &mut Dice) -> u32 {
    let highest = 1 << dice.between(LEVEL_BITS, u32::BITS - 1);
    highest | dice.word() & (highest - 1)
}

/// A number to be compared with another: two words of the dice seldom have ranks that are near, and seldom all compartments in common.
fn beside(dice: &mut Dice, number: u32) -> u32 {
    match dice.below(5) {
        0 => number ^ 1 << dice.below(u32::BITS),
        1 => number & !COMPARTMENTS | dice.word() & COMPARTMENTS,
        2 => number & COMPARTMENTS | dice.word(),
        3 => dice.between(0, LEVEL_MOST),
        _ => dice.word(),
    }
}
