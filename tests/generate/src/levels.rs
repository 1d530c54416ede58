//! Levels that stand in some relation to a given one.
use crate::layout::{COMPARTMENTS, COMPARTMENT_BITS, LEVEL_MOST};
use crate::view::any_of;
use crate::Dice;
use std::cmp::Ordering;

/// Bits of a level: those of the compartments, and two for the rank above them.
const LEVEL_BITS: u32 = COMPARTMENT_BITS + 2;
const RANKS: u32 = 4;

/// A level at most the given one, which is often itself.
pub fn lower(dice: &mut Dice, level: u32) -> u32 {
    if dice.chance(45) {
        return level;
    }
    dice.below((level >> COMPARTMENT_BITS) + 1) << COMPARTMENT_BITS | (level & dice.word() & COMPARTMENTS)
}

/// A level at least the given one.
pub fn higher(dice: &mut Dice, level: u32) -> u32 {
    let rank = level >> COMPARTMENT_BITS;
    (rank + dice.below(RANKS - rank)) << COMPARTMENT_BITS | ((level | dice.word()) & COMPARTMENTS)
}

/// A level that is often related to the given one, either way, or differs from it by one bit.
pub fn near(dice: &mut Dice, level: u32) -> u32 {
    match dice.below(4) {
        0 => lower(dice, level),
        1 => higher(dice, level),
        2 => level ^ 1 << dice.below(LEVEL_BITS),
        _ => dice.between(0, LEVEL_MOST),
    }
}

/// A level sideways of the given one: neither is at most the other. It is at most `most`, as the given one must be. There are three ways: to a
/// lower rank with a compartment gained, within the rank with one gained and one lost, and to a higher rank with one lost. Those that are
/// open are taken alike; from level 0 and from `most` itself none is.
pub fn sideways(dice: &mut Dice, level: u32, most: u32) -> Option<u32> {
    let (rank, held) = (level >> COMPARTMENT_BITS, level & COMPARTMENTS);
    let lacking = most & !level & COMPARTMENTS;
    let ranks_above = (most >> COMPARTMENT_BITS) - rank;
    let is_open = |way: &Ordering| match way {
        Ordering::Less => rank > 0 && lacking != 0,
        Ordering::Equal => held != 0 && lacking != 0,
        Ordering::Greater => ranks_above > 0 && held != 0,
    };
    let ways = [Ordering::Less, Ordering::Equal, Ordering::Greater].into_iter().filter(is_open).collect::<Vec<_>>();
    let way = any_of(dice, &ways)?;
    let rank = match way {
        Ordering::Less => dice.below(rank),
        Ordering::Equal => rank,
        Ordering::Greater => rank + 1 + dice.below(ranks_above),
    };
    let gained = some(dice, lacking, way != Ordering::Greater);
    let lost = some(dice, held, way != Ordering::Less);
    Some(rank << COMPARTMENT_BITS | held & !lost | gained)
}

/// Some of the bits that are set, at least one where that is asked.
fn some(dice: &mut Dice, bits: u32, at_least_one: bool) -> u32 {
    let some = bits & dice.word();
    if some != 0 || !at_least_one {
        return some;
    }
    let each: Vec<u32> = (0..COMPARTMENT_BITS).map(|bit| 1 << bit).filter(|bit| bits & bit != 0).collect();
    any_of(dice, &each).unwrap_or(0)
}

#[cfg(test)]
mod tests {
    use super::*;
    use crate::layout::at_most;

    /// Enough for each way to be taken from each level.
    const THROWS: u32 = 60;

    /// Is neither level at most the other?
    fn apart(a: u32, b: u32) -> bool {
        !at_most(a, b) && !at_most(b, a)
    }

    /// The ways that are taken from a level: what becomes of the rank.
    fn ways_from(dice: &mut Dice, level: u32, most: u32) -> Vec<Ordering> {
        let taken: Vec<u32> = (0..THROWS).filter_map(|_| sideways(dice, level, most)).collect();
        assert!(taken.iter().all(|&new| apart(new, level) && at_most(new, most)), "from {} within {}", level, most);
        let mut ways: Vec<Ordering> =
            taken.iter().map(|new| (new >> COMPARTMENT_BITS).cmp(&(level >> COMPARTMENT_BITS))).collect();
        ways.sort();
        ways.dedup();
        ways
    }

    /// Sideways is sideways, and every way is taken from every level that has it.
    #[test]
    fn sideways_goes_every_way_there_is() {
        let mut dice = Dice::new(1);
        for level in 0..=LEVEL_MOST {
            let mut all: Vec<Ordering> = (0..=LEVEL_MOST)
                .filter(|&other| apart(other, level))
                .map(|other| (other >> COMPARTMENT_BITS).cmp(&(level >> COMPARTMENT_BITS)))
                .collect();
            all.sort();
            all.dedup();
            assert_eq!(ways_from(&mut dice, level, LEVEL_MOST), all, "from {}", level);
            assert_eq!(all.is_empty(), level == 0 || level == LEVEL_MOST, "from {}", level);
        }
    }

    /// Within a level, sideways is taken wherever there is such a level.
    #[test]
    fn sideways_stays_within_what_is_asked() {
        let mut dice = Dice::new(1);
        for _ in 0..2_000 {
            let most = dice.between(0, LEVEL_MOST);
            let level = lower(&mut dice, most);
            let has_some = (0..=LEVEL_MOST).any(|other| apart(other, level) && at_most(other, most));
            assert_eq!(!ways_from(&mut dice, level, most).is_empty(), has_some, "from {} within {}", level, most);
        }
    }
}
