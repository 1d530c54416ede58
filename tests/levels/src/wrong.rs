//! Comparisons with one error each. Every one must be found out on the pairs that it is tried on; those that are right of all levels or role sets
//! are tried beyond them.
use crate::by_hand::ByHand;
use crate::pairs::Pairs::{Beyond, Levels, RoleSets};
use crate::proved::Call::{AtMost, RolesWithin};
use generate::layout::{COMPARTMENTS, COMPARTMENT_BITS, LEVEL_MOST, ROLES_MOST};
use ordinary::{Wrong, WRONG};

/// The name of the wrong desk that compares levels as plain numbers.
const PLAIN_NUMBERS: &str = "levels";
/// The greatest rank, and the mask of a rank.
const RANK_MOST: u32 = LEVEL_MOST >> COMPARTMENT_BITS;

/// A number without its compartments.
fn rank(number: u32) -> u32 {
    number >> COMPARTMENT_BITS
}

/// Are the bits of a under the mask all in b?
fn within(mask: u32, a: u32, b: u32) -> bool {
    a & !b & mask == 0
}

/// The mask without its highest bit: seven bits in place of eight.
fn narrower(mask: u32) -> u32 {
    mask >> 1
}

/// The mask with one bit more: nine in place of eight.
fn wider(mask: u32) -> u32 {
    mask << 1 | 1
}

/// The wrong desk.
fn plain_numbers() -> &'static Wrong {
    WRONG.iter().find(|wrong| wrong.name == PLAIN_NUMBERS).expect("a wrong desk compares levels as plain numbers")
}

/// All of them.
pub fn all() -> Vec<ByHand> {
    let mut all = of_levels();
    all.extend(of_roles());
    all
}

/// Those that stand for the comparison of levels.
fn of_levels() -> Vec<ByHand> {
    let in_order = |a, b| rank(a) <= rank(b);
    let desk = plain_numbers();
    vec![
        ByHand::new(desk.error, AtMost, Levels, |a, b| desk.desk.at_most(a, b)),
        ByHand::new("the mask's operands are exchanged", AtMost, Levels, move |a, b| {
            in_order(a, b) && within(COMPARTMENTS, b, a)
        }),
        ByHand::new("the ranks are exchanged", AtMost, Levels, move |a, b| {
            in_order(b, a) && within(COMPARTMENTS, a, b)
        }),
        ByHand::new("the ranks are left out", AtMost, Levels, |a, b| within(COMPARTMENTS, a, b)),
        ByHand::new("the compartments are left out", AtMost, Levels, in_order),
        ByHand::new("equal ranks are out of order", AtMost, Levels, |a, b| {
            rank(a) < rank(b) && within(COMPARTMENTS, a, b)
        }),
        ByHand::new("the highest compartment is left out", AtMost, Levels, move |a, b| {
            in_order(a, b) && within(narrower(COMPARTMENTS), a, b)
        }),
        ByHand::new("a bit of the rank is a compartment", AtMost, Levels, move |a, b| {
            in_order(a, b) && within(wider(COMPARTMENTS), a, b)
        }),
        ByHand::new("of a rank two bits count", AtMost, Beyond, |a, b| {
            rank(a) & RANK_MOST <= rank(b) & RANK_MOST && within(COMPARTMENTS, a, b)
        }),
        ByHand::new("a number has a sign", AtMost, Beyond, |a, b| {
            (a as i32) >> COMPARTMENT_BITS <= (b as i32) >> COMPARTMENT_BITS && within(COMPARTMENTS, a, b)
        }),
    ]
}

/// Those that stand for the comparison of sets of roles.
fn of_roles() -> Vec<ByHand> {
    vec![
        ByHand::new("sets are compared as plain numbers", RolesWithin, RoleSets, |a, b| a <= b),
        ByHand::new("the mask's operands are exchanged", RolesWithin, RoleSets, |a, b| within(ROLES_MOST, b, a)),
        ByHand::new("the highest role is left out", RolesWithin, RoleSets, |a, b| within(narrower(ROLES_MOST), a, b)),
        ByHand::new("a bit above the roles is a role", RolesWithin, Beyond, |a, b| within(wider(ROLES_MOST), a, b)),
        ByHand::new("all bits above the roles are roles", RolesWithin, Beyond, |a, b| within(u32::MAX, a, b)),
    ]
}
