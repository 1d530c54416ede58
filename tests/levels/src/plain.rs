//! The two comparisons as the rules say them [rules 1.1 to 1.3], one compartment or role after another. They are asked of any number, of which
//! the compartments or the roles are the last eight bits.
use generate::layout::{COMPARTMENT_BITS, ROLES_MOST};

/// How many sets of compartments there are: a level is that many times its rank, and its compartments added.
const COMPARTMENT_SETS: u32 = 2_u32.pow(COMPARTMENT_BITS);
/// How many sets of roles there are.
const ROLE_SETS: u32 = ROLES_MOST + 1;

/// The rank of a is no greater than that of b, and b has every compartment that a has.
pub fn at_most(a: u32, b: u32) -> bool {
    a / COMPARTMENT_SETS <= b / COMPARTMENT_SETS && has_every(b % COMPARTMENT_SETS, a % COMPARTMENT_SETS)
}

/// Set b has every role that a has.
pub fn roles_within(a: u32, b: u32) -> bool {
    has_every(b % ROLE_SETS, a % ROLE_SETS)
}

/// Has a set every member of another?
fn has_every(set: u32, other: u32) -> bool {
    (0..u32::BITS).filter(|&member| has(other, member)).all(|member| has(set, member))
}

/// Is this one in the set?
fn has(set: u32, member: u32) -> bool {
    set / 2_u32.pow(member) % 2 == 1
}
