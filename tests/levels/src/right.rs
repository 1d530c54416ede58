//! Whom the proved comparisons must agree with.
use crate::by_hand::ByHand;
use crate::pairs::Pairs::{Beyond, Levels, RoleSets};
use crate::plain;
use crate::proved::Call::{AtMost, RolesWithin};
use ordinary::{Desk, Right};

/// The ordinary desk, and the rules as they read. The desk compares only what has passed its check, so beyond that the rules are asked alone.
pub fn all() -> Vec<ByHand> {
    vec![
        ByHand::new("the ordinary desk", AtMost, Levels, |a, b| Right.at_most(a, b)),
        ByHand::new("the rules", AtMost, Levels, plain::at_most),
        ByHand::new("the ordinary desk", RolesWithin, RoleSets, ordinary::roles_within),
        ByHand::new("the rules", RolesWithin, RoleSets, plain::roles_within),
        ByHand::new("the rules", AtMost, Beyond, plain::at_most),
        ByHand::new("the rules", RolesWithin, Beyond, plain::roles_within),
    ]
}
