//! Levels and how they compare [rules 1.1, 1.2].

use crate::Rules;

/// Bits of the compartments; the rank stands above them.
const COMPARTMENTS: u32 = 8;

/// A rank and a set of compartments in one word.
#[derive(Clone, Copy, PartialEq, Eq)]
pub struct Level(pub u32);

impl Level {
    /// Rank no greater, and no compartment that the other lacks.
    pub fn at_most<R: Rules>(self, other: Level) -> bool {
        if R::LEVELS {
            return self.0 <= other.0;
        }
        let lacking = self.compartments() & !other.compartments();
        self.rank() <= other.rank() && lacking == 0
    }

    /// Whether a change from the old level to this one is a drop: this one is not at least the old.
    pub fn drops_from<R: Rules>(self, old: Level) -> bool {
        !old.at_most::<R>(self)
    }

    /// Whether neither is at most the other. A drop is sideways where this holds, and else to a strictly lower level.
    pub fn is_sideways_of<R: Rules>(self, other: Level) -> bool {
        !self.at_most::<R>(other) && !other.at_most::<R>(self)
    }

    /// The part that has an order.
    #[inline]
    fn rank(self) -> u32 {
        self.0 >> COMPARTMENTS
    }

    /// The part that is a set, one bit for each member.
    #[inline]
    fn compartments(self) -> u32 {
        self.0 & ((1 << COMPARTMENTS) - 1)
    }
}
