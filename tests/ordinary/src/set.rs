//! A set of entities, one bit for each.

use crate::tables::Entity;

/// Any of the 64 entities there can be; the default is none of them.
#[derive(Clone, Copy, Default, PartialEq, Eq)]
pub struct EntitySet(u64);

impl EntitySet {
    /// Takes an entity in, and says whether it was not in yet.
    #[inline]
    pub fn insert(&mut self, entity: Entity) -> bool {
        let new = !self.holds(entity);
        self.0 |= bit(entity);
        new
    }

    /// Whether an entity is in it.
    #[inline]
    pub fn holds(self, entity: Entity) -> bool {
        self.0 & bit(entity) != 0
    }

    /// The members of either set.
    #[inline]
    pub fn and(self, other: EntitySet) -> EntitySet {
        EntitySet(self.0 | other.0)
    }

    /// Whether the other set has every member of this one.
    #[inline]
    pub fn is_within(self, other: EntitySet) -> bool {
        self.0 & !other.0 == 0
    }
}

/// The word in which only the bit of that entity is set.
#[inline]
fn bit(entity: Entity) -> u64 {
    1 << entity.index()
}
