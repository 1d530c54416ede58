//! Users, entities and levels: three types, none of which can stand for another [rule 1.4].
use crate::numbered::numbered;
use std::cmp::Ordering;

numbered! {
    /// The number of a user, 1 to 16, present or not.
    ///
    /// ```
    /// use mms::User;
    ///
    /// fn main() {
    ///     assert_eq!(User::from_number(16).map(User::number), Some(16));
    ///     assert_eq!(User::from_number(0), None);
    ///     assert_eq!(User::from_number(17), None);
    /// }
    /// ```
    #[derive(Clone, Copy, Debug, PartialEq, Eq, Hash, PartialOrd, Ord)]
    User, 1 to 16, "a user, 1 to 16"
}

numbered! {
    /// The number of an entity, 1 to 64, present or not: an object, a container or a device.
    ///
    /// ```
    /// use mms::Entity;
    ///
    /// fn main() -> Result<(), mms::OutOfRange> {
    ///     let entity = Entity::try_from(4)?;
    ///     assert_eq!(entity.to_string(), "4");
    ///     assert!(Entity::try_from(65).is_err());
    ///     Ok(())
    /// }
    /// ```
    #[derive(Clone, Copy, Debug, PartialEq, Eq, Hash, PartialOrd, Ord)]
    Entity, 1 to 64, "an entity, 1 to 64"
}

numbered! {
    /// A level: a rank, 0 to 3, and a set of compartments, eight bits [rule 1.1].
    ///
    /// `<=` is "at most" of rule 1.2, which is no order of plain numbers: two levels may be incomparable. So a level
    /// has `PartialOrd` and no `Ord`.
    ///
    /// ```
    /// use mms::Level;
    ///
    /// fn main() -> Result<(), mms::OutOfRange> {
    ///     let ranked = Level::try_from(256)?;
    ///     let apart = Level::try_from(1)?;
    ///     assert!(!(ranked <= apart) && !(apart <= ranked));
    ///     assert!(apart <= Level::try_from(257)?);
    ///     assert!(Level::LOWEST <= apart && apart <= Level::HIGHEST);
    ///     Ok(())
    /// }
    /// ```
    #[derive(Clone, Copy, Debug, PartialEq, Eq, Hash)]
    Level, 0 to 1023, "a level, 0 to 1,023"
}

/// What a step of the rank adds to a level's number; below it stand the compartments.
const RANK: u32 = 256;
const RANK_MOST: u32 = 3;

impl Level {
    /// Rank 0 and no compartment, which is at most every level.
    pub const LOWEST: Level = Level(0);
    /// Rank 3 and all compartments, which every level is at most.
    pub const HIGHEST: Level = Level(RANK_MOST * RANK + RANK - 1);

    /// The level of this rank, with these compartments; `None` if the rank is above 3.
    ///
    /// ```
    /// use mms::Level;
    ///
    /// fn main() {
    ///     let level = Level::new(2, 0b101).unwrap();
    ///     assert_eq!(level.number(), 517);
    ///     assert_eq!((level.rank(), level.compartments()), (2, 0b101));
    ///     assert_eq!(Level::new(4, 0), None);
    /// }
    /// ```
    pub const fn new(rank: u32, compartments: u8) -> Option<Level> {
        if rank <= RANK_MOST {
            Some(Level(rank * RANK + compartments as u32))
        } else {
            None
        }
    }

    /// Its rank, 0 to 3.
    pub const fn rank(self) -> u32 {
        self.0 / RANK
    }

    /// Its compartments, a bit for each.
    pub const fn compartments(self) -> u8 {
        (self.0 % RANK) as u8
    }

    /// Whether this level is at most the other: its rank is no greater, and the other has all its compartments [rule
    /// 1.2].
    pub const fn is_at_most(self, other: Level) -> bool {
        self.rank() <= other.rank() && self.compartments() & !other.compartments() == 0
    }
}

impl PartialOrd for Level {
    fn partial_cmp(&self, other: &Level) -> Option<Ordering> {
        match (self.is_at_most(*other), other.is_at_most(*self)) {
            (true, true) => Some(Ordering::Equal),
            (true, false) => Some(Ordering::Less),
            (false, true) => Some(Ordering::Greater),
            (false, false) => None,
        }
    }
}
