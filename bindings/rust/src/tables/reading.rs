//! Readers of the records' words, which can be used on any words. Where a record is absent each gives `None`, false or
//! nothing; so it does where a word is out of its range, and in a row it leaves that word out. Whether the words of a
//! record fit together is for the check to say.
use super::Tables;
use crate::layout::{entity, user, MISSED_MOST, ROW};
use crate::{Entity, Kind, Level, Operation, Refusal, Roles, Shown, Triple, Type, User};
use std::ops::RangeInclusive;

/// The refusals that can be held [rule 3.19]: the others leave no notice.
const CAN_BE_HELD: RangeInclusive<u32> = Refusal::BadRequest.number()..=Refusal::NotAcknowledged.number();

/// What is kept for a user about refused requests, until it is acknowledged [rule 8.2].
#[derive(Clone, Copy, Debug, PartialEq, Eq, Hash)]
pub struct Notice {
    /// The first refusal since the last acknowledgement.
    pub held: Refusal,
    /// The operation that was refused so; `None` where the request had no operation.
    pub operation: Option<Operation>,
    /// How many refusals there were since that acknowledgement, the one held among them: 1 to 65,535.
    pub missed: u32,
}

impl Tables {
    /// The user's notice; `None` also where nothing is held.
    ///
    /// ```
    /// use mms::{Level, Notice, Operation, Refusal, Request, Roles, Tables, User};
    ///
    /// fn main() -> Result<(), Box<dyn std::error::Error>> {
    ///     let user = User::try_from(1)?;
    ///     let mut tables = Tables::empty();
    ///     tables.put_user(user, Level::LOWEST, Roles::NONE);
    ///     assert_eq!(tables.step(&Request::clear(user)), Err(Refusal::NotLoggedOn));
    ///     let notice = tables.notice(user).ok_or("no notice")?;
    ///     assert_eq!(notice, Notice { held: Refusal::NotLoggedOn, operation: Some(Operation::Clear), missed: 1 });
    ///
    ///     tables.step(&Request::acknowledge(user, notice.held, notice.missed))?;
    ///     assert_eq!(tables.notice(user), None);
    ///     Ok(())
    /// }
    /// ```
    pub fn notice(&self, of: User) -> Option<Notice> {
        let held = self.user_word(of, user::HELD).filter(|held| CAN_BE_HELD.contains(held))?;
        let operation = match self.user_word(of, user::HELD_OPERATION)? {
            0 => None,
            number => Some(Operation::from_number(number)?),
        };
        let missed = self.user_word(of, user::MISSED).filter(|missed| (1..=MISSED_MOST).contains(missed))?;
        Some(Notice { held: Refusal::from_number(held, 0)?, operation, missed })
    }

    /// Whether there is such a user.
    pub fn has_user(&self, user: User) -> bool {
        self.user_words(user)[user::PRESENT] == 1
    }

    /// The user's clearance.
    pub fn clearance_of(&self, user: User) -> Option<Level> {
        self.user_word(user, user::CLEARANCE).and_then(Level::from_number)
    }

    /// The roles that the user may take on.
    pub fn authorised_roles_of(&self, user: User) -> Option<Roles> {
        self.user_word(user, user::AUTHORISED).and_then(Roles::from_number)
    }

    /// The roles that the user acts with.
    pub fn current_roles_of(&self, user: User) -> Option<Roles> {
        self.user_word(user, user::CURRENT).and_then(Roles::from_number)
    }

    /// The device that the user is on; `None` also where the user is logged off.
    pub fn device_of(&self, user: User) -> Option<Entity> {
        self.user_word(user, user::DEVICE).and_then(Entity::from_number)
    }

    /// What the entity is; `None` where it is absent.
    pub fn kind_of(&self, entity: Entity) -> Option<Kind> {
        Kind::from_number(self.entity_words(entity)[entity::KIND])
    }

    /// Whether the entity is plain, a draft or released.
    pub fn type_of(&self, entity: Entity) -> Option<Type> {
        self.entity_word(entity, entity::TYPE).and_then(Type::from_number)
    }

    /// The entity's level.
    ///
    /// ```
    /// use mms::{Entity, Level, Tables};
    ///
    /// fn main() -> Result<(), mms::OutOfRange> {
    ///     let object = Entity::try_from(5)?;
    ///     let mut tables = Tables::empty();
    ///     assert_eq!(tables.level_of(object), None);
    ///     tables.put_object(object, Level::LOWEST);
    ///     assert_eq!(tables.level_of(object), Some(Level::LOWEST));
    ///     Ok(())
    /// }
    /// ```
    pub fn level_of(&self, entity: Entity) -> Option<Level> {
        self.entity_word(entity, entity::LEVEL).and_then(Level::from_number)
    }

    /// Whether who goes through the entity must be cleared for it.
    pub fn is_marked(&self, entity: Entity) -> bool {
        self.entity_word(entity, entity::MARK) == Some(1)
    }

    /// The entity's value.
    pub fn value_of(&self, entity: Entity) -> Option<u32> {
        self.entity_word(entity, entity::VALUE)
    }

    /// The user who released the entity; `None` also where nobody did.
    pub fn releaser_of(&self, entity: Entity) -> Option<User> {
        self.entity_word(entity, entity::RELEASER).and_then(User::from_number)
    }

    /// The highest level that the device may be set to; `None` also where the entity is no device.
    pub fn maximum_of(&self, device: Entity) -> Option<Level> {
        match self.kind_of(device) {
            Some(Kind::Device) => Level::from_number(self.entity_words(device)[entity::MAXIMUM]),
            _ => None,
        }
    }

    /// What the entity holds or, being a device, shows, in the order of its places; nothing where it is an object.
    ///
    /// ```
    /// use mms::{Entity, Level, Tables};
    ///
    /// fn main() -> Result<(), Box<dyn std::error::Error>> {
    ///     let (folder, object) = (Entity::try_from(4)?, Entity::try_from(5)?);
    ///     let mut tables = Tables::empty();
    ///     tables.put_container(folder, Level::LOWEST);
    ///     tables.put_object(object, Level::LOWEST);
    ///     tables.put_inside(object, folder)?;
    ///     assert_eq!(tables.contents_of(folder), [object]);
    ///     Ok(())
    /// }
    /// ```
    pub fn contents_of(&self, entity: Entity) -> Vec<Entity> {
        self.places(entity).filter_map(|(inside, _)| Entity::from_number(inside)).collect()
    }

    /// What the device shows, and how much of each; nothing where the entity is no device.
    pub fn shown_on(&self, device: Entity) -> Vec<(Entity, Shown)> {
        if self.kind_of(device) != Some(Kind::Device) {
            return Vec::new();
        }
        self.places(device)
            .filter_map(|(inside, sum)| Some((Entity::from_number(inside)?, Shown::from_number(sum)?)))
            .collect()
    }

    /// The entity's access triples, in their order.
    pub fn triples_of(&self, entity: Entity) -> Vec<Triple> {
        let words = (entity::TRIPLES..entity::TRIPLES + ROW).filter_map(|at| self.entity_word(entity, at));
        words.filter_map(Triple::from_word).collect()
    }

    /// How many places are in use; 0 also where the entity can have none, and where the word is above eight.
    fn used(&self, entity: Entity) -> usize {
        let used = self.entity_words(entity)[entity::USED] as usize;
        match self.kind_of(entity) {
            Some(Kind::Container | Kind::Device) if used <= ROW => used,
            _ => 0,
        }
    }

    /// What stands in the places in use, and the shown sum of each.
    fn places(&self, entity: Entity) -> impl Iterator<Item = (u32, u32)> + '_ {
        let words = self.entity_words(entity);
        (0..self.used(entity)).map(move |place| (words[entity::CONTENTS + place], words[entity::SHOWN + place]))
    }

    /// A word of a user who is present.
    fn user_word(&self, user: User, word: usize) -> Option<u32> {
        if self.has_user(user) {
            Some(self.user_words(user)[word])
        } else {
            None
        }
    }

    /// A word of an entity that is present.
    fn entity_word(&self, entity: Entity, word: usize) -> Option<u32> {
        self.kind_of(entity).map(|_| self.entity_words(entity)[word])
    }
}
