//! Tables from nothing. These writers put words where they belong and judge nothing: [`Tables::check`] says what has
//! come of it. Once there are tables, requests change them.
use super::Tables;
use crate::layout::{entity, user, ROW};
use crate::{Entity, Kind, Level, Refusal, Roles, Triple, Type, User};

impl Tables {
    /// A user with this clearance and these authorised roles, logged off, nothing held. A record that was there is
    /// replaced.
    ///
    /// ```
    /// use mms::{Level, Roles, Tables, User};
    ///
    /// fn main() -> Result<(), Box<dyn std::error::Error>> {
    ///     let user = User::try_from(3)?;
    ///     let mut tables = Tables::empty();
    ///     tables.put_user(user, Level::try_from(513)?, Roles::DOWNGRADER | Roles::RELEASER);
    ///     assert!(tables.has_user(user));
    ///     assert_eq!(tables.device_of(user), None);
    ///     assert_eq!(tables.check(), Ok(()));
    ///     Ok(())
    /// }
    /// ```
    pub fn put_user(&mut self, user: User, clearance: Level, authorised: Roles) {
        let words = self.user_words_mut(user);
        words.fill(0);
        words[user::PRESENT] = 1;
        words[user::CLEARANCE] = clearance.number();
        words[user::AUTHORISED] = authorised.number();
    }

    /// The user is on this device, with these current roles.
    pub fn put_on(&mut self, user: User, device: Entity, current: Roles) {
        let words = self.user_words_mut(user);
        words[user::DEVICE] = device.number();
        words[user::CURRENT] = current.number();
    }

    /// A device that shows nothing. A record that was there is replaced, here and in the next three.
    pub fn put_device(&mut self, device: Entity, level: Level, maximum: Level) {
        self.put_entity(device, Kind::Device, level)[entity::MAXIMUM] = maximum.number();
    }

    /// An object of value 0.
    pub fn put_object(&mut self, object: Entity, level: Level) {
        self.put_entity(object, Kind::Object, level);
    }

    /// A plain container of value 0, not marked, with nothing in it.
    pub fn put_container(&mut self, container: Entity, level: Level) {
        self.put_entity(container, Kind::Container, level);
    }

    /// The same as a draft.
    pub fn put_draft(&mut self, draft: Entity, level: Level) {
        self.put_entity(draft, Kind::Container, level)[entity::TYPE] = Type::Draft.number();
    }

    /// The entity has this value.
    pub fn put_value(&mut self, entity: Entity, value: u32) {
        self.entity_words_mut(entity)[entity::VALUE] = value;
    }

    /// The container is marked, or is not.
    pub fn put_mark(&mut self, container: Entity, marked: bool) {
        self.entity_words_mut(container)[entity::MARK] = u32::from(marked);
    }

    /// The entity is the last in the container.
    ///
    /// # Errors
    ///
    /// [`Refusal::NoRoom`] where eight places are in use.
    ///
    /// ```
    /// use mms::{Entity, Level, Refusal, Tables};
    ///
    /// fn main() -> Result<(), Box<dyn std::error::Error>> {
    ///     let (low, high) = (Entity::try_from(1)?, Entity::try_from(2)?);
    ///     let mut tables = Tables::empty();
    ///     tables.put_container(low, Level::LOWEST);
    ///     tables.put_object(high, Level::HIGHEST);
    ///     tables.put_inside(high, low)?;
    ///     // nothing was judged; the check does it
    ///     assert_eq!(tables.check(), Err(Refusal::NotSecure));
    ///     Ok(())
    /// }
    /// ```
    pub fn put_inside(&mut self, entity: Entity, container: Entity) -> Result<(), Refusal> {
        let words = self.entity_words_mut(container);
        let used = words[entity::USED] as usize;
        if used >= ROW {
            return Err(Refusal::NoRoom);
        }
        words[entity::CONTENTS + used] = entity.number();
        words[entity::USED] += 1;
        Ok(())
    }

    /// The entity has this triple behind its others.
    ///
    /// # Errors
    ///
    /// [`Refusal::NoRoom`] where there are eight.
    pub fn put_triple(&mut self, entity: Entity, triple: Triple) -> Result<(), Refusal> {
        let mut triples = self.entity_words_mut(entity)[entity::TRIPLES..].iter_mut();
        *triples.find(|word| **word == 0).ok_or(Refusal::NoRoom)? = triple.word();
        Ok(())
    }

    /// A record of this kind and level and nothing else; gives its words.
    fn put_entity(&mut self, entity: Entity, kind: Kind, level: Level) -> &mut [u32] {
        let words = self.entity_words_mut(entity);
        words.fill(0);
        words[entity::KIND] = kind.number();
        words[entity::LEVEL] = level.number();
        words
    }
}
