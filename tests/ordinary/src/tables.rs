//! Numbers of users and entities, and their records in the tables.

use crate::level::Level;
use crate::words::*;

/// The number of a user, 1 to 16.
#[derive(Clone, Copy, PartialEq, Eq)]
pub struct User(u32);

/// The number of an entity, 1 to 64.
#[derive(Clone, Copy, PartialEq, Eq)]
pub struct Entity(u32);

impl User {
    /// The user of that number, if there can be one.
    #[inline]
    pub fn new(number: u32) -> Option<User> {
        (1..=USERS).contains(&number).then_some(User(number))
    }

    /// The user of that number, if there is one.
    #[inline]
    pub fn present(tables: &Tables, number: u32) -> Option<User> {
        User::new(number).filter(|user| user_words(tables, *user)[user::PRESENT] != 0)
    }

    /// The sixteen users there can be, in the order of their numbers.
    #[inline]
    pub fn all() -> impl Iterator<Item = User> {
        (1..=USERS).map(User)
    }

    /// The number as it stands in requests and tables, from 1.
    #[inline]
    pub fn number(self) -> u32 {
        self.0
    }

    /// Where the user's record starts.
    #[inline]
    pub fn start(self) -> usize {
        (self.0 as usize - 1) * USER_WORDS
    }
}

impl Entity {
    /// The entity of that number, if there can be one.
    #[inline]
    pub fn new(number: u32) -> Option<Entity> {
        (1..=ENTITIES).contains(&number).then_some(Entity(number))
    }

    /// The entity of that number, if there is one.
    #[inline]
    pub fn present(tables: &Tables, number: u32) -> Option<Entity> {
        Entity::new(number).filter(|entity| kind_of(tables, *entity) != kind::ABSENT)
    }

    /// The 64 entities there can be, in the order of their numbers.
    #[inline]
    pub fn all() -> impl Iterator<Item = Entity> {
        (1..=ENTITIES).map(Entity)
    }

    /// The number as it stands in requests and tables, from 1.
    #[inline]
    pub fn number(self) -> u32 {
        self.0
    }

    /// The number counted from 0.
    #[inline]
    pub fn index(self) -> usize {
        self.0 as usize - 1
    }

    /// Where the entity's record starts.
    #[inline]
    fn start(self) -> usize {
        FIRST_ENTITY_WORD + self.index() * ENTITY_WORDS
    }
}

/// The record of a user, to be read.
#[inline]
pub fn user_words(tables: &Tables, user: User) -> &UserWords {
    tables[user.start()..][..USER_WORDS].try_into().expect("a user's words")
}

/// The record of a user, to be written to.
#[inline]
pub fn user_words_mut(tables: &mut Tables, user: User) -> &mut UserWords {
    (&mut tables[user.start()..][..USER_WORDS]).try_into().expect("a user's words")
}

/// The record of an entity, to be read.
#[inline]
pub fn entity_words(tables: &Tables, entity: Entity) -> &EntityWords {
    tables[entity.start()..][..ENTITY_WORDS].try_into().expect("an entity's words")
}

/// The record of an entity, to be written to.
#[inline]
pub fn entity_words_mut(tables: &mut Tables, entity: Entity) -> &mut EntityWords {
    (&mut tables[entity.start()..][..ENTITY_WORDS]).try_into().expect("an entity's words")
}

/// Object, container, device, or absent.
#[inline]
pub fn kind_of(tables: &Tables, entity: Entity) -> u32 {
    tables[entity.start() + entity::KIND]
}

/// Whether entities of that kind are screens, which show things. Devices are, and no others.
#[inline]
pub fn is_screen(kind: u32) -> bool {
    kind == kind::DEVICE
}

/// Whether entities of that kind are terminals, which users log on to. Devices are, and no others.
#[inline]
pub fn is_terminal(kind: u32) -> bool {
    kind == kind::DEVICE
}

/// How high an entity stands; for a device, the level it is set to now.
#[inline]
pub fn level_of(tables: &Tables, entity: Entity) -> Level {
    Level(tables[entity.start() + entity::LEVEL])
}

/// The level up to which a user may see things.
#[inline]
pub fn clearance_of(tables: &Tables, user: User) -> Level {
    Level(user_words(tables, user)[user::CLEARANCE])
}

/// The device that a user is logged on to.
#[inline]
pub fn device_of(tables: &Tables, user: User) -> Option<Entity> {
    Entity::new(user_words(tables, user)[user::DEVICE])
}

/// What an entity of well-formed tables holds or shows, by place: used places come first, and the rest are 0.
#[inline]
pub fn contents(words: &EntityWords) -> impl Iterator<Item = Entity> + '_ {
    words[entity::CONTENTS].iter().map_while(|number| Entity::new(*number))
}

/// The place where that entity stands, counted from 0.
#[inline]
pub fn place_of(words: &EntityWords, entity: Entity) -> Option<usize> {
    words[entity::CONTENTS].iter().position(|number| *number == entity.number())
}

/// Whether that entity stands in one of the places.
#[inline]
pub fn holds(words: &EntityWords, entity: Entity) -> bool {
    place_of(words, entity).is_some()
}

/// Whether nothing more can be put into the entity or shown on it.
#[inline]
pub fn is_full(words: &EntityWords) -> bool {
    words[entity::USED] as usize == PLACES
}

/// The users who are logged on, each with the device. In well-formed tables no other device shows anything.
#[inline]
pub fn logged_on(tables: &Tables) -> impl Iterator<Item = (User, Entity)> + '_ {
    User::all().filter_map(move |user| device_of(tables, user).map(|device| (user, device)))
}

/// The container that an entity is in.
#[inline]
pub fn container_of(tables: &Tables, entity: Entity) -> Option<Entity> {
    Entity::all().find(|container| {
        let words = entity_words(tables, *container);
        words[entity::KIND] == kind::CONTAINER && holds(words, entity)
    })
}
