//! Reading tables that are good, as the generator needs it.
use crate::layout::{
    entity, entity_base, kind, right, right_of, user, user_base, who_of, ENTITIES, ENTITY_WORDS, FIRST_ROLE, PLACES,
    TRIPLES, USERS, USER_WORDS,
};
use crate::Dice;

/// The words of a user.
pub fn user_record(tables: &[u32], number: u32) -> &[u32] {
    &tables[user_base(number)..][..USER_WORDS]
}

/// The words of an entity.
pub fn entity_record(tables: &[u32], number: u32) -> &[u32] {
    &tables[entity_base(number)..][..ENTITY_WORDS]
}

/// The used places of an entity.
pub fn contents(record: &[u32]) -> &[u32] {
    &record[entity::CONTENTS..][..record[entity::USED] as usize]
}

/// The triples of an entity, without the zeros behind them.
pub fn triples(record: &[u32]) -> &[u32] {
    let all = &record[entity::TRIPLES..][..TRIPLES as usize];
    let end = all.iter().position(|&triple| triple == 0).unwrap_or(all.len());
    &all[..end]
}

/// The place, from 1, at which a record holds an entity.
pub fn place_in(record: &[u32], number: u32) -> Option<u32> {
    contents(record).iter().position(|&held| held == number).map(|place| place as u32 + 1)
}

/// Which container each entity of good tables is in.
pub struct Holders([u32; ENTITIES as usize + 1]);

impl Holders {
    /// Looks into every container once.
    pub fn of(tables: &[u32]) -> Holders {
        let mut holders = Holders([0; ENTITIES as usize + 1]);
        let is_container = |&number: &u32| entity_record(tables, number)[entity::KIND] == kind::CONTAINER;
        for holder in (1..=ENTITIES).filter(is_container) {
            contents(entity_record(tables, holder)).iter().for_each(|&held| holders.0[held as usize] = holder);
        }
        holders
    }

    /// The container that an entity is in.
    pub fn container_of(&self, number: u32) -> Option<u32> {
        Some(self.0[number as usize]).filter(|&holder| holder != 0)
    }

    /// Is an entity another one, or inside it at any depth?
    pub fn is_or_inside(&self, inner: u32, outer: u32) -> bool {
        let mut at = inner;
        while at != outer && at != 0 {
            at = self.0[at as usize];
        }
        at == outer
    }
}

/// Is it a container with no place left?
pub fn is_full_container(record: &[u32]) -> bool {
    record[entity::KIND] == kind::CONTAINER && record[entity::USED] == PLACES
}

/// The users that something is true of, by their records.
pub fn users_where(tables: &[u32], holds: impl Fn(&[u32]) -> bool) -> Vec<u32> {
    (1..=USERS).filter(|&number| holds(user_record(tables, number))).collect()
}

/// Is the user of this record logged on?
pub fn is_on(record: &[u32]) -> bool {
    record[user::DEVICE] != 0
}

/// Is the user of this record present, and logged off?
pub fn is_off(record: &[u32]) -> bool {
    record[user::PRESENT] != 0 && record[user::DEVICE] == 0
}

/// Does a triple's "who" stand for a user with these current roles?
pub fn stands_for(who: u32, number: u32, roles: u32) -> bool {
    who == number || (who >= FIRST_ROLE && roles >> (who - FIRST_ROLE) & 1 != 0)
}

/// Has an entity a triple of this operation and position for a user?
pub fn allows(tables: &[u32], number: u32, user: u32, operation: u32, position: u32) -> bool {
    let roles = user_record(tables, user)[user::CURRENT];
    let wanted = right(operation, position);
    let fits = |&triple: &u32| right_of(triple) == wanted && stands_for(who_of(triple), user, roles);
    triples(entity_record(tables, number)).iter().any(fits)
}

/// Any present entity; 1 where there is none.
pub fn present_entity(dice: &mut Dice, tables: &[u32]) -> u32 {
    let present: Vec<u32> =
        (1..=ENTITIES).filter(|&number| entity_record(tables, number)[entity::KIND] != kind::ABSENT).collect();
    any_of(dice, &present).unwrap_or(1)
}

/// Any present user; 1 where there is none.
pub fn present_user(dice: &mut Dice, tables: &[u32]) -> u32 {
    any_of(dice, &users_where(tables, |record| record[user::PRESENT] != 0)).unwrap_or(1)
}

/// One of some things, if there are any.
pub fn any_of<T: Copy>(dice: &mut Dice, things: &[T]) -> Option<T> {
    if things.is_empty() {
        None
    } else {
        Some(dice.one_of(things))
    }
}
