//! Tables with something amiss: a few words changed, by chance or with a rule in view. They may stay good.
use crate::layout::{
    entity, entity_base, kind, triple, user, user_base, ENTITIES, ENTITY_WORDS, FIRST_ENTITY_WORD, KIND_MOST,
    LEVEL_MOST, OPERATION_MOST, PLACES, ROLES_MOST, SUM_MOST, TRIPLES, USERS, USER_WORDS, WHO_MOST,
};
use crate::view::{entity_record, present_entity, present_user, user_record, Holders};
use crate::{levels, Dice};

/// Changes a few words of good tables; they may stay good.
pub fn damage(dice: &mut Dice, tables: &mut [u32]) {
    match dice.below(10) {
        0 => close_circle(dice, tables),
        1 => {
            let (holder, content) = (present_entity(dice, tables), present_entity(dice, tables));
            put_last(dice, tables, holder, content);
        }
        2 => change_user(dice, tables),
        3 | 4 => change_entity(dice, tables),
        5..=7 => change_security(dice, tables),
        _ => change_words(dice, tables),
    }
}

/// Puts one entity into the last place of another, whatever they are.
fn put_last(dice: &mut Dice, tables: &mut [u32], holder: u32, content: u32) {
    let record = &mut tables[entity_base(holder)..];
    let used = record[entity::USED] as usize;
    if used == PLACES as usize {
        return;
    }
    record[entity::CONTENTS + used] = content;
    record[entity::USED] += 1;
    if record[entity::KIND] == kind::DEVICE {
        record[entity::SHOWN + used] = dice.between(1, SUM_MOST);
    }
}

/// Puts a container that is in no other one into something inside itself, so that the circle is the only thing that is not well-formed.
fn close_circle(dice: &mut Dice, tables: &mut [u32]) {
    let holders = Holders::of(tables);
    let inner = present_entity(dice, tables);
    let mut outer = inner;
    while let Some(holder) = holders.container_of(outer) {
        outer = holder;
    }
    if entity_record(tables, inner)[entity::KIND] == kind::CONTAINER {
        put_last(dice, tables, inner, outer);
    }
}

/// Changes where a user is, which roles the user has, or the notice.
fn change_user(dice: &mut Dice, tables: &mut [u32]) {
    let device = if dice.chance(50) {
        user_record(tables, present_user(dice, tables))[user::DEVICE]
    } else {
        present_entity(dice, tables)
    };
    let base = user_base(present_user(dice, tables));
    let record = &mut tables[base..];
    match dice.below(5) {
        0 | 1 => record[user::DEVICE] = device,
        2 => record[user::CURRENT..=user::DEVICE].fill(0),
        3 => record[user::CURRENT] = dice.between(0, ROLES_MOST),
        _ => record[user::HELD + dice.below(3) as usize] = dice.below(22),
    }
}

/// Changes an entity's kind, type, places or triples, in range or just out of it.
fn change_entity(dice: &mut Dice, tables: &mut [u32]) {
    let base = entity_base(present_entity(dice, tables));
    let record = &mut tables[base..];
    let place = dice.below(PLACES) as usize;
    match dice.below(6) {
        0 => record[entity::SHOWN + place] = dice.between(0, SUM_MOST + 1),
        1 => record[entity::USED] = dice.between(0, PLACES + 1),
        2 => record[entity::TRIPLES + place] = record[entity::TRIPLES + dice.below(TRIPLES) as usize],
        3 => {
            record[entity::TRIPLES + place] =
                triple(dice.below(WHO_MOST + 2), dice.below(OPERATION_MOST + 2), dice.below(4))
        }
        4 => {
            record[entity::TYPE] = dice.below(3);
            record[entity::RELEASER] = dice.between(0, USERS + 1);
        }
        _ => record[entity::KIND] = dice.between(0, KIND_MOST),
    }
}

/// Writes words that can all stand in well-formed tables, so that security decides.
fn change_security(dice: &mut Dice, tables: &mut [u32]) {
    let of_user = user_base(present_user(dice, tables));
    let of_entity = entity_base(present_entity(dice, tables));
    let used = tables[of_entity + entity::USED];
    let is_device = tables[of_entity + entity::KIND] == kind::DEVICE;
    let near = |dice: &mut Dice, word: &mut u32| *word = levels::near(dice, *word);
    match dice.below(5) {
        0 => near(dice, &mut tables[of_user + user::CLEARANCE]),
        1 => tables[of_user + user::AUTHORISED] = dice.between(0, ROLES_MOST),
        2 if is_device => near(dice, &mut tables[of_entity + entity::MAXIMUM]),
        3 if is_device && used > 0 => {
            tables[of_entity + entity::SHOWN + dice.below(used) as usize] = dice.between(1, SUM_MOST);
        }
        _ => near(dice, &mut tables[of_entity + entity::LEVEL]),
    }
}

/// Changes one to three words anywhere, mostly in records that are present.
fn change_words(dice: &mut Dice, tables: &mut [u32]) {
    for _ in 0..dice.between(1, 3) {
        let index = match dice.below(8) {
            0 => dice.below(tables.len() as u32) as usize,
            1 | 2 => user_base(present_user(dice, tables)) + dice.below(USER_WORDS as u32) as usize,
            _ => entity_base(present_entity(dice, tables)) + dice.below(ENTITY_WORDS as u32) as usize,
        };
        tables[index] = changed(dice, tables, index);
    }
}

/// What a word becomes: near what it was, in range for something else, or anything.
fn changed(dice: &mut Dice, tables: &[u32], index: usize) -> u32 {
    let word = tables[index];
    match dice.below(9) {
        0 => word.wrapping_add(1),
        1 => word.wrapping_sub(1),
        2 => 0,
        3 => dice.below(10),
        4 => dice.between(0, ENTITIES + 1),
        5 => dice.between(0, LEVEL_MOST + 1),
        6 => word ^ 1 << dice.below(32),
        7 => elsewhere(dice, tables, index),
        _ => dice.word(),
    }
}

/// The word of the same meaning in another record.
fn elsewhere(dice: &mut Dice, tables: &[u32], index: usize) -> u32 {
    if index < FIRST_ENTITY_WORD {
        return tables[user_base(dice.between(1, USERS)) + index % USER_WORDS];
    }
    tables[entity_base(dice.between(1, ENTITIES)) + (index - FIRST_ENTITY_WORD) % ENTITY_WORDS]
}

/// Words chosen without looking at anything: small ones, large ones, or both.
pub fn random_words(dice: &mut Dice, words: &mut [u32]) {
    let small = 50 * dice.below(3);
    for word in words {
        *word = if dice.chance(small) { dice.below(21) } else { dice.word() };
    }
}
