//! First tables for a walk, and random requests to them.

use super::{accepted, entity_word, notice, request, set_entity, set_user, Tables};
use generate::layout::{
    entity, entity_base, kind, op, sort, triple, ENTITIES, ENTITY_WORDS, LEVEL_MOST, NAMES, OPERATION_MOST, PLACES,
    ROLES_MOST, SUM_MOST, USERS, WHO_MOST,
};
use generate::{s1, Dice};
use ordinary::{check, Right, REQUEST_WORDS};
use std::ops::RangeInclusive;

/// Levels that often meet each other.
const LEVELS: [u32; 8] = [0, 1, 256, 257, 512, 513, 768, LEVEL_MOST];

/// The users whom the first tables have besides those of S1, each on the device of a number that is so much larger.
const NEW_USERS: RangeInclusive<u32> = 4..=8;
const TO_DEVICE: u32 = 6;
/// The containers that the first tables have besides those of S1. Each holds the entities of the number that is one row on, and of the one
/// that is two rows on.
const OUTER: RangeInclusive<u32> = 16..=23;
const ROW: u32 = 8;
/// Most requests name an entity up to this one first.
const NAMED_MOST: u32 = 40;
/// Beyond the numbers that somebody or something can have, so many more are tried.
pub const BEYOND: u32 = 2;

/// 1 to the usual most, or now and then to a little beyond what there can be.
fn number(dice: &mut Dice, usual: u32, possible: u32) -> u32 {
    let most = if dice.chance(97) { usual } else { possible + BEYOND };
    dice.between(1, most)
}

/// Case state S1 with more users, who have many roles, and with more entities, some in each other.
pub fn first_tables(dice: &mut Dice) -> Tables {
    let mut tables = s1();
    NEW_USERS.for_each(|number| add_user(&mut tables, dice, number));
    OUTER.for_each(|number| add_container(&mut tables, dice, number));
    assert_eq!(check::<Right>(&tables), accepted(0));
    tables
}

/// Adds a user who may have every role, and a device that the user is on.
fn add_user(tables: &mut Tables, dice: &mut Dice, number: u32) {
    let device = number + TO_DEVICE;
    let roles = dice.between(0, ROLES_MOST);
    set_user(tables, number, &[1, dice.one_of(&LEVELS), ROLES_MOST, roles, device]);
    set_entity(tables, device, &[kind::DEVICE, 0, dice.one_of(&LEVELS), 0, 0, 0, LEVEL_MOST], &[], &[]);
}

/// Adds a container with an object or a container in it, and a container that may be a draft.
fn add_container(tables: &mut Tables, dice: &mut Dice, number: u32) {
    let (inner, draft) = (number + ROW, number + 2 * ROW);
    set_entity(tables, number, &[kind::CONTAINER, 0, LEVEL_MOST, dice.below(2)], &[inner, draft], &[]);
    let kind_of_inner = dice.one_of(&[kind::OBJECT, kind::CONTAINER]);
    set_entity(tables, inner, &[kind_of_inner, 0, dice.one_of(&LEVELS)], &[], &[]);
    set_entity(tables, draft, &[kind::CONTAINER, dice.below(2), dice.one_of(&LEVELS)], &[], &[]);
}

/// A reference of one to four names that mostly leads somewhere, and the entity it leads to.
fn reference(tables: &Tables, dice: &mut Dice) -> (Vec<u32>, Option<u32>) {
    let mut names = vec![number(dice, NAMED_MOST, ENTITIES)];
    while names.len() < NAMES as usize && dice.chance(40) {
        let most = match follow(tables, &names) {
            Some(entity) => entity_word(tables, entity, entity::USED) + u32::from(dice.chance(3)),
            None => dice.below(PLACES + BEYOND),
        };
        if most == 0 {
            break;
        }
        names.push(dice.between(1, most));
    }
    let entity = follow(tables, &names);
    (names, entity)
}

/// Where a reference leads.
pub fn follow(tables: &Tables, names: &[u32]) -> Option<u32> {
    let first = Some(names[0]).filter(|number| (1..=ENTITIES).contains(number));
    let present = first.filter(|entity| entity_word(tables, *entity, entity::KIND) != kind::ABSENT);
    names[1..].iter().fold(present, |entity, place| {
        let entity = entity?;
        let used = (1..=entity_word(tables, entity, entity::USED)).contains(place);
        used.then(|| entity_word(tables, entity, entity::CONTENTS + *place as usize - 1))
    })
}

/// Puts a triple into an entity, in place of another if there is no room.
pub fn permit(tables: &mut Tables, entity: Option<u32>, triple: u32) {
    if let Some(entity) = entity {
        let triples = &mut tables[entity_base(entity)..][entity::TRIPLES..ENTITY_WORDS];
        if !triples.contains(&triple) {
            let free = triples.iter().position(|word| *word == 0).unwrap_or(0);
            triples[free] = triple;
        }
    }
}

/// Any operation, and now and then something that is none.
fn random_operation(dice: &mut Dice) -> u32 {
    match number(dice, OPERATION_MOST, OPERATION_MOST) {
        // Seldom clears a screen or logs off, so that screens fill.
        op::CLEAR | op::LOGOUT if dice.chance(95) => op::SHOW,
        operation => operation,
    }
}

/// How many references an operation takes; what is none is given one.
fn operands(operation: u32) -> usize {
    use op::*;
    match operation {
        MOVE | COPY => 2,
        CLEAR | LOGOUT | CURRENT_ROLES | CLEARANCE | AUTHORISED_ROLES | ACKNOWLEDGE => 0,
        _ => 1,
    }
}

/// A request that mostly has the right form, and is mostly permitted by a triple.
pub fn random_request(tables: &mut Tables, dice: &mut Dice) -> Vec<u32> {
    let user = number(dice, *NEW_USERS.end(), USERS);
    let operation = random_operation(dice);
    let operands = operands(operation);
    let (first, entity) = reference(tables, dice);
    let (second, other) = reference(tables, dice);
    if user <= USERS && dice.chance(90) {
        let permitted = operation.min(OPERATION_MOST);
        permit(tables, entity.filter(|_| operands > 0), triple(user, permitted, 1));
        permit(tables, other.filter(|_| operands > 1), triple(user, permitted, 2));
    }
    let first: &[u32] = if operands > 0 { &first } else { &[] };
    let second: &[u32] = if operands > 1 { &second } else { &[] };
    let arguments = arguments(tables, user, operation, dice);
    let mut words = request(user, operation, first, second, arguments);
    if dice.chance(1) {
        words[dice.below(REQUEST_WORDS as u32) as usize] = dice.below(NAMES + BEYOND);
    }
    words
}

/// The entity that a request names first.
pub fn operand(tables: &Tables, request: &[u32]) -> Option<u32> {
    let names = request[request::FIRST + 1..].get(..request[request::FIRST] as usize)?;
    Some(names).filter(|names| !names.is_empty()).and_then(|names| follow(tables, names))
}

/// Arguments for the operation, mostly within their spans.
fn arguments(tables: &Tables, user: u32, operation: u32, dice: &mut Dice) -> [u32; 3] {
    use op::*;
    let someone = if dice.chance(40) { user } else { dice.between(1, NEW_USERS.end() + 1) };
    let level = dice.one_of(&LEVELS);
    match operation {
        CREATE => [dice.between(sort::OBJECT, sort::DRAFT), level, 0],
        EDIT => [dice.word(), 0, 0],
        SET_LEVEL | MAXIMUM | DEVICE_LEVEL => [level, 0, 0],
        SET_MARK => [dice.below(2), 0, 0],
        GRANT | REVOKE => [dice.between(1, WHO_MOST), dice.between(1, OPERATION_MOST), dice.between(1, 2)],
        SHOW => [dice.between(1, SUM_MOST), 0, 0],
        CURRENT_ROLES | AUTHORISED_ROLES => [someone, dice.word() & dice.word() & ROLES_MOST, 0],
        CLEARANCE => [someone, level, 0],
        ACKNOWLEDGE if user <= USERS => {
            let [held, _, missed] = notice(tables, user);
            [held, missed + u32::from(dice.chance(20)), 0]
        }
        _ => [0; 3],
    }
}
