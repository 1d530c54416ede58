//! Who may change a level, and to which: an entity's [rule 6.6] and a device's [rule 6.18].

mod common;

use common::*;
use generate::layout::op::{DEVICE_LEVEL, SET_LEVEL};
use generate::layout::{
    entity, entity_base, kind, refusal, request, role, triple, user, user_base, COMPARTMENT_BITS, LEVEL_MOST,
};
use generate::s1;
use ordinary::{advance, step, Right};

/// Changes of a level that drop nothing: the old one is at most the new one.
const KEPT: [(&str, u32, u32); 6] = [
    ("equal", 259, 259),
    ("equal and lowest", 0, 0),
    ("equal and highest", LEVEL_MOST, LEVEL_MOST),
    ("up in rank", 259, 515),
    ("up in compartments", 259, 267),
    ("up in both", 1, 259),
];

/// Drops: to a strictly lower level, and sideways.
const DROPPED: [(&str, u32, u32); 12] = [
    ("down in rank", 259, 3),
    ("down in compartments", 259, 257),
    ("down in both", 259, 1),
    ("to the lowest", LEVEL_MOST, 0),
    ("sideways, of rank 1 and of one compartment", 256, 1),
    ("sideways, rank down and a compartment gained", 513, 259),
    ("sideways, rank down and other compartments", 515, 268),
    ("sideways, rank kept and no compartment in common", 257, 258),
    ("sideways, rank kept and a compartment in common", 259, 262),
    ("sideways, rank up and a compartment lost", 259, 513),
    ("sideways, rank up and other compartments", 259, 780),
    ("sideways, rank up and no compartment left", 1, 256),
];

/// Roles with which a drop is refused: neither an officer nor a releaser is a downgrader.
const NO_DOWNGRADER: [u32; 3] = [0, role::OFFICER, role::OFFICER | role::RELEASER];
/// Roles with which it is accepted.
const DOWNGRADER: [u32; 2] = [role::DOWNGRADER, role::DOWNGRADER | role::RELEASER];

/// The officer's device in S1, that of user 2, and one that nobody is on.
const OWN: u32 = 1;
const OF_ANOTHER: u32 = 2;
const OF_NOBODY: u32 = 3;
/// A container of S1 that is empty, in no other one and on no screen, so that it is secure at every level.
const FREE: u32 = 7;

/// S1 with this level and these current roles of user 1, who may set the level of all devices too; every device may have every level.
fn tables_with(entity: u32, level: u32, roles: u32) -> Tables {
    let mut tables = s1();
    for device in [OWN, OF_ANOTHER, OF_NOBODY] {
        tables[entity_base(device) + entity::MAXIMUM] = LEVEL_MOST;
        tables[entity_base(device) + entity::TRIPLES] = triple(1, DEVICE_LEVEL, 1);
    }
    tables[entity_base(entity) + entity::LEVEL] = level;
    tables[user_base(1) + user::CURRENT] = roles;
    tables
}

/// User 1 sets a level, which was another one. It is accepted and set, or refused with this and kept, with a notice.
fn expect(what: &str, operation: u32, entity: u32, [old, new]: [u32; 2], roles: u32, wanted: u32) {
    let mut tables = tables_with(entity, old, roles);
    let given = step::<Right>(&mut tables, &request(1, operation, &[entity], &[], [new, 0, 0])).answer;
    assert_eq!(given, wanted, "{} of {}, from {} to {} with roles {}", what, entity, old, new, roles);
    let is_accepted = given == refusal::ACCEPTED;
    assert_eq!(entity_word(&tables, entity, entity::LEVEL), if is_accepted { new } else { old });
    assert_eq!(notice(&tables, 1), if is_accepted { [0; 3] } else { [given, operation, 1] });
}

/// Expects that drops of this entity are refused with 12 without a downgrader, and nothing else is.
fn expect_drops_refused(operation: u32, entity: u32) {
    for (what, old, new) in KEPT {
        for roles in NO_DOWNGRADER.into_iter().chain(DOWNGRADER) {
            expect(what, operation, entity, [old, new], roles, refusal::ACCEPTED);
        }
    }
    for (what, old, new) in DROPPED {
        for roles in NO_DOWNGRADER {
            expect(what, operation, entity, [old, new], roles, refusal::ROLE_MISSING);
        }
        for roles in DOWNGRADER {
            expect(what, operation, entity, [old, new], roles, refusal::ACCEPTED);
        }
    }
}

#[test]
fn a_drop_of_an_entity_takes_a_downgrader() {
    expect_drops_refused(SET_LEVEL, FREE);
}

#[test]
fn a_drop_of_another_device_takes_a_downgrader() {
    expect_drops_refused(DEVICE_LEVEL, OF_ANOTHER);
    expect_drops_refused(DEVICE_LEVEL, OF_NOBODY);
}

#[test]
fn a_drop_of_the_own_device_takes_no_role() {
    for (what, old, new) in KEPT.into_iter().chain(DROPPED) {
        for roles in NO_DOWNGRADER.into_iter().chain(DOWNGRADER) {
            expect(what, DEVICE_LEVEL, OWN, [old, new], roles, refusal::ACCEPTED);
        }
    }
}

#[test]
fn a_missing_role_is_said_before_a_level_that_does_not_fit() {
    for (roles, wanted) in [(role::OFFICER, refusal::ROLE_MISSING), (role::DOWNGRADER, refusal::LEVEL_OR_ROLES)] {
        // What it holds does not go sideways with it.
        let mut tables = tables_with(FREE, 257, roles);
        set_entity(&mut tables, 8, &[kind::OBJECT, 0, 256], &[], &[]);
        set_entity(&mut tables, FREE, &[], &[8], &[]);
        let set_level = request(1, SET_LEVEL, &[FREE], &[], [2, 0, 0]);
        assert_eq!(step::<Right>(&mut tables, &set_level).answer, wanted, "roles {}", roles);
        // The maximum has no compartment 2.
        let mut tables = tables_with(OF_NOBODY, 257, roles);
        tables[entity_base(OF_NOBODY) + entity::MAXIMUM] = 257;
        let set_level = request(1, DEVICE_LEVEL, &[OF_NOBODY], &[], [258, 0, 0]);
        assert_eq!(step::<Right>(&mut tables, &set_level).answer, wanted, "roles {}", roles);
    }
}

#[test]
fn of_all_pairs_of_levels_those_are_refused_that_lose_a_rank_or_a_compartment() {
    let rank = |level: u32| level >> COMPARTMENT_BITS;
    let has = |level: u32, compartment: u32| level >> compartment & 1 != 0;
    let mut tables = tables_with(FREE, 0, role::OFFICER);
    let unheld = tables[user_base(1)..user_base(2)].to_vec();
    let mut words = request(1, SET_LEVEL, &[FREE], &[], [0; 3]);
    for old in 0..=LEVEL_MOST {
        for new in 0..=LEVEL_MOST {
            tables[entity_base(FREE) + entity::LEVEL] = old;
            words[request::A] = new;
            let given = advance::<Right>(&mut tables, &words);
            let loses = rank(new) < rank(old) || (0..COMPARTMENT_BITS).any(|one| has(old, one) && !has(new, one));
            let wanted = if loses { refusal::ROLE_MISSING } else { refusal::ACCEPTED };
            assert_eq!(given, wanted, "from {} to {}", old, new);
            tables[user_base(1)..user_base(2)].copy_from_slice(&unheld);
        }
    }
}
