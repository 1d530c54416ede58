//! A long walk of random requests, in which the desk is held against what its short ways stand for.

mod common;

use common::random::{first_tables, follow, operand, permit, random_request, BEYOND};
use common::*;
use generate::layout::{
    at_most, entity, entity_base, kind, op, refusal, request, role, triple, user, user_base, ENTITIES, NAMES,
    NOTICE_WORDS, OPERATION_MOST, PLACES, STEP_MOST, USERS,
};
use generate::view::{is_on, user_record, users_where};
use generate::Dice;
use ordinary::{advance, check, list, step, Right, ENTRY_WORDS};

const STEPS: usize = 120_000;
/// After so many steps the list is compared with all references.
const STEPS_PER_LIST: usize = 3_000;
/// Requests start anew from the first tables after so many.
const STEPS_PER_WALK: usize = 3_000;

/// What operations 6, 15 and 18 may set is what the whole check says of the tables with that word set.
fn compare_with_whole_check(before: &Tables, request: &[u32], given: u32) {
    let mut changed = before.clone();
    let [a, b] = [request[request::A], request[request::B]];
    match (request[request::OPERATION], operand(before, request)) {
        (op::SET_LEVEL, Some(entity)) | (op::DEVICE_LEVEL, Some(entity)) => {
            changed[entity_base(entity) + entity::LEVEL] = a;
        }
        (op::CLEARANCE, _) if (1..=USERS).contains(&a) => changed[user_base(a) + user::CLEARANCE] = b,
        _ => return,
    }
    match given {
        refusal::ACCEPTED => assert_eq!(check::<Right>(&changed).answer, refusal::ACCEPTED),
        refusal::LEVEL_OR_ROLES => assert_eq!(check::<Right>(&changed).answer, refusal::NOT_SECURE),
        _ => (),
    }
}

/// A level that drops takes a downgrader, but for the own device: 12 says that and nothing else, and is said first.
fn compare_drop(before: &Tables, request: &[u32], given: u32) {
    let is_judged = [refusal::ACCEPTED, refusal::ROLE_MISSING, refusal::LEVEL_OR_ROLES].contains(&given);
    match (request[request::OPERATION], operand(before, request)) {
        (op::SET_LEVEL, Some(entity)) | (op::DEVICE_LEVEL, Some(entity)) if is_judged => {
            let requester = user_record(before, request[request::USER]);
            let drops = !at_most(entity_word(before, entity, entity::LEVEL), request[request::A]);
            let free = requester[user::CURRENT] & role::DOWNGRADER != 0 || requester[user::DEVICE] == entity;
            assert_eq!(given == refusal::ROLE_MISSING, drops && !free, "{:?} with {}", request, given);
        }
        _ => (),
    }
}

/// A refusal leaves all but the requester's notice, which holds the first refusal and how many were missed.
fn compare_notice(before: &Tables, after: &Tables, request: &[u32], given: u32) {
    let mut expected = before.clone();
    if given > refusal::UNKNOWN_REQUESTER {
        let operation = request[request::OPERATION];
        let notice = &mut expected[user_base(request[request::USER]) + user::HELD..][..NOTICE_WORDS];
        if notice[0] == 0 {
            notice[0] = given;
            notice[1] = if (1..=OPERATION_MOST).contains(&operation) { operation } else { 0 };
        }
        notice[2] += 1;
    }
    assert_eq!(&expected, after);
}

/// All references of at most that many names that start with those, each followed by its extensions.
fn references(tables: &Tables, names: &[u32], longest: usize) -> Vec<Vec<u32>> {
    if follow(tables, names).is_none() {
        return Vec::new();
    }
    let most = if names.len() < longest { PLACES } else { 0 };
    let below = (1..=most).flat_map(|place| references(tables, &[names, &[place]].concat(), longest));
    std::iter::once(names.to_vec()).chain(below).collect()
}

/// The tables with most entities permitted to be shown by the user.
fn permitted(tables: &Tables, user: u32, dice: &mut Dice) -> Tables {
    let mut tables = tables.clone();
    for number in 1..=ENTITIES {
        let is_present = entity_word(&tables, number, entity::KIND) != kind::ABSENT;
        permit(&mut tables, Some(number).filter(|_| is_present && dice.chance(70)), triple(user, op::SHOW, 1));
    }
    tables
}

/// The list is the references that show answers with 0 or 14; gives how many they are.
fn compare_list(tables: &Tables, user: u32) -> usize {
    let all = (1..=ENTITIES).flat_map(|number| references(tables, &[number], NAMES as usize));
    let listed = all.map(|names| show(user, &names, VALUE_AND_LABEL)).filter(|request| {
        let given = advance::<Right>(&mut tables.clone(), request);
        given == refusal::ACCEPTED || given == refusal::NO_ROOM
    });
    // An entry has the same words as the reference of a request.
    let expected: Vec<u32> = listed.flat_map(|request| request[request::FIRST..][..ENTRY_WORDS].to_vec()).collect();
    let mut room = vec![u32::MAX; expected.len()];
    let count = expected.len() / ENTRY_WORDS;
    assert_eq!(list::<Right>(tables, user, &mut room), accepted(count as u32));
    assert_eq!(room, expected);
    count
}

/// Answers to whatever is asked for as an operation, from 0 on, by how often they are given.
type Answers = [[u32; STEP_MOST as usize + 1]; (OPERATION_MOST + BEYOND) as usize + 1];

/// Where a walk has come to, and what was seen on it.
struct Walk {
    dice: Dice,
    tables: Tables,
    answers: Answers,
    entries: usize,
}

impl Walk {
    /// Takes one step, which is compared with what it stands for.
    fn step(&mut self) {
        let request = random_request(&mut self.tables, &mut self.dice);
        let before = self.tables.clone();
        let given = step::<Right>(&mut self.tables, &request).answer;
        assert_eq!(check::<Right>(&self.tables), accepted(0), "after {:?} with {}", request, given);
        compare_with_whole_check(&before, &request, given);
        compare_drop(&before, &request, given);
        if given != refusal::ACCEPTED {
            compare_notice(&before, &self.tables, &request, given);
        }
        self.answers[request[request::OPERATION] as usize][given as usize] += 1;
    }

    /// Compares the lists of everybody who is on.
    fn compare_lists(&mut self) {
        for user in users_where(&self.tables, is_on) {
            self.entries += compare_list(&permitted(&self.tables, user, &mut self.dice), user);
        }
    }

    /// Every operation was accepted at least once, and some list was not empty.
    fn assert_went_far(&self) {
        for (operation, given) in (1..=OPERATION_MOST).zip(&self.answers[1..]) {
            println!("{:2} {:?}", operation, given);
            assert!(given[refusal::ACCEPTED as usize] > 0, "operation {} is never accepted", operation);
        }
        println!("{} entries", self.entries);
        assert!(self.entries > 0, "every list was empty");
    }
}

#[test]
fn a_long_walk() {
    let mut walk = Walk { dice: Dice::new(1), tables: Tables::new(), answers: Default::default(), entries: 0 };
    for turn in 0..STEPS {
        if turn % STEPS_PER_WALK == 0 {
            walk.tables = first_tables(&mut walk.dice);
        }
        walk.step();
        if turn % STEPS_PER_LIST == STEPS_PER_WALK / 2 {
            walk.compare_lists();
        }
    }
    walk.assert_went_far();
}
