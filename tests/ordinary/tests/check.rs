//! Each rule of well-formed and of secure tables, broken by itself.

mod common;

use common::*;
use generate::layout::refusal::{BAD_LENGTH, NOT_SECURE, NOT_WELL_FORMED};
use generate::layout::{entity_base, user_base};
use generate::s1;
use ordinary::{check, list, step, Reply, Right, REQUEST_WORDS, TABLE_WORDS};

/// Case state S1 with entity 5 shown on device 2 and a refusal held by user 1.
fn base() -> Tables {
    let mut tables = s1();
    set_user(&mut tables, 1, &[1, 1023, 7, 1, 1, 9, 10, 2]);
    set_entity(&mut tables, 2, &[3, 0, 512, 0, 0, 0, 512], &[5], &[]);
    tables[e(2, 16)] = 3;
    tables
}

/// Where a word of a user stands.
const fn u(number: u32, word: usize) -> usize {
    user_base(number) + word
}

/// Where a word of an entity stands.
const fn e(number: u32, word: usize) -> usize {
    entity_base(number) + word
}

/// A rule, the words that are set, and what the check then answers.
type Case = (&'static str, &'static [(usize, u32)], u32);

const USERS: &[Case] = &[
    ("3.1", &[(u(9, 1), 1)], NOT_WELL_FORMED),
    ("3.1", &[(u(16, 15), 1)], NOT_WELL_FORMED),
    ("3.2 present", &[(u(1, 0), 2)], NOT_WELL_FORMED),
    ("3.2 clearance", &[(u(1, 1), 1024)], NOT_WELL_FORMED),
    ("3.2 authorised", &[(u(1, 2), 256 + 7)], NOT_WELL_FORMED),
    ("3.2 current", &[(u(1, 3), 256)], NOT_WELL_FORMED),
    ("3.2 device", &[(u(1, 4), 65)], NOT_WELL_FORMED),
    ("3.2 device", &[(u(1, 4), u32::MAX)], NOT_WELL_FORMED),
    ("3.2 operation", &[(u(1, 6), 21)], NOT_WELL_FORMED),
    ("3.2 spare", &[(u(1, 8), 1)], NOT_WELL_FORMED),
    ("3.15 absent", &[(u(1, 4), 60)], NOT_WELL_FORMED),
    ("3.15 container", &[(u(1, 4), 7)], NOT_WELL_FORMED),
    ("3.16", &[(u(1, 4), 2)], NOT_WELL_FORMED),
    ("3.17", &[(u(3, 3), 2)], NOT_WELL_FORMED),
    ("3.19", &[(u(1, 5), 4)], NOT_WELL_FORMED),
    ("3.19", &[(u(1, 5), 17)], NOT_WELL_FORMED),
    ("3.19 least and most", &[(u(1, 5), 5)], 0),
    ("3.19 least and most", &[(u(1, 5), 16)], 0),
    ("3.20 held without missed", &[(u(1, 7), 0)], NOT_WELL_FORMED),
    ("3.20 missed without held", &[(u(1, 5), 0), (u(1, 6), 0)], NOT_WELL_FORMED),
    ("3.20 operation without held", &[(u(1, 5), 0), (u(1, 7), 0)], NOT_WELL_FORMED),
    ("3.20 held without operation", &[(u(1, 6), 0)], 0),
    ("3.21", &[(u(1, 7), 65_535)], 0),
    ("3.21", &[(u(1, 7), 65_536)], NOT_WELL_FORMED),
    ("4.2", &[(u(2, 1), 255)], NOT_SECURE),
    ("4.4", &[(u(1, 2), 6)], NOT_SECURE),
];

const ENTITIES: &[Case] = &[
    ("3.1", &[(e(8, 4), 1)], NOT_WELL_FORMED),
    ("3.1", &[(e(64, 31), 1)], NOT_WELL_FORMED),
    ("3.3 kind", &[(e(5, 0), 4)], NOT_WELL_FORMED),
    ("3.3 type", &[(e(7, 1), 3)], NOT_WELL_FORMED),
    ("3.3 level", &[(e(3, 2), 1024)], NOT_WELL_FORMED),
    ("3.3 mark", &[(e(7, 3), 2)], NOT_WELL_FORMED),
    ("3.3 value", &[(e(5, 4), u32::MAX)], 0),
    ("3.3 maximum", &[(e(3, 6), 1024)], NOT_WELL_FORMED),
    ("3.3 used", &[(e(4, 7), 9)], NOT_WELL_FORMED),
    ("3.3 used", &[(e(4, 7), u32::MAX)], NOT_WELL_FORMED),
    ("3.4 twice on a device", &[(e(2, 7), 2), (e(2, 9), 5), (e(2, 17), 3)], NOT_WELL_FORMED),
    ("3.4 behind", &[(e(4, 7), 1)], NOT_WELL_FORMED),
    ("3.4 a used place is 0", &[(e(4, 7), 3)], NOT_WELL_FORMED),
    ("3.5 gap", &[(e(7, 24), 0)], NOT_WELL_FORMED),
    ("3.5 twice", &[(e(7, 26), 2 << 16 | 5 << 8 | 2)], NOT_WELL_FORMED),
    ("3.6 absent", &[(e(4, 8), 60)], NOT_WELL_FORMED),
    ("3.6 device", &[(e(4, 8), 3)], NOT_WELL_FORMED),
    ("3.6 device on a device", &[(e(2, 8), 3)], NOT_WELL_FORMED),
    ("3.6 no number", &[(e(4, 8), 65)], NOT_WELL_FORMED),
    ("3.6 no number", &[(e(4, 8), u32::MAX)], NOT_WELL_FORMED),
    ("3.7", &[(e(5, 7), 1), (e(5, 8), 7)], NOT_WELL_FORMED),
    ("3.8 type of an object", &[(e(5, 1), 1)], NOT_WELL_FORMED),
    ("3.8 mark of a device", &[(e(3, 3), 1)], NOT_WELL_FORMED),
    ("3.9", &[(e(6, 5), 1)], NOT_WELL_FORMED),
    ("3.9", &[(e(6, 1), 2)], NOT_WELL_FORMED),
    ("3.9", &[(e(6, 1), 2), (e(6, 5), 17)], NOT_WELL_FORMED),
    ("3.9 an absent releaser", &[(e(6, 1), 2), (e(6, 5), 16)], 0),
    ("3.10", &[(e(7, 6), 1)], NOT_WELL_FORMED),
    ("3.11", &[(e(3, 4), 1)], NOT_WELL_FORMED),
    ("3.12 none", &[(e(2, 16), 0)], NOT_WELL_FORMED),
    ("3.12 more than all", &[(e(2, 16), 8)], NOT_WELL_FORMED),
    ("3.12 behind", &[(e(2, 17), 1)], NOT_WELL_FORMED),
    ("3.12 of a container", &[(e(4, 16), 3)], NOT_WELL_FORMED),
    ("3.13 in one twice", &[(e(4, 9), 5)], NOT_WELL_FORMED),
    ("3.13 in two", &[(e(7, 7), 1), (e(7, 8), 5)], NOT_WELL_FORMED),
    ("3.14 in itself", &[(e(7, 7), 1), (e(7, 8), 7)], NOT_WELL_FORMED),
    ("3.14 two round", &[(e(6, 7), 1), (e(6, 8), 4)], NOT_WELL_FORMED),
    ("3.14 three round", &[(e(6, 7), 1), (e(6, 8), 7), (e(7, 7), 1), (e(7, 8), 4)], NOT_WELL_FORMED),
    ("3.14 a chain", &[(e(6, 7), 1), (e(6, 8), 7)], 0),
    ("3.18", &[(e(3, 7), 1), (e(3, 8), 7), (e(3, 16), 3), (e(3, 2), 1023)], NOT_WELL_FORMED),
    ("3.22 who", &[(e(7, 27), 12 << 8 | 1)], NOT_WELL_FORMED),
    ("3.22 who", &[(e(7, 27), 25 << 16 | 12 << 8 | 1)], NOT_WELL_FORMED),
    ("3.22 operation", &[(e(7, 27), 24 << 16 | 1)], NOT_WELL_FORMED),
    ("3.22 operation", &[(e(7, 27), 24 << 16 | 21 << 8 | 1)], NOT_WELL_FORMED),
    ("3.22 position", &[(e(7, 27), 24 << 16 | 20 << 8)], NOT_WELL_FORMED),
    ("3.22 position", &[(e(7, 27), 24 << 16 | 20 << 8 | 3)], NOT_WELL_FORMED),
    ("3.22 the most of each", &[(e(7, 27), 24 << 16 | 20 << 8 | 2)], 0),
    ("4.1 container", &[(e(5, 2), 514), (e(2, 7), 0), (e(2, 8), 0), (e(2, 16), 0)], NOT_SECURE),
    ("4.1 device", &[(e(2, 2), 255)], NOT_SECURE),
    ("4.3 value alone", &[(e(2, 16), 1)], NOT_SECURE),
    ("4.3 value and ID", &[(e(2, 16), 5)], NOT_SECURE),
    ("4.3 ID alone", &[(e(2, 16), 4)], 0),
    ("4.5", &[(e(3, 6), 0), (e(3, 2), 1)], NOT_SECURE),
    ("3 comes before 4", &[(e(2, 16), 1), (e(64, 31), 1)], NOT_WELL_FORMED),
];

/// Check, step and list all answer so for the damaged tables, and leave them as they are.
fn assert_answers(case: &Case) {
    let (rule, damage, expected) = *case;
    let mut tables = base();
    damage.iter().for_each(|(word, value)| tables[*word] = *value);
    assert_eq!(check::<Right>(&tables), Reply { answer: expected, number: 0 }, "rule {}", rule);
    if expected != 0 {
        let damaged = tables.clone();
        let refused = Reply { answer: expected, number: 0 };
        assert_eq!(step::<Right>(&mut tables, &request(2, 11, &[], &[], [0; 3])), refused, "rule {}", rule);
        assert_eq!(list::<Right>(&tables, 2, &mut []), refused, "rule {}", rule);
        assert_eq!(tables, damaged, "rule {}", rule);
    }
}

#[test]
fn users_are_looked_at() {
    assert_eq!(check::<Right>(&base()), accepted(0));
    USERS.iter().for_each(assert_answers);
}

#[test]
fn entities_are_looked_at() {
    ENTITIES.iter().for_each(assert_answers);
}

const OTHER_LENGTH: Reply = Reply { answer: BAD_LENGTH, number: 0 };

#[test]
fn lengths_of_tables_are_looked_at_first() {
    let request = request(2, 11, &[], &[], [0; 3]);
    for length in [0, 1, TABLE_WORDS - 1, TABLE_WORDS + 1] {
        let mut tables = vec![u32::MAX; length];
        assert_eq!(check::<Right>(&tables), OTHER_LENGTH);
        assert_eq!(step::<Right>(&mut tables, &request), OTHER_LENGTH);
        assert_eq!(list::<Right>(&tables, 2, &mut []), OTHER_LENGTH);
    }
}

#[test]
fn lengths_of_requests_are_looked_at_first() {
    for length in [0, 1, REQUEST_WORDS - 1, REQUEST_WORDS + 1] {
        assert_eq!(step::<Right>(&mut vec![u32::MAX; TABLE_WORDS], &vec![0; length]), OTHER_LENGTH);
    }
}

#[test]
fn the_list_refuses_nobody_and_who_is_off() {
    for (user, answer) in [(0, 4), (9, 4), (17, 4), (u32::MAX, 4), (3, 6)] {
        assert_eq!(list::<Right>(&base(), user, &mut []), Reply { answer, number: 0 });
    }
}
