//! The readers of the tables: any words can be looked at, and what is absent or out of its range is not told of.
mod case;

use case::{entity, level, s1, user};
use mms::{Entity, Level, Notice, Operation, Position, Refusal, Roles, Shown, Tables, Triple, User, TABLE_WORDS};

/// Where the records of user 1 and entity 1 begin, and the words of theirs that are set here [rules 2.2, 2.3].
const USER: usize = 0;
const HELD: usize = USER + 5;
const HELD_OPERATION: usize = USER + 6;
const MISSED: usize = USER + 7;
const ENTITY: usize = 256;
const USED: usize = ENTITY + 7;
const CONTENTS: usize = ENTITY + 8;
const SHOWN: usize = ENTITY + 16;
const TRIPLES: usize = ENTITY + 24;
/// The kinds.
const OBJECT: u32 = 1;
const CONTAINER: u32 = 2;
const DEVICE: u32 = 3;

/// The readers must have an answer to any words.
fn look_at_all(tables: &Tables) -> usize {
    let users = User::all().map(|user| {
        let read = (tables.notice(user), tables.clearance_of(user), tables.authorised_roles_of(user));
        format!("{:?} {:?} {:?}", read, tables.current_roles_of(user), tables.device_of(user)).len()
    });
    let entities = Entity::all().map(|entity| {
        let words = (tables.kind_of(entity), tables.type_of(entity), tables.level_of(entity), tables.is_marked(entity));
        let others = (tables.value_of(entity), tables.releaser_of(entity), tables.maximum_of(entity));
        let rows = (tables.contents_of(entity), tables.shown_on(entity), tables.triples_of(entity));
        format!("{:?} {:?} {:?}", words, others, rows).len()
    });
    users.sum::<usize>() + entities.sum::<usize>() + format!("{:?}", tables).len()
}

#[test]
fn any_words_can_be_looked_at() {
    for word in [0, 1, 2, 3, 7, 8, 9, 18, 255, 65_793, u32::MAX] {
        let mut tables = Tables::from_words(&[word; TABLE_WORDS]).expect("2,304 words");
        assert!(look_at_all(&tables) > 0);
        assert_eq!(tables.check().is_ok(), word == 0);
        assert!(tables.list(user(1)).is_err());
        let full = word >= 8;
        assert_eq!(tables.put_inside(entity(1), entity(2)).is_err(), full);
        assert_eq!(
            tables.put_triple(entity(1), Triple::new(user(1), Operation::Show, Position::First)).is_ok(),
            word == 0
        );
    }
}

#[test]
fn absent_records_have_no_words() {
    let tables = s1();
    assert!(!tables.has_user(user(4)) && tables.has_user(user(3)));
    assert_eq!((tables.clearance_of(user(4)), tables.device_of(user(3))), (None, None));
    assert_eq!((tables.kind_of(entity(8)), tables.level_of(entity(8)), tables.value_of(entity(8))), (None, None, None));
    assert_eq!((tables.maximum_of(entity(2)), tables.maximum_of(entity(4))), (Some(level(512)), None));
    assert!(tables.is_marked(entity(4)) && !tables.is_marked(entity(7)));
    assert_eq!(tables.contents_of(entity(4)), [entity(5), entity(6)]);
    assert_eq!(tables.shown_on(entity(4)), []);
}

/// Tables in which user 1, present or not, has these three words of a notice.
fn noticed(present: u32, held: u32, operation: u32, missed: u32) -> Option<Notice> {
    let mut tables = Tables::empty();
    let words = tables.as_words_mut();
    words[USER] = present;
    words[HELD] = held;
    words[HELD_OPERATION] = operation;
    words[MISSED] = missed;
    tables.notice(user(1))
}

#[test]
fn a_notice_is_that_of_a_present_user() {
    let notice = Notice { held: Refusal::Marked, operation: Some(Operation::Show), missed: 2 };
    assert_eq!(noticed(1, 9, 10, 2), Some(notice));
    assert_eq!(noticed(1, 5, 0, 2), Some(Notice { held: Refusal::BadRequest, operation: None, missed: 2 }));
    for present in [0, 2, u32::MAX] {
        assert_eq!(noticed(present, 9, 10, 2), None);
    }
}

#[test]
fn a_notice_has_words_in_their_range() {
    for number in (0..=30).chain([65_535, 65_536, u32::MAX]) {
        assert_eq!(noticed(1, number, 10, 2).is_some(), (5..=16).contains(&number), "held {}", number);
        assert_eq!(noticed(1, 9, number, 2).is_some(), (0..=20).contains(&number), "operation {}", number);
        assert_eq!(noticed(1, 9, 10, number).is_some(), (1..=65_535).contains(&number), "missed {}", number);
    }
}

/// Tables in which entity 1 is of this kind and has these used places, of which the first shows 3 of entity 2, and one
/// triple.
fn with_rows(kind: u32, used: u32) -> Tables {
    let mut tables = Tables::empty();
    let words = tables.as_words_mut();
    words[ENTITY] = kind;
    words[USED] = used;
    words[CONTENTS] = 2;
    words[SHOWN] = 3;
    words[TRIPLES] = login().word();
    tables
}

fn login() -> Triple {
    Triple::new(user(1), Operation::Login, Position::First)
}

#[test]
fn rows_are_those_of_the_kind() {
    let (one, held, shown) = (entity(1), vec![entity(2)], vec![(entity(2), Shown::VALUE_AND_LABEL)]);
    let rows = |tables: Tables| (tables.contents_of(one), tables.shown_on(one), tables.triples_of(one));
    for absent in [0, DEVICE + 1, u32::MAX] {
        assert_eq!(rows(with_rows(absent, 1)), (vec![], vec![], vec![]));
    }
    assert_eq!(rows(with_rows(OBJECT, 1)), (vec![], vec![], vec![login()]));
    assert_eq!(rows(with_rows(CONTAINER, 1)), (held.clone(), vec![], vec![login()]));
    assert_eq!(rows(with_rows(DEVICE, 1)), (held, shown, vec![login()]));
}

#[test]
fn words_out_of_range_are_left_out_of_rows() {
    let one = entity(1);
    for used in [0, 9, u32::MAX] {
        assert_eq!(with_rows(DEVICE, used).contents_of(one), []);
        assert_eq!(with_rows(DEVICE, used).shown_on(one), []);
    }
    let mut tables = with_rows(DEVICE, 8);
    let words = tables.as_words_mut();
    words[CONTENTS + 1] = 65;
    words[SHOWN + 1] = 3;
    words[CONTENTS + 2] = 4;
    words[SHOWN + 2] = 8;
    words[TRIPLES + 1] = 7;
    assert_eq!(tables.contents_of(one), [entity(2), entity(4)]);
    assert_eq!(tables.shown_on(one), [(entity(2), Shown::VALUE_AND_LABEL)]);
    assert_eq!(tables.triples_of(one), [login()]);
}

#[test]
fn an_absent_record_is_not_told_of_whatever_its_words() {
    let mut tables = Tables::from_words(&[1; TABLE_WORDS]).expect("2,304 words");
    assert_eq!(tables.clearance_of(user(1)), Level::from_number(1));
    assert_eq!(tables.level_of(entity(1)), Level::from_number(1));
    tables.as_words_mut()[USER] = 0;
    tables.as_words_mut()[ENTITY] = 0;
    assert_eq!((tables.clearance_of(user(1)), tables.device_of(user(1))), (None, None));
    assert_eq!((tables.authorised_roles_of(user(1)), tables.current_roles_of(user(1))), (None::<Roles>, None));
    let one = entity(1);
    assert_eq!((tables.kind_of(one), tables.type_of(one), tables.level_of(one)), (None, None, None));
    assert_eq!((tables.value_of(one), tables.releaser_of(one), tables.maximum_of(one)), (None, None, None));
    assert!(!tables.is_marked(one) && tables.is_marked(entity(2)));
}
