//! The types that are numbers: their ranges, their order, and tables as words and bytes.
mod case;

use case::user;
use mms::{Entity, Kind, Level, Operation, Position, Refusal, Roles, Shown, Sort, Tables, Triple, Type, User, Who};
use mms::{STATE_BYTES, TABLE_WORDS};

/// The numbers that a type is made of, of those up to 2,000 and a few at the end; each must come back.
fn range(made: impl Fn(u32) -> Option<u32>) -> Option<(u32, u32)> {
    let tried = (0..=2000).chain([65_536, 1 << 31, u32::MAX]);
    let kept: Vec<u32> = tried.filter(|&number| made(number).map(|back| assert_eq!(back, number)).is_some()).collect();
    assert!(kept.windows(2).all(|two| two[0] + 1 == two[1]));
    Some((*kept.first()?, *kept.last()?))
}

#[test]
fn each_type_has_its_range() {
    assert_eq!(range(|number| User::from_number(number).map(User::number)), Some((1, 16)));
    assert_eq!(range(|number| Entity::from_number(number).map(Entity::number)), Some((1, 64)));
    assert_eq!(range(|number| Level::from_number(number).map(Level::number)), Some((0, 1023)));
    assert_eq!(range(|number| Roles::from_number(number).map(Roles::number)), Some((0, 255)));
    assert_eq!(range(|number| Shown::from_number(number).map(Shown::number)), Some((1, 7)));
    assert_eq!(range(|number| Who::from_number(number).map(Who::number)), Some((1, 24)));
    assert_eq!(range(|number| Operation::from_number(number).map(Operation::number)), Some((1, 20)));
    assert_eq!(range(|number| Kind::from_number(number).map(Kind::number)), Some((1, 3)));
    assert_eq!(range(|number| Type::from_number(number).map(Type::number)), Some((0, 2)));
    assert_eq!(range(|number| Sort::from_number(number).map(Sort::number)), Some((1, 3)));
    assert_eq!(range(|number| Position::from_number(number).map(Position::number)), Some((1, 2)));
}

#[test]
fn a_conversion_fails_outside_the_range_only() {
    assert_eq!(User::try_from(16), Ok(user(16)));
    assert_eq!(u32::from(user(16)), 16);
    assert_eq!(User::try_from(17).map_err(|refused| refused.to_string()), Err("17 is not a user, 1 to 16".to_string()));
    assert_eq!(Operation::try_from(0).map_err(|refused| refused.number()), Err(0));
    assert_eq!((User::all().count(), Entity::all().count(), Level::all().count()), (16, 64, 1024));
}

/// "At most" of rule 1.2, compartment by compartment.
fn is_at_most(a: u32, b: u32) -> bool {
    a / 256 <= b / 256 && (0..8).all(|bit| a >> bit & 1 <= b >> bit & 1)
}

#[test]
fn levels_are_ordered_as_the_rules_say() {
    for a in Level::all() {
        for b in Level::all() {
            let (up, down) = (is_at_most(a.number(), b.number()), is_at_most(b.number(), a.number()));
            assert_eq!((a <= b, a >= b), (up, down));
            assert_eq!((a < b, a == b), (up && !down, up && down));
        }
    }
}

#[test]
fn a_level_is_its_rank_and_compartments() {
    for one in Level::all() {
        assert_eq!(Level::new(one.rank(), one.compartments()), Some(one));
        assert_eq!(one.number(), one.rank() * 256 + u32::from(one.compartments()));
    }
    assert_eq!(Level::new(4, 0), None);
    assert_eq!(Level::new(u32::MAX, 255), None);
}

#[test]
fn triples_are_words_and_back() {
    let words = (0..=u32::MAX).step_by(61).take(80_000).chain([0, u32::MAX, 25 * 65_536 + 257, 65_536 + 21 * 256 + 1]);
    let mut triples = 0;
    for word in words {
        let fits = matches!((word / 65_536, word / 256 % 256, word % 256), (1..=24, 1..=20, 1..=2));
        assert_eq!(Triple::from_word(word).map(Triple::word), if fits { Some(word) } else { None });
        triples += u32::from(fits);
    }
    assert!(triples > 0);
}

#[test]
fn who_is_a_user_or_one_role() {
    let roles: Vec<Option<u32>> = (0..8).map(|bit| Some(17 + bit)).collect();
    let made = (0..8).map(|bit| Who::with_role(Roles::from_number(1 << bit)?).map(Who::number));
    assert_eq!(made.collect::<Vec<_>>(), roles);
    assert_eq!(Who::with_role(Roles::NONE), None);
    assert_eq!(Who::with_role(Roles::OFFICER | Roles::DOWNGRADER), None);
}

#[test]
fn tables_are_words_and_bytes_and_back() {
    let mut words = [0; TABLE_WORDS];
    for (i, word) in words.iter_mut().enumerate() {
        *word = (i as u32).wrapping_mul(0x9E37_79B9);
    }
    let tables = Tables::from_words(&words).expect("2,304 words");
    assert_eq!(tables.as_words(), &words);
    let bytes = tables.to_bytes();
    assert_eq!(bytes.len(), STATE_BYTES);
    assert_eq!(bytes[4..8], [0xB9, 0x79, 0x37, 0x9E]);
    assert_eq!(Tables::from_bytes(&bytes), Ok(tables));
    for size in [0, 1, TABLE_WORDS, STATE_BYTES - 1, STATE_BYTES + 1] {
        assert_eq!(Tables::from_bytes(&vec![0; size]), Err(Refusal::BadLength));
    }
    for size in [0, 16, TABLE_WORDS - 1, TABLE_WORDS + 1, STATE_BYTES] {
        assert_eq!(Tables::from_words(&vec![0; size]), Err(Refusal::BadLength));
    }
}
