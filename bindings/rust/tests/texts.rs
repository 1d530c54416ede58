//! Tables as text, both ways [rule 16]: S1 and the office as they lie in `examples/`, and texts that are not of tables.
mod case;

use case::{entity, level, roles, s1, user};
use mms::words::{self, Answer};
use mms::{BadLine, Entity, Operation, Position, Refusal, Roles, Tables, Triple, User, Who};
use mms::{TABLES_TEXT_MOST, TABLE_WORDS};

/// The tables of the examples, as words and as text.
const EXAMPLES: [(&[u8], &str); 2] = [
    (include_bytes!("../../../examples/state.words"), include_str!("../../../examples/state.text")),
    (include_bytes!("../../../examples/office.words"), include_str!("../../../examples/office.text")),
];
const S1: &str = EXAMPLES[0].1;
const UNTOUCHED: u32 = 77;

#[test]
fn the_examples_are_their_words() {
    for (state, text) in EXAMPLES {
        let tables = Tables::from_bytes(state).expect("a state file");
        assert_eq!(tables.to_text(), Ok(text.to_string()));
        assert_eq!(tables.to_string(), text);
        assert_eq!(Tables::from_text(text.as_bytes()), Ok(tables.clone()));
        assert_eq!(text.parse(), Ok(tables));
    }
    assert_eq!(s1().to_string(), S1);
    assert_eq!((S1.len(), S1.lines().count()), (987, 103));
}

#[test]
fn empty_tables_have_the_empty_text() {
    assert_eq!(Tables::empty().to_text(), Ok(String::new()));
    assert_eq!("".parse(), Ok(Tables::empty()));
}

#[test]
fn tables_that_are_not_secure_have_a_text() {
    let mut insecure = s1();
    insecure.put_on(user(1), entity(1), roles(8));
    assert_eq!(insecure.check(), Err(Refusal::NotSecure));
    let text = insecure.to_text().expect("a text");
    assert_eq!(text, S1.replacen("current=1\n", "current=8\n", 1));
    assert_eq!(text.parse(), Ok(insecure));
}

#[test]
fn tables_that_are_not_well_formed_have_none_and_say_so() {
    for word in [0, 1, 256] {
        let mut damaged = s1();
        damaged.as_words_mut()[word] = u32::MAX;
        assert_eq!(damaged.to_text(), Err(Refusal::NotWellFormed));
        let said = damaged.to_string();
        assert_eq!(said, Refusal::NotWellFormed.to_string());
        assert_eq!(format!("{:5}", damaged), said);
        assert_eq!(bad_line(&said), Some(1));
    }
}

/// The line where a text fails; `None` where it does not or fails for another reason.
fn bad_line(text: &str) -> Option<u32> {
    match text.parse::<Tables>() {
        Err(Refusal::NotARequest(bad)) => Some(bad.line()),
        _ => None,
    }
}

#[test]
fn the_line_that_fails_is_named() {
    for (part, by, line) in [
        ("user=1\n", "user=01\n", 1),
        ("clearance=1023\n", "", 2),
        ("user=2\n", "user=1\n", 9),
        ("entity=1\n", "entity=65\n", 25),
        ("kind=3\n", "kind=0\n", 26),
        ("places=2\n", "places=3\n", 67),
        ("content=5.0\n", "content=5\n", 65),
        ("triple=3.12.1\n", "triple=0.0.0\n", 55),
        ("triple=3.12.1\n", "triple=65536.12.1\n", 55),
    ] {
        assert_eq!(bad_line(&S1.replacen(part, by, 1)), Some(line), "{:?} for {:?}", by, part);
    }
    assert_eq!(bad_line(&[S1, "\n"].concat()), Some(104));
    assert_eq!(bad_line(&S1[..S1.len() - 1]), Some(103));
    let last = S1.trim_end().rfind('\n').map_or(0, |end| end + 1);
    assert_eq!(bad_line(&S1[..last]), Some(103));
    let bad = BadLine::from_number(103).expect("a line");
    assert_eq!(Refusal::from(bad).to_string(), "line 103 of the text is bad or missing");
}

#[test]
fn lines_come_before_tables() {
    let beyond = S1.replacen("level=1023\n", "level=5000\n", 1);
    assert_eq!(beyond.parse::<Tables>(), Err(Refusal::NotWellFormed));
    assert_eq!(bad_line(&[&beyond, "x"].concat()), Some(104));
    let absent = S1.replacen("content=5.0\n", "content=60.0\n", 1);
    assert_eq!(absent.parse::<Tables>(), Err(Refusal::NotWellFormed));
}

#[test]
fn a_short_room_is_told_what_it_needs() {
    let mut room = [b'-'; 990];
    assert_eq!(words::write_tables(s1().as_words(), &mut room[..986]), Answer { no: 17, number: 987 });
    assert_eq!(words::write_tables(s1().as_words(), &mut []), Answer { no: 17, number: 987 });
    assert_eq!(room, [b'-'; 990]);
    assert_eq!(words::write_tables(s1().as_words(), &mut room), Answer { no: 0, number: 987 });
    assert_eq!(room, *[S1.as_bytes(), b"---"].concat());
}

#[test]
fn refusals_leave_what_they_were_lent() {
    for size in [0, 1, TABLE_WORDS - 1, TABLE_WORDS + 1] {
        let mut tables = vec![UNTOUCHED; size];
        assert_eq!(words::read_tables(S1.as_bytes(), &mut tables), Answer { no: 1, number: 0 });
        assert_eq!(words::write_tables(&tables, &mut []), Answer { no: 1, number: 0 });
        assert!(tables.iter().all(|&word| word == UNTOUCHED));
    }
    let mut tables = [UNTOUCHED; TABLE_WORDS];
    let beyond = S1.replacen("level=1023\n", "level=5000\n", 1);
    assert_eq!(words::read_tables(beyond.as_bytes(), &mut tables), Answer { no: 2, number: 0 });
    assert_eq!(words::read_tables(b"user=1\nclearance=7\n", &mut tables), Answer { no: 18, number: 3 });
    assert_eq!(tables, [UNTOUCHED; TABLE_WORDS]);
    let mut room = [b'-'; TABLES_TEXT_MOST];
    assert_eq!(words::write_tables(&tables, &mut room), Answer { no: 2, number: 0 });
    assert_eq!(room, [b'-'; TABLES_TEXT_MOST]);
}

/// Where the words of an entity stand that no writer sets: type, releaser and shown sums [rule 2.3].
const TYPE: usize = 1;
const RELEASER: usize = 5;
const USED: usize = 7;
const CONTENTS: usize = 8;
const SHOWN: usize = 16;

/// The words of an entity, to be changed.
fn words_of(tables: &mut Tables, of: Entity) -> &mut [u32] {
    let at = 256 + (of.number() as usize - 1) * 32;
    &mut tables.as_words_mut()[at..at + 32]
}

/// The tables with the longest text: sixteen users on devices 49 to 64, each of which shows eight, and 48 released
/// containers, one in another; every number has as many digits as there can be.
fn longest() -> Tables {
    let (high, all) = (level(1023), Roles::all().last().expect("roles"));
    let mut tables = Tables::empty();
    for one in Entity::all().take(48) {
        tables.put_container(one, high);
        tables.put_value(one, u32::MAX);
        words_of(&mut tables, one)[TYPE] = 2;
        words_of(&mut tables, one)[RELEASER] = 16;
    }
    // the first is in no other, and its number has one digit
    for (held, holder) in Entity::all().take(48).skip(1).zip((1..=48).flat_map(|one| [one; 8])) {
        tables.put_inside(held, entity(holder)).expect("eight places");
    }
    for (one, device) in User::all().zip(49..) {
        tables.put_device(entity(device), high, high);
        tables.put_user(one, high, all);
        tables.put_on(one, entity(device), all);
        tables.as_words_mut()[(one.number() as usize - 1) * 16 + 5..][..3].copy_from_slice(&[16, 20, 65_535]);
        let words = words_of(&mut tables, entity(device));
        words[USED] = 8;
        words[CONTENTS..CONTENTS + 8].copy_from_slice(&[10, 11, 12, 13, 14, 15, 16, 17]);
        words[SHOWN..SHOWN + 8].fill(7);
    }
    for one in Entity::all() {
        for who in Who::all().filter(|who| who.number() >= 10).take(8) {
            tables.put_triple(one, Triple::new(who, Operation::Login, Position::First)).expect("eight triples");
        }
    }
    tables
}

#[test]
fn the_longest_text_has_room() {
    let tables = longest();
    assert_eq!(tables.check(), Ok(()));
    let text = tables.to_text().expect("a text");
    assert_eq!(text.len(), TABLES_TEXT_MOST);
    assert_eq!(text.parse(), Ok(tables));
}
