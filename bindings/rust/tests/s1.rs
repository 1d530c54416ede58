//! Every case of S1 [rule 13], asked through the typed calls.
mod case;

use case::{entity, level, reference, roles, s1, user};
use mms::{Kind, Notice, Operation, Reference, Refusal, Request, Roles, Shown, Sort, Tables, Type};

/// S1 as the program reads it.
const STATE: &[u8] = include_bytes!("../../../examples/state.words");

fn show(by: u32, text: &str) -> Request {
    Request::show(user(by), &reference(text), Shown::VALUE_AND_LABEL)
}

/// The answer to one request on S1, and what it leaves.
fn asked(request: &Request) -> (u32, Tables) {
    let mut tables = s1();
    let answer = tables.step(request).map_or_else(Refusal::number, |()| 0);
    (answer, tables)
}

#[test]
fn the_writers_make_the_state_file() {
    assert_eq!(s1().to_bytes(), STATE);
    assert_eq!(Tables::from_bytes(STATE), Ok(s1()));
    assert_eq!(s1().check(), Ok(()));
}

#[test]
fn each_case_has_its_answer() {
    let mut five_long = *show(2, "5").as_words();
    five_long[2] = 5;
    let create = |number| Request::create(user(2), &reference("7"), Sort::Object, level(number));
    let cases = [
        (show(2, "5"), 0),
        (show(2, "4.1"), 9),
        (Request::show(user(2), &reference("5"), Shown::VALUE), 15),
        (show(2, "5.1"), 7),
        (Request::from_words(five_long), 5),
        (Request::copy(user(2), &reference("5"), &reference("7")), 0),
        (create(257), 13),
        (create(0), 0),
        (Request::release(user(1), &reference("6")), 12),
        (Request::set_level(user(1), &reference("7"), level(0)), 12),
        (Request::set_level(user(1), &reference("7"), level(1)), 12),
        (show(3, "5"), 6),
        (Request::login(user(3), &reference("3")), 0),
        (show(9, "5"), 4),
    ];
    for (request, answer) in cases {
        assert_eq!(asked(&request).0, answer, "{:?}", request);
    }
}

#[test]
fn what_is_accepted_has_its_effect() {
    let (_, copied) = asked(&Request::copy(user(2), &reference("5"), &reference("7")));
    assert_eq!(copied.value_of(entity(7)), Some(40));

    let (_, created) = asked(&Request::create(user(2), &reference("7"), Sort::Object, level(0)));
    assert_eq!(created.kind_of(entity(8)), Some(Kind::Object));
    assert_eq!(created.contents_of(entity(7)), [entity(8)]);
    assert_eq!(created.triples_of(entity(8)), created.triples_of(entity(7)));

    let (_, logged_on) = asked(&Request::login(user(3), &reference("3")));
    assert_eq!(logged_on.device_of(user(3)), Some(entity(3)));

    let (_, shown) = asked(&show(2, "5"));
    assert_eq!(shown.shown_on(entity(2)), [(entity(5), Shown::VALUE_AND_LABEL)]);
}

#[test]
fn a_releaser_releases() {
    let mut tables = s1();
    let both = Roles::OFFICER | Roles::RELEASER;
    assert_eq!(tables.step(&Request::set_current_roles(user(1), user(1), both)), Ok(()));
    assert_eq!(tables.current_roles_of(user(1)), Some(roles(5)));
    assert_eq!(tables.step(&Request::release(user(1), &reference("6"))), Ok(()));
    assert_eq!(tables.type_of(entity(6)), Some(Type::Released));
    assert_eq!(tables.releaser_of(entity(6)), Some(user(1)));
}

#[test]
fn a_downgrader_drops_a_level() {
    // strictly lower, and sideways
    for to in [level(0), level(1)] {
        let dropping = Request::set_level(user(1), &reference("7"), to);
        let (answer, mut tables) = asked(&dropping);
        let refused = Notice { held: Refusal::RoleMissing, operation: Some(Operation::Level), missed: 1 };
        assert_eq!((answer, tables.level_of(entity(7))), (12, Some(level(256))));
        assert_eq!(tables.notice(user(1)), Some(refused));
        assert_eq!(tables.step(&Request::set_current_roles(user(1), user(1), Roles::DOWNGRADER)), Ok(()));
        assert_eq!(tables.step(&dropping), Ok(()));
        assert_eq!(tables.level_of(entity(7)), Some(to));
    }
    // to keep the level, or to raise it, takes no role
    for to in [level(256), level(257), level(512)] {
        let (answer, tables) = asked(&Request::set_level(user(1), &reference("7"), to));
        assert_eq!((answer, tables.level_of(entity(7))), (0, Some(to)));
    }
}

#[test]
fn the_first_refusal_is_held_until_it_is_acknowledged() {
    let mut tables = s1();
    assert_eq!(tables.step(&show(2, "4.1")), Err(Refusal::Marked));
    let value_alone = Request::show(user(2), &reference("5"), Shown::VALUE);
    assert_eq!(tables.step(&value_alone), Err(Refusal::Arrangement));
    let held = |missed| Some(Notice { held: Refusal::Marked, operation: Some(Operation::Show), missed });
    assert_eq!(tables.notice(user(2)), held(2));
    let acknowledge = |missed| Request::acknowledge(user(2), Refusal::Marked, missed);
    assert_eq!(tables.step(&acknowledge(1)), Err(Refusal::NotAcknowledged));
    assert_eq!(tables.notice(user(2)), held(3));
    assert_eq!(tables.step(&acknowledge(3)), Ok(()));
    assert_eq!(tables, s1());
}

#[test]
fn the_lists_are_those_of_the_case() {
    let none: [Reference; 0] = [];
    let mut tables = s1();
    assert_eq!(tables.list(user(2)).unwrap(), [reference("5")]);
    assert_eq!(tables.list(user(1)).unwrap(), none);
    assert_eq!(tables.list(user(3)), Err(Refusal::NotLoggedOn));
    assert_eq!(tables.list(user(9)), Err(Refusal::UnknownRequester));
    tables.put_mark(entity(4), false);
    assert_eq!(tables.list(user(2)).unwrap(), [reference("4.1"), reference("5")]);
}

#[test]
fn a_short_room_is_told_what_it_needs() {
    let tables = s1();
    let mut room = [7; 6];
    assert_eq!(tables.list_into(user(2), &mut room[..4]), Err(Refusal::TooShort { need: 1 }));
    assert_eq!(room, [7; 6]);
    assert_eq!(tables.list_into(user(2), &mut room), Ok(1));
    assert_eq!(room, [1, 5, 0, 0, 0, 7]);
}

#[test]
fn the_script_of_the_case_has_its_reports() {
    let mut tables = s1();
    let script = [show(2, "4.1"), show(2, "5")];
    let reports = script.map(|request| {
        let answer = tables.step(&request).map_or_else(Refusal::number, |()| 0);
        let notice = tables.notice(user(2)).expect("the first request is refused");
        (answer, notice.held.number(), notice.missed)
    });
    assert_eq!(reports, [(9, 9, 1), (0, 9, 1)]);
}
