//! The eighteen refusals, by number and in words, and how the calls give those that S1's cases do not.
mod case;

use case::{entity, level, reference, roles, s1, user};
use mms::words::{self, Answer};
use mms::{BadLine, Operation, Position, Refusal, Request, Roles, Shown, Sort, Tables, Triple};
use std::collections::HashSet;

#[test]
fn every_number_is_one_refusal_and_back() {
    let mut seen = HashSet::new();
    for number in 1..=18 {
        let refusal = Refusal::from_number(number, 3).expect("a refusal");
        assert_eq!(refusal.number(), number);
        assert!(seen.insert(refusal), "{} was there before", number);
        assert_eq!(Answer { no: number, number: 3 }.refusal(), Some(refusal));
    }
    let words: HashSet<String> = seen.iter().map(Refusal::to_string).collect();
    assert_eq!(words.len(), 18);
    for number in [0, 19, u32::MAX] {
        assert_eq!(Refusal::from_number(number, 3), None);
    }
}

#[test]
fn what_goes_with_a_refusal_is_kept() {
    for need in [0, 1, 37_440, u32::MAX] {
        assert_eq!(Refusal::from_number(17, need), Some(Refusal::TooShort { need }));
    }
    for line in (1..=8).chain([103, 1_793, u32::MAX]) {
        let bad = BadLine::from_number(line).expect("a line");
        assert_eq!(bad.line(), line);
        assert_eq!(Refusal::from_number(18, line), Some(Refusal::NotARequest(bad)));
        assert_eq!(Refusal::from(bad).to_string(), bad.to_string());
    }
    assert_eq!(BadLine::from_number(0), None);
    assert_eq!(Refusal::from_number(18, 0), None);
}

#[test]
fn the_ladder_is_the_order() {
    let ladder: Vec<Refusal> = (1..=18).filter_map(|number| Refusal::from_number(number, 1)).collect();
    assert!(ladder.windows(2).all(|two| two[0] < two[1]));
}

/// S1 after a change, and the answer to a request on it.
fn changed(change: impl Fn(&mut Tables), request: &Request) -> Result<(), Refusal> {
    let mut tables = s1();
    change(&mut tables);
    tables.step(request)
}

#[test]
fn bad_tables_are_refused_before_anything_else() {
    let unknown = Request::clear(user(9));
    assert_eq!(changed(|tables| tables.as_words_mut()[0] = 2, &unknown), Err(Refusal::NotWellFormed));
    assert_eq!(changed(|tables| tables.put_on(user(1), entity(1), roles(8)), &unknown), Err(Refusal::NotSecure));
    assert_eq!(changed(|_| (), &unknown), Err(Refusal::UnknownRequester));
    assert_eq!(words::step(&mut [], unknown.as_words()).refusal(), Some(Refusal::BadLength));
}

#[test]
fn each_rung_of_the_step_is_reached() {
    let show = |text: &str| Request::show(user(2), &reference(text), Shown::VALUE_AND_LABEL);
    let full = |tables: &mut Tables| {
        for number in 11..=18 {
            tables.put_object(entity(number), level(0));
            tables.put_inside(entity(number), entity(7)).expect("eight places");
        }
    };
    let permitted = |on, operation| {
        move |tables: &mut Tables| {
            let triple = Triple::new(user(1), operation, Position::First);
            tables.put_triple(entity(on), triple).expect("eight triples");
        }
    };
    assert_eq!(changed(|_| (), &show("")), Err(Refusal::BadRequest));
    assert_eq!(changed(|_| (), &show("65")), Err(Refusal::NoSuchName));
    assert_eq!(changed(|_| (), &show("7")), Err(Refusal::NoAccess));
    let release_object = Request::release(user(1), &reference("5"));
    assert_eq!(changed(permitted(5, Operation::Release), &release_object), Err(Refusal::WrongKind));
    let absent = Request::set_clearance(user(1), user(9), level(0));
    assert_eq!(changed(|_| (), &absent), Err(Refusal::NoSuchUser));
    let logged_off = Request::set_current_roles(user(1), user(3), Roles::RELEASER);
    assert_eq!(changed(|_| (), &logged_off), Err(Refusal::NoSuchUser));
    let create = Request::create(user(2), &reference("7"), Sort::Draft, level(0));
    assert_eq!(changed(full, &create), Err(Refusal::NoRoom));
    let delete = Request::delete(user(1), &reference("4"));
    assert_eq!(changed(permitted(4, Operation::Delete), &delete), Err(Refusal::Arrangement));
}

#[test]
fn a_notice_without_an_operation_says_so() {
    let mut tables = s1();
    let mut nonsense = [0; 16];
    nonsense[..2].copy_from_slice(&[2, 21]);
    assert_eq!(tables.step(&Request::from_words(nonsense)), Err(Refusal::BadRequest));
    let notice = tables.notice(user(2)).expect("a notice");
    assert_eq!((notice.held, notice.operation, notice.missed), (Refusal::BadRequest, None, 1));
}
