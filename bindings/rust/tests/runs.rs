//! Runs: requests in one call have the answers of as many steps and leave the same tables, wherever they are cut.
mod case;

use case::{entity, level, reference, roles, s1, user};
use mms::words::{self, Answer};
use mms::{Notice, Operation, Refusal, Request, Shown, Sort, Tables, Type};

/// What stands in places before a run, and is no answer.
const UNTOUCHED: u32 = 77;

fn show(by: u32, text: &str) -> Request {
    Request::show(user(by), &reference(text), Shown::VALUE_AND_LABEL)
}

fn create(in_container: &str, of_level: u32) -> Request {
    Request::create(user(2), &reference(in_container), Sort::Object, level(of_level))
}

fn officer_takes_on(sum: u32) -> Request {
    Request::set_current_roles(user(1), user(1), roles(sum))
}

fn number(answer: &Result<(), Refusal>) -> u32 {
    answer.map_or_else(Refusal::number, |()| 0)
}

/// The answers of a run by number, and what it leaves.
fn run(mut tables: Tables, requests: &[Request]) -> (Vec<u32>, Tables) {
    let answers = tables.run(requests).iter().map(number).collect();
    (answers, tables)
}

/// The same of single steps.
fn steps(mut tables: Tables, requests: &[Request]) -> (Vec<u32>, Tables) {
    let answers = requests.iter().map(|request| number(&tables.step(request))).collect();
    (answers, tables)
}

/// Eight objects for container 7, which then is full.
fn filling() -> Vec<Request> {
    vec![create("7", 0); 8]
}

/// A request for each refusal that a run can meet, on S1 with container 7 full.
fn refused() -> [(u32, Request); 13] {
    [
        (4, show(9, "5")),
        (5, show(2, "")),
        (6, show(3, "5")),
        (7, show(2, "5.1")),
        (8, show(2, "7")),
        (9, show(2, "4.1")),
        (10, create("7.1", 0)),
        (11, Request::set_clearance(user(1), user(9), level(0))),
        (12, Request::release(user(1), &reference("6"))),
        (13, create("7", 257)),
        (14, create("7", 0)),
        (15, Request::show(user(2), &reference("5"), Shown::VALUE)),
        (16, Request::acknowledge(user(2), Refusal::Marked, 9)),
    ]
}

/// A day on S1: container 7 is filled, each refusal is met, the officer's roles change behind each, and a draft is
/// released at the end.
fn day() -> Vec<Request> {
    let mut requests = filling();
    for (number, request) in refused() {
        requests.extend([request, officer_takes_on(number % 4)]);
    }
    requests.extend([officer_takes_on(5), Request::release(user(1), &reference("6"))]);
    requests
}

#[test]
fn a_releaser_releases() {
    let release = Request::release(user(1), &reference("6"));
    let (answers, tables) = run(s1(), &[release, officer_takes_on(5), release]);
    assert_eq!(answers, [12, 0, 0]);
    assert_eq!((tables.type_of(entity(6)), tables.releaser_of(entity(6))), (Some(Type::Released), Some(user(1))));
    let missed_once = Notice { held: Refusal::RoleMissing, operation: Some(Operation::Release), missed: 1 };
    assert_eq!(tables.notice(user(1)), Some(missed_once));
}

#[test]
fn the_first_refusal_is_held_until_it_is_acknowledged() {
    let value_alone = Request::show(user(2), &reference("5"), Shown::VALUE);
    let acknowledge = |missed| Request::acknowledge(user(2), Refusal::Marked, missed);
    let held = |missed| Some(Notice { held: Refusal::Marked, operation: Some(Operation::Show), missed });
    let requests = [show(2, "4.1"), value_alone, acknowledge(1), acknowledge(3)];
    let (answers, twice) = run(s1(), &requests[..2]);
    assert_eq!((answers, twice.notice(user(2))), (vec![9, 15], held(2)));
    let (answers, again) = run(twice, &requests[2..3]);
    assert_eq!((answers, again.notice(user(2))), (vec![16], held(3)));
    assert_eq!(run(again, &requests[3..]), (vec![0], s1()));
    assert_eq!(run(s1(), &requests), (vec![9, 15, 16, 0], s1()));
}

#[test]
fn the_script_of_the_case_has_its_answers() {
    let (answers, tables) = run(s1(), &[show(2, "4.1"), show(2, "5")]);
    assert_eq!(answers, [9, 0]);
    assert_eq!(tables.shown_on(entity(2)), [(entity(5), Shown::VALUE_AND_LABEL)]);
    assert_eq!(tables.notice(user(2)).map(|notice| (notice.held, notice.missed)), Some((Refusal::Marked, 1)));
}

#[test]
fn a_refusal_in_the_middle_does_not_end_the_run() {
    for (number, request) in refused() {
        let mut requests = filling();
        requests.extend([request, officer_takes_on(5)]);
        let (answers, tables) = run(s1(), &requests);
        assert_eq!(answers, [0, 0, 0, 0, 0, 0, 0, 0, number, 0]);
        assert_eq!(tables.current_roles_of(user(1)), Some(roles(5)), "behind {}", number);
        // 4 leaves nobody a notice
        let held =
            request.user().and_then(|user| tables.notice(user)).map(|notice| (notice.held.number(), notice.missed));
        assert_eq!(held, if number == 4 { None } else { Some((number, 1)) });
        assert_eq!((answers, tables), steps(s1(), &requests));
    }
}

#[test]
fn a_run_is_the_same_wherever_it_is_cut() {
    let (requests, whole) = (day(), run(s1(), &day()));
    assert_eq!(whole, steps(s1(), &requests));
    assert!((4..=16).all(|refusal| whole.0.contains(&refusal)), "{:?}", whole.0);
    assert_eq!(whole.1.type_of(entity(6)), Some(Type::Released));
    for cut in 0..=requests.len() {
        let (mut answers, tables) = run(s1(), &requests[..cut]);
        let (rest, tables) = run(tables, &requests[cut..]);
        answers.extend(rest);
        assert_eq!((answers, tables), whole, "cut at {}", cut);
    }
    for length in 1..=requests.len() {
        let mut tables = s1();
        let pieces = requests.chunks(length).flat_map(|piece| tables.run(piece)).collect::<Vec<_>>();
        assert_eq!((pieces.iter().map(number).collect(), tables), whole, "in pieces of {}", length);
    }
}

/// S1 with a word that it cannot have, and S1 with a role that is not authorised.
fn failing() -> [(Refusal, Tables); 2] {
    let (mut damaged, mut insecure) = (s1(), s1());
    damaged.as_words_mut()[0] = 2;
    insecure.put_on(user(1), entity(1), roles(8));
    [(Refusal::NotWellFormed, damaged), (Refusal::NotSecure, insecure)]
}

#[test]
fn on_tables_that_fail_the_check_every_request_is_refused_so() {
    for (refusal, failing) in failing() {
        assert_eq!(failing.check(), Err(refusal));
        let mut tables = failing.clone();
        assert_eq!(tables.run(&day()), vec![Err(refusal); day().len()]);
        assert_eq!(tables, failing);
    }
}

#[test]
fn a_run_of_no_requests_does_nothing() {
    let [(_, damaged), (_, insecure)] = failing();
    for before in [s1(), damaged, insecure, Tables::from_words(&[UNTOUCHED; 2304]).expect("2,304 words")] {
        let (mut tables, mut places) = (before.clone(), [UNTOUCHED; 2]);
        assert_eq!(tables.run(&[]), []);
        assert_eq!(tables.run_into(&[], &mut []), Ok(()));
        assert_eq!(tables.run_into(&[], &mut places), Ok(()));
        assert_eq!((tables, places), (before, [UNTOUCHED; 2]));
    }
}

#[test]
fn spare_places_stay() {
    let (answers, after) = steps(s1(), &day());
    for spare in 0..3 {
        let (mut tables, mut places) = (s1(), vec![UNTOUCHED; answers.len() + spare]);
        assert_eq!(tables.run_into(&day(), &mut places), Ok(()));
        assert_eq!(tables, after);
        assert_eq!(places[..answers.len()], answers);
        assert_eq!(places[answers.len()..], [UNTOUCHED; 2][..spare]);
    }
}

#[test]
fn lengths_that_do_not_fit_are_refused_and_nothing_changes() {
    let words: Vec<u32> = day().iter().flat_map(|request| *request.as_words()).collect();
    let (two, places) = (2 * mms::REQUEST_WORDS, 2);
    let cases = [(2303, two, places), (2305, two, places), (0, two, places), (2303, 0, 0), (2304, two - 1, places)];
    let more = [(2304, two + 1, 3), (2304, 1, places), (2304, two, 1), (2304, two, 0), (2305, two + 1, 0)];
    let [(_, damaged), _] = failing();
    for tables in [s1(), damaged] {
        let mut longer = tables.as_words().to_vec();
        longer.push(0);
        for (table_words, request_words, places) in cases.into_iter().chain(more) {
            let (mut lent, mut answers) = (longer[..table_words].to_vec(), vec![UNTOUCHED; places]);
            let answer = words::run(&mut lent, &words[..request_words], &mut answers);
            assert_eq!(answer, Answer { no: 1, number: 0 }, "{} {} {}", table_words, request_words, places);
            assert_eq!((lent, answers), (longer[..table_words].to_vec(), vec![UNTOUCHED; places]));
        }
    }
}

#[test]
fn requests_are_lent_as_their_words() {
    let words: Vec<u32> = day().iter().flat_map(|request| *request.as_words()).collect();
    let (mut tables, mut answers) = (s1(), vec![UNTOUCHED; day().len()]);
    assert_eq!(words::run(tables.as_words_mut(), &words, &mut answers), Answer { no: 0, number: 0 });
    assert_eq!((answers, tables), run(s1(), &day()));
}
