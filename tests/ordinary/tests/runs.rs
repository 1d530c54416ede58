//! Runs of requests: the cases of S1 that take several, and that a run is its single steps, however it is cut.

mod common;

use common::*;
use generate::layout::op::{CURRENT_ROLES, RELEASE, SHOW};
use generate::layout::{entity, entity_base, refusal, user, user_base};
use generate::{dice_for, s1, Dice};
use ordinary::{check, run, step, Reply, Right, REQUEST_WORDS, TABLE_WORDS};

/// What stands in a place that nobody has written to.
const UNTOUCHED: u32 = 77;
/// Places behind those of the requests.
const SPARE: usize = 3;
const REFUSED: Reply = Reply { answer: refusal::BAD_LENGTH, number: 0 };

/// The answers to these requests in one run, which must be those of single steps and leave the same tables.
fn answers(tables: &mut Tables, requests: &[Vec<u32>]) -> Vec<u32> {
    let mut stepped = tables.clone();
    let expected: Vec<u32> = requests.iter().map(|request| step::<Right>(&mut stepped, request).answer).collect();
    let mut answers = vec![UNTOUCHED; requests.len() + SPARE];
    assert_eq!(run::<Right>(tables, &requests.concat(), &mut answers), accepted(0));
    assert_eq!(answers.split_off(requests.len()), [UNTOUCHED; SPARE]);
    assert_eq!((&answers, &*tables), (&expected, &stepped));
    answers
}

#[test]
fn user_1_releases_6_after_a_change_of_roles() {
    let roles = request(1, CURRENT_ROLES, &[], &[], [1, 5, 0]);
    let release = request(1, RELEASE, &[6], &[], [0; 3]);
    assert_eq!(answers(&mut s1(), &[roles.clone(), release.clone()]), [0, 0]);
    let mut tables = s1();
    // The refusal in front is an answer like any other, and its notice stays.
    assert_eq!(answers(&mut tables, &[release.clone(), roles, release]), [12, 0, 0]);
    let released = [entity::TYPE, entity::RELEASER].map(|word| entity_word(&tables, 6, word));
    assert_eq!((released, notice(&tables, 1)), ([2, 1], [12, RELEASE, 1]));
}

#[test]
fn the_first_refusal_is_held_over_a_run() {
    let refused = [show(2, &[4, 1], VALUE_AND_LABEL), show(2, &[5], 1)];
    let acknowledged = [acknowledge(2, 9, 1), acknowledge(2, 9, 3)];
    let mut tables = s1();
    assert_eq!(answers(&mut tables, &[&refused[..], &acknowledged].concat()), [9, 15, 16, 0]);
    assert_eq!(tables, s1());
    // In two runs, of which the second finds the notice that the first has left.
    assert_eq!(answers(&mut tables, &refused), [9, 15]);
    assert_eq!(notice(&tables, 2), [9, SHOW, 2]);
    assert_eq!(answers(&mut tables, &acknowledged), [16, 0]);
    assert_eq!(tables, s1());
}

/// S1 with one word changed: no longer well-formed, and no longer secure.
fn bad_tables() -> [(Tables, u32); 2] {
    let with = |word: usize, value: u32| {
        let mut tables = s1();
        tables[word] = value;
        tables
    };
    [
        (with(user_base(3) + user::SPARE, 1), refusal::NOT_WELL_FORMED),
        (with(entity_base(2) + entity::MAXIMUM, 256), refusal::NOT_SECURE),
    ]
}

#[test]
fn bad_tables_answer_every_request() {
    let requests = [show(2, &[5], VALUE_AND_LABEL), show(9, &[5], 3), vec![u32::MAX; REQUEST_WORDS], show(2, &[5], 1)];
    for (bad, refusal) in bad_tables() {
        let mut tables = bad.clone();
        assert_eq!(check::<Right>(&tables).answer, refusal);
        assert_eq!(answers(&mut tables, &requests), [refusal; 4]);
        assert_eq!(tables, bad);
    }
}

#[test]
fn no_request_writes_nothing() {
    let all = bad_tables().map(|(tables, _)| tables).into_iter().chain([s1(), vec![u32::MAX; TABLE_WORDS]]);
    for tables in all {
        let mut lent = tables.clone();
        let mut places = [UNTOUCHED; 2];
        assert_eq!(run::<Right>(&mut lent, &[], &mut places), accepted(0));
        assert_eq!(run::<Right>(&mut lent, &[], &mut []), accepted(0));
        assert_eq!((lent, places), (tables, [UNTOUCHED; 2]));
    }
}

/// Runs slices of these lengths, which are refused with 1 and left as they are; the tables are good as far as they go.
fn refuse(words: usize, requests: usize, places: usize) {
    let mut tables = s1();
    tables.resize(words, 0);
    let mut requests_lent = show(2, &[5], VALUE_AND_LABEL).repeat(3);
    requests_lent.resize(requests, 0);
    let (mut lent, mut answers) = (tables.clone(), vec![UNTOUCHED; places]);
    assert_eq!(run::<Right>(&mut lent, &requests_lent, &mut answers), REFUSED, "{words}, {requests}, {places}");
    assert_eq!((lent, answers), (tables, vec![UNTOUCHED; places]));
}

#[test]
fn lengths_must_go_together() {
    for words in [0, 1, TABLE_WORDS - 1, TABLE_WORDS + 1, 2 * TABLE_WORDS] {
        refuse(words, 2 * REQUEST_WORDS, 2);
        refuse(words, 0, 0);
    }
    for requests in [1, REQUEST_WORDS - 1, REQUEST_WORDS + 1, 3 * REQUEST_WORDS - 1] {
        refuse(TABLE_WORDS, requests, 9);
    }
    for (requests, places) in [(1, 0), (2, 0), (2, 1), (3, 2)] {
        refuse(TABLE_WORDS, requests * REQUEST_WORDS, places);
    }
    // Bad tables are not looked at where there are too few places.
    let (mut bad, _) = bad_tables()[0].clone();
    assert_eq!(run::<Right>(&mut bad, &[0; REQUEST_WORDS], &mut []), REFUSED);
}

/// Good tables, and requests each of which is made with the tables in view that those before it leave.
fn history(dice: &mut Dice, count: usize) -> (Tables, Vec<Vec<u32>>) {
    let tables = generate::tables(dice);
    let mut now = tables.clone();
    let mut next = |_| {
        let request = generate::request(dice, &now).to_vec();
        step::<Right>(&mut now, &request);
        request
    };
    let requests = (0..count).map(&mut next).collect();
    (tables, requests)
}

#[test]
fn a_run_is_its_steps_however_it_is_cut() {
    for number in 1..=20 {
        let mut dice = dice_for(1, number);
        let (tables, requests) = history(&mut dice, 200);
        let mut whole = tables.clone();
        let expected = answers(&mut whole, &requests);
        let (mut cut, mut given, mut rest) = (tables, Vec::new(), &requests[..]);
        while !rest.is_empty() {
            let (piece, behind) = rest.split_at(dice.below(rest.len().min(40) as u32 + 1) as usize);
            given.extend(answers(&mut cut, piece));
            rest = behind;
        }
        assert_eq!((given, cut), (expected, whole));
    }
}
