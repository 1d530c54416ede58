//! What document 01, as request M-101 has changed it, says of case state S1 in several requests, each time asked of both desks in one run.
use crate::outcome::{Out, Outcome};
use crate::side::Side;
use crate::tables::s1::{acknowledge, current_roles_of_1, level_of_7, release_6, show, Words};
use generate::layout::{entity, entity_base, op, types, user, user_base};
use generate::s1;
use ordinary::{Reply, Right};

/// What stands in a place before a run.
const UNTOUCHED: u32 = 77;

/// Requests to S1 in one run, their answers, and words of the tables behind it.
struct Case {
    what: &'static str,
    requests: Vec<Words>,
    answers: Vec<u32>,
    left: Vec<(usize, u32)>,
}

/// A word of a user, and what it must be.
fn of_user(number: u32, word: usize, wanted: u32) -> (usize, u32) {
    (user_base(number) + word, wanted)
}

/// User 2's notice must be this.
fn notice(held: u32, operation: u32, missed: u32) -> Vec<(usize, u32)> {
    vec![of_user(2, user::HELD, held), of_user(2, user::HELD_OPERATION, operation), of_user(2, user::MISSED, missed)]
}

/// 6 must be released by user 1, who has this held.
fn released(held: u32) -> Vec<(usize, u32)> {
    let base = entity_base(6);
    vec![(base + entity::TYPE, types::RELEASED), (base + entity::RELEASER, 1), of_user(1, user::HELD, held)]
}

/// 7 must have this level, and user 1 two drops of it refused.
fn dropped(level: u32) -> Vec<(usize, u32)> {
    let of_7 = (entity_base(7) + entity::LEVEL, level);
    vec![of_7, of_user(1, user::HELD, 12), of_user(1, user::HELD_OPERATION, op::SET_LEVEL), of_user(1, user::MISSED, 2)]
}

/// All of them.
fn cases() -> Vec<Case> {
    let (marked, unlabelled) = (show(2, &[4, 1], 3), show(2, &[5], 1));
    let (roles, downgrader) = (current_roles_of_1(5), current_roles_of_1(3));
    let (lower, sideways) = (level_of_7(0), level_of_7(1));
    let case = |what, requests, answers, left| Case { what, requests, answers, left };
    vec![
        case("no request", vec![], vec![], notice(0, 0, 0)),
        case("release after current roles 5", vec![roles, release_6()], vec![0, 0], released(0)),
        case("release, and again after", vec![release_6(), roles, release_6()], vec![12, 0, 0], released(12)),
        case("levels that drop", vec![lower, sideways], vec![12, 12], dropped(256)),
        case(
            "levels that drop, and again after current roles 3",
            vec![lower, sideways, downgrader, sideways],
            vec![12, 12, 0, 0],
            dropped(1),
        ),
        case("9, then 15", vec![marked, unlabelled], vec![9, 15], notice(9, op::SHOW, 2)),
        case(
            "9, then 15, acknowledged as 9,1",
            vec![marked, unlabelled, acknowledge(9, 1)],
            vec![9, 15, 16],
            notice(9, op::SHOW, 3),
        ),
        case(
            "9, then 15, acknowledged as 9,1 and 9,3",
            vec![marked, unlabelled, acknowledge(9, 1), acknowledge(9, 3)],
            vec![9, 15, 16, 0],
            notice(0, 0, 0),
        ),
        case("the script", vec![marked, show(2, &[5], 3)], vec![9, 0], notice(9, op::SHOW, 1)),
    ]
}

impl Case {
    /// Does a side answer this case as it must, and leave what it must, also in a place to spare?
    fn holds(&self, side: Side) -> bool {
        let mut tables = s1();
        let mut places = vec![UNTOUCHED; self.answers.len() + 1];
        let reply = side.run(&mut tables, &self.requests.concat(), &mut places);
        reply == Reply { answer: 0, number: 0 }
            && places == [&self.answers[..], &[UNTOUCHED]].concat()
            && self.left.iter().all(|&(word, wanted)| tables[word] == wanted)
    }
}

/// Asks both desks for everything.
pub fn run(out: Out) -> Outcome {
    let mut outcome = Outcome::default();
    let cases = cases();
    for side in [Side::Ordinary(&Right), Side::Proved] {
        let wrong: Vec<&Case> = cases.iter().filter(|case| !case.holds(side)).collect();
        for case in &wrong {
            let line = format!("{}: run, {}: not as it must be", side.name(), case.what);
            out.line(format_args!("{}", line));
            outcome.first.get_or_insert(line);
            outcome.differences += 1;
        }
        out.line(format_args!("s1, {}: {} runs asked, {} wrong", side.name(), cases.len(), wrong.len()));
    }
    outcome
}
