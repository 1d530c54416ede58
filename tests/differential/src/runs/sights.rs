//! What must be seen of the runs: an answer to a request says nothing of it.
use super::call::Asked;
use super::history::{answer_from, leaves_notice, History};
use generate::layout::{op, refusal, request, user, MISSED_MOST, REQUEST_WORDS, TABLE_WORDS, USERS};
use generate::view::user_record;

/// A run that left what single steps left.
pub struct Ran<'a> {
    pub history: &'a History,
    pub places: usize,
}

impl Ran<'_> {
    /// How many requests.
    fn count(&self) -> usize {
        self.history.answers.len()
    }

    /// Did it have so many requests, to tables of which the check says this?
    fn is_of(&self, count: usize, checked: u32) -> bool {
        self.count() == count && self.history.checked == checked
    }

    /// Were there several requests, to tables of which the check says this?
    fn is_of_several(&self, checked: u32) -> bool {
        self.count() > 1 && self.history.checked == checked
    }

    /// The requests with their answers.
    fn turns(&self) -> impl Iterator<Item = (&[u32], u32)> {
        self.history.requests.chunks_exact(REQUEST_WORDS).zip(self.history.answers.iter().copied())
    }

    /// Was a request answered so, and would the tables at the start have answered it otherwise, accepted or refused?
    fn depends_on_those_before(&self, accepted: bool) -> bool {
        let is_accepted = |answer: u32| answer == refusal::ACCEPTED;
        self.history.checked == refusal::ACCEPTED
            && self.turns().any(|(request, answer)| {
                is_accepted(answer) == accepted && is_accepted(answer_from(&self.history.tables, request)) != accepted
            })
    }

    /// Was somebody refused who had something held before, and has the same held behind?
    fn keeps_notice(&self) -> bool {
        (1..=USERS).any(|number| {
            let [before, after] = [&self.history.tables, &self.history.after].map(|tables| user_record(tables, number));
            before[user::HELD] != 0
                && after[user::HELD_OPERATION] == before[user::HELD_OPERATION]
                && after[user::HELD] == before[user::HELD]
                && after[user::MISSED] > before[user::MISSED]
        })
    }

    /// Was somebody refused in the run, and did the same user then acknowledge it in the run?
    fn acknowledges_own(&self) -> bool {
        let mut refused = [false; USERS as usize + 1];
        self.turns().any(|(request, answer)| {
            // Somebody who is not there is answered 4, which is neither.
            let number = request[request::USER] as usize;
            if leaves_notice(answer) {
                refused[number] = true;
            }
            answer == refusal::ACCEPTED && request[request::OPERATION] == op::ACKNOWLEDGE && refused[number]
        })
    }

    /// Was somebody refused who had missed the most there are already?
    fn misses_no_more(&self) -> bool {
        self.turns().any(|(request, answer)| {
            leaves_notice(answer)
                && user_record(&self.history.tables, request[request::USER])[user::MISSED] == MISSED_MOST
        })
    }

    /// Was a request accepted behind one that was refused?
    fn goes_on(&self) -> bool {
        let first = self.history.answers.iter().position(|&answer| answer != refusal::ACCEPTED);
        first.map_or(false, |first| self.history.answers[first..].contains(&refusal::ACCEPTED))
    }
}

/// Something that must be seen of a run that is gone through, or of one that is refused: its name, and how to know it.
type OfRun = (&'static str, fn(&Ran) -> bool);
type OfRefused = (&'static str, fn(&Asked) -> bool);

/// Of runs that are gone through.
pub const OF_RUNS: [OfRun; 15] = [
    ("no request to good tables", |r| r.is_of(0, refusal::ACCEPTED)),
    ("no request to tables that are not well-formed", |r| r.is_of(0, refusal::NOT_WELL_FORMED)),
    ("no request to tables that are not secure", |r| r.is_of(0, refusal::NOT_SECURE)),
    ("one request to good tables", |r| r.is_of(1, refusal::ACCEPTED)),
    ("10,000 requests to good tables", |r| r.is_of(super::LONGEST, refusal::ACCEPTED)),
    ("several requests to tables that are not well-formed", |r| r.is_of_several(refusal::NOT_WELL_FORMED)),
    ("several requests to tables that are not secure", |r| r.is_of_several(refusal::NOT_SECURE)),
    ("as many places as requests", |r| r.count() > 1 && r.places == r.count()),
    ("places to spare", |r| r.count() > 1 && r.places > r.count()),
    ("a request accepted behind one that is refused", |r| r.goes_on()),
    ("a request accepted that the tables at the start would refuse", |r| r.depends_on_those_before(true)),
    ("a request refused that the tables at the start would accept", |r| r.depends_on_those_before(false)),
    ("a notice held before and behind, and more missed", |r| r.keeps_notice()),
    ("a notice left in the run, and acknowledged in it", |r| r.acknowledges_own()),
    ("a refusal where the most are missed already", |r| r.misses_no_more()),
];

/// Of runs that are refused.
pub const OF_REFUSED: [OfRefused; 12] = [
    ("no words of tables alone", |a| only(a, 0) && a.tables.is_empty()),
    ("one word of tables too few alone", |a| only(a, 0) && a.tables.len() + 1 == TABLE_WORDS),
    ("one word of tables too many alone", |a| only(a, 0) && a.tables.len() == TABLE_WORDS + 1),
    ("tables of another length, and no request", |a| only(a, 0) && a.requests.is_empty()),
    ("one word behind the requests alone", |a| only(a, 1) && a.requests.len() % REQUEST_WORDS == 1),
    ("one word of the requests too few alone", |a| only(a, 1) && (a.requests.len() + 1) % REQUEST_WORDS == 0),
    ("less than one request alone", |a| only(a, 1) && a.requests.len() < REQUEST_WORDS),
    ("one place too few alone", |a| only(a, 2) && a.places + 1 == a.count()),
    ("several places too few alone", |a| only(a, 2) && a.places + 1 < a.count()),
    ("no place alone", |a| only(a, 2) && a.places == 0),
    ("one request and no place", |a| only(a, 2) && a.count() == 1),
    ("all three wrong", |a| a.wrong_lengths() == [true; 3]),
];

/// Is this the only length that is wrong?
fn only(asked: &Asked, which: usize) -> bool {
    let mut wrong = [false; 3];
    wrong[which] = true;
    asked.wrong_lengths() == wrong
}
