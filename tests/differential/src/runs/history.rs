//! Requests to the same tables one after another, and what single steps of both desks make of them.
use crate::difference::Difference;
use crate::tables::call::Calls;
use generate::layout::{refusal, request, REQUEST_WORDS, USERS};
use generate::Dice;
use ordinary::Right;

/// In a hundred requests, so many are any words.
const ANY_WORDS: u32 = 2;

/// Tables, requests to them, and what single steps answer and leave.
pub struct History {
    pub tables: Vec<u32>,
    /// What the check says of the tables.
    pub checked: u32,
    /// The words of all requests, one request after the other.
    pub requests: Vec<u32>,
    pub answers: Vec<u32>,
    pub after: Vec<u32>,
}

impl History {
    /// Takes the steps one by one; both desks must do the same at each.
    pub fn of(steps: &mut Calls, tables: &[u32], requests: &[u32]) -> Result<History, Difference> {
        let checked = steps.check(tables)?;
        let mut after = tables.to_vec();
        let mut answers = Vec::new();
        for request in requests.chunks_exact(REQUEST_WORDS) {
            answers.push(steps.step(&after, request)?);
            after.copy_from_slice(steps.left());
        }
        Ok(History { tables: tables.to_vec(), checked, requests: requests.to_vec(), answers, after })
    }

    /// The words of the requests from one on, up to another.
    pub fn part(&self, from: usize, to: usize) -> &[u32] {
        &self.requests[from * REQUEST_WORDS..to * REQUEST_WORDS]
    }
}

/// So many requests to good tables, each made with the tables in view that those before it leave.
pub fn requests_to(dice: &mut Dice, tables: &[u32], count: usize) -> Vec<u32> {
    let mut now = tables.to_vec();
    let mut requests = Vec::new();
    for _ in 0..count {
        let request = if dice.chance(ANY_WORDS) { any_words(dice) } else { generate::request(dice, &now) };
        ordinary::advance::<Right>(&mut now, &request);
        requests.extend(request);
    }
    requests
}

/// Words chosen without looking at anything, half of them from somebody who may be there.
fn any_words(dice: &mut Dice) -> [u32; REQUEST_WORDS] {
    let mut words = [0; REQUEST_WORDS];
    generate::random_words(dice, &mut words);
    if dice.chance(50) {
        words[request::USER] = dice.between(1, USERS);
    }
    words
}

/// What the ordinary desk answers to a request from good tables, which stay.
pub fn answer_from(tables: &[u32], request: &[u32]) -> u32 {
    ordinary::advance::<Right>(&mut tables.to_vec(), request)
}

/// Is it an answer that leaves a notice?
pub fn leaves_notice(answer: u32) -> bool {
    answer >= refusal::BAD_REQUEST
}
