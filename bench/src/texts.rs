//! Requests to write and their texts to read.
use crate::load::{Load, Request, TEXT_MOST};
use generate::layout::refusal::ACCEPTED;
use generate::layout::{op, request, NAMES, REQUEST_WORDS, SUM_MOST};
use generate::Dice;
use ordinary::Right;

/// Texts for each of the tables that the load would have if it had any.
const TEXTS_OF_EACH: usize = 120;
/// The smallest number of ten digits, as many as a number of 32 bits can have.
const TEN_DIGITS: u32 = 1_000_000_000;

/// A request to show something in a place of something, all numbers but the operation of one digit.
fn short(dice: &mut Dice) -> Request {
    let mut request = [0; REQUEST_WORDS];
    request[request::USER] = dice.between(1, 9);
    request[request::OPERATION] = op::SHOW;
    request[request::FIRST] = 2;
    request[request::FIRST + 1] = dice.between(1, 9);
    request[request::FIRST + 2] = dice.between(1, 8);
    request[request::A] = dice.between(1, SUM_MOST);
    request
}

/// Two references of four names, and ten digits everywhere.
fn longest(dice: &mut Dice) -> Request {
    let mut request = [0; REQUEST_WORDS];
    for word in &mut request[..request::SPARE] {
        *word = dice.between(TEN_DIGITS, u32::MAX);
    }
    request[request::FIRST] = NAMES;
    request[request::SECOND] = NAMES;
    request
}

/// The text of a request, if it has one.
pub fn text(request: &Request) -> Option<Vec<u8>> {
    let mut room = vec![0; TEXT_MOST];
    let reply = ordinary::write::<Right>(request, &mut room);
    room.truncate(reply.number as usize);
    Some(room).filter(|_| reply.answer == ACCEPTED)
}

/// These requests with their texts; those without a text are left out.
fn prepare(requests: Vec<Request>) -> Load {
    let (requests, texts) = requests.into_iter().filter_map(|request| Some((request, text(&request)?))).unzip();
    Load { requests, texts, ..Load::default() }
}

/// Texts of 39 bytes, as many as S1's request to show 4.1 has.
pub fn prepare_short(dice: &mut Dice, tables: usize) -> Load {
    prepare((0..tables * TEXTS_OF_EACH).map(|_| short(dice)).collect())
}

/// Texts as long as there are any.
pub fn prepare_longest(dice: &mut Dice, tables: usize) -> Load {
    prepare((0..tables * TEXTS_OF_EACH).map(|_| longest(dice)).collect())
}

/// Texts of requests of all operations, each thrown with some tables in view.
pub fn prepare_mixed(dice: &mut Dice, tables: usize) -> Load {
    let of_tables = |_| {
        let tables = generate::tables(dice);
        (0..TEXTS_OF_EACH).map(|_| generate::request(dice, &tables)).collect::<Vec<_>>()
    };
    prepare((0..tables).flat_map(of_tables).collect())
}

#[cfg(test)]
mod tests {
    use super::*;

    /// Texts have the lengths that are printed with their figures.
    #[test]
    fn texts_are_as_long_as_they_are_said_to_be() {
        let mut dice = Dice::new(1);
        let (short, longest) = (prepare_short(&mut dice, 2), prepare_longest(&mut dice, 2));
        assert_eq!((short.texts.len(), longest.texts.len()), (2 * TEXTS_OF_EACH, 2 * TEXTS_OF_EACH));
        assert!(short.texts.iter().all(|text| text.len() == 39));
        assert!(longest.texts.iter().all(|text| text.len() == TEXT_MOST));
    }
}
