//! Slices whose lengths don't go together: tables of another length, requests that are not whole, too few places, and all of these at once.
use super::call::Asked;
use super::history::History;
use generate::layout::{REQUEST_WORDS, TABLE_WORDS};
use generate::Dice;

/// Lengths of slices that are lent as tables, the right one among them.
const TABLE_LENGTHS: [usize; 6] = [0, 1, TABLE_WORDS - 1, TABLE_WORDS, TABLE_WORDS + 1, 2 * TABLE_WORDS];
/// Whole requests at most, so that places can be too few in several ways.
const REQUESTS_MOST: u32 = 6;

/// Slices for a run that is to be refused.
pub struct Odd {
    tables: Vec<u32>,
    requests: Vec<u32>,
    places: usize,
}

impl Odd {
    /// What to ask.
    pub fn asked(&self) -> Asked<'_> {
        Asked { tables: &self.tables, requests: &self.requests, places: self.places }
    }
}

/// Every way in which lengths don't go together, with some of the requests of a history, or none.
pub fn all(dice: &mut Dice, history: &History) -> Vec<Odd> {
    let most = REQUESTS_MOST.min(history.answers.len() as u32);
    let count = dice.below(most + 1) as usize;
    let rests = [0, 1, dice.between(2, REQUEST_WORDS as u32 - 2) as usize, REQUEST_WORDS - 1];
    let places = [0, count.saturating_sub(1), count, count + 1 + dice.below(3) as usize];
    let mut all = Vec::new();
    for words in TABLE_LENGTHS {
        all.extend(
            rests.iter().flat_map(|&rest| places.map(|places| odd(dice, history, [words, count, rest, places]))),
        );
    }
    all.retain(|odd| odd.asked().wrong_lengths().contains(&true));
    all
}

/// Tables of so many words, so many requests and the beginning of one more, and so many places. What is too long goes on as good words do.
fn odd(dice: &mut Dice, history: &History, [words, count, rest, places]: [usize; 4]) -> Odd {
    let mut tables = [&history.tables[..], &history.after].concat();
    tables.truncate(words);
    if words >= TABLE_WORDS && dice.chance(20) {
        generate::damage(dice, &mut tables[..TABLE_WORDS]);
    }
    let mut requests = [history.part(0, count), history.part(0, 1)].concat();
    requests.truncate(count * REQUEST_WORDS + rest);
    Odd { tables, requests, places }
}
