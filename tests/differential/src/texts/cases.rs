//! Requests to write as text: words that have one, and words that have none [rule 11.3].

use generate::layout::{request, NAMES, REQUEST_WORDS};
use generate::Dice;

pub type Words = [u32; REQUEST_WORDS];

/// Digits of the largest number.
const DIGITS_MOST: u32 = 10;

/// Numbers beside which a digit comes or goes, and the largest.
const EDGES: [u32; 10] = [0, 1, 9, 10, 99, 100, 999_999_999, 1_000_000_000, u32::MAX - 1, u32::MAX];

/// 5, 6, the largest, and others that are 0 to 4 where only a part of the word is looked at.
const BAD_LENGTHS: [u32; 13] =
    [5, 6, 8, 16, 255, 256, 260, 65_536, 65_540, 1 << 31, (1 << 31) + 4, u32::MAX - 1, u32::MAX];

/// As many digits as the dice say, or a number at an edge.
fn number(dice: &mut Dice) -> u32 {
    if dice.chance(30) {
        return dice.one_of(&EDGES);
    }
    match dice.below(DIGITS_MOST) {
        0 => dice.below(10),
        zeros => {
            let least = 10_u32.pow(zeros);
            dice.between(least, least.saturating_mul(10).max(least) - 1)
        }
    }
}

/// The words whose text is the shortest that there is.
pub fn shortest() -> Words {
    [0; REQUEST_WORDS]
}

/// The words whose text is the longest that there is.
pub fn longest() -> Words {
    let mut words = [u32::MAX; REQUEST_WORDS];
    words[request::FIRST] = NAMES;
    words[request::SECOND] = NAMES;
    words[request::SPARE] = 0;
    words
}

/// Words that have a text, with numbers of every length in them.
pub fn good(dice: &mut Dice) -> Words {
    let mut words = longest();
    words[..request::SPARE].iter_mut().for_each(|word| *word = number(dice));
    for at in [request::FIRST, request::SECOND] {
        let names = dice.below(NAMES + 1);
        words[at] = names;
        words[at + 1 + names as usize..=at + NAMES as usize].fill(0);
    }
    words
}

/// Words that have none, for one reason or for several.
pub fn bad(dice: &mut Dice) -> Words {
    let mut words = good(dice);
    let at = dice.one_of(&[request::FIRST, request::SECOND]);
    match dice.below(5) {
        0 => words[request::SPARE] = not_zero(dice),
        1 => words[at] = dice.one_of(&BAD_LENGTHS),
        2 => name_behind(dice, &mut words, at),
        3 => {
            words[request::SPARE] = not_zero(dice);
            name_behind(dice, &mut words, at);
        }
        _ => generate::random_words(dice, &mut words),
    }
    words
}

/// A name word behind the length of the reference that starts here.
fn name_behind(dice: &mut Dice, words: &mut Words, at: usize) {
    words[at] = dice.below(NAMES);
    let name = dice.between(words[at] + 1, NAMES);
    words[at + name as usize] = not_zero(dice);
}

/// Any number but 0.
fn not_zero(dice: &mut Dice) -> u32 {
    match number(dice) {
        0 => 1 << dice.below(u32::BITS),
        number => number,
    }
}
