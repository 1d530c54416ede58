//! The tables as text: for each record that is present a line with its number, and then its words by their keys
//! [rules 16.1, 16.2].

mod place;
pub mod read;
pub mod write;
mod wrong;

use crate::words::{entity, user, PLACES};
use std::ops::RangeInclusive;

/// A line with one number: its key with the equals sign, the word of its record, and the numbers that it may have.
struct Field {
    key: &'static [u8],
    word: usize,
    numbers: RangeInclusive<u32>,
}

/// A line with any number.
const fn any(key: &'static [u8], word: usize) -> Field {
    Field { key, word, numbers: 0..=u32::MAX }
}

/// The lines with which a record starts.
const USER: &[u8] = b"user=";
const ENTITY: &[u8] = b"entity=";

/// A user's lines behind the number.
static OF_USER: [Field; 7] = [
    any(b"clearance=", user::CLEARANCE),
    any(b"authorised=", user::AUTHORISED),
    any(b"current=", user::CURRENT),
    any(b"device=", user::DEVICE),
    any(b"held=", user::HELD),
    any(b"operation=", user::HELD_OPERATION),
    any(b"missed=", user::MISSED),
];

/// An entity's lines behind the number, up to how many places are used.
static OF_ENTITY: [Field; 8] = [
    Field { key: b"kind=", word: entity::KIND, numbers: 1..=u32::MAX },
    any(b"type=", entity::TYPE),
    any(b"level=", entity::LEVEL),
    any(b"mark=", entity::MARK),
    any(b"value=", entity::VALUE),
    any(b"releaser=", entity::RELEASER),
    any(b"maximum=", entity::MAXIMUM),
    Field { key: b"places=", word: entity::USED, numbers: 0..=PLACES as u32 },
];

/// One for each place that is used: the entity in it and the shown sum.
const CONTENT: &[u8] = b"content=";
/// How many triples there are, and one line for each: who, operation and position.
const TRIPLES: &[u8] = b"triples=";
const TRIPLE: &[u8] = b"triple=";
