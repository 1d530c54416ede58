//! Tables and requests built from their words, for the tests; not every test needs all of it.
#![allow(dead_code)]

pub mod random;

use generate::layout::op::{ACKNOWLEDGE, SHOW};
use generate::layout::{entity, entity_base, request, triple, user, user_base, ENTITY_WORDS, NOTICE_WORDS};
use ordinary::{Reply, REQUEST_WORDS};

pub type Tables = Vec<u32>;

/// What show asks for where a case does not say.
pub const VALUE_AND_LABEL: u32 = 3;

/// Sets the first words of a user.
pub fn set_user(tables: &mut Tables, number: u32, words: &[u32]) {
    tables[user_base(number)..][..words.len()].copy_from_slice(words);
}

/// Sets the first words of an entity, its contents and its triples.
pub fn set_entity(tables: &mut Tables, number: u32, words: &[u32], contents: &[u32], triples: &[(u32, u32, u32)]) {
    let record = &mut tables[entity_base(number)..][..ENTITY_WORDS];
    record[..words.len()].copy_from_slice(words);
    record[entity::USED] = contents.len() as u32;
    record[entity::CONTENTS..][..contents.len()].copy_from_slice(contents);
    for (word, (who, operation, position)) in record[entity::TRIPLES..].iter_mut().zip(triples) {
        *word = triple(*who, *operation, *position);
    }
}

/// One word of an entity.
pub fn entity_word(tables: &Tables, number: u32, word: usize) -> u32 {
    tables[entity_base(number) + word]
}

/// What a user has held, with its operation, and how many refusals were missed.
pub fn notice(tables: &Tables, number: u32) -> [u32; NOTICE_WORDS] {
    let words = &tables[user_base(number) + user::HELD..][..NOTICE_WORDS];
    words.try_into().expect("the words of a notice")
}

/// A request of two references and arguments.
pub fn request(user: u32, operation: u32, first: &[u32], second: &[u32], arguments: [u32; 3]) -> Vec<u32> {
    let mut words = vec![0; REQUEST_WORDS];
    words[request::USER] = user;
    words[request::OPERATION] = operation;
    for (at, names) in [(request::FIRST, first), (request::SECOND, second)] {
        words[at] = names.len() as u32;
        words[at + 1..][..names.len()].copy_from_slice(names);
    }
    words[request::A..=request::C].copy_from_slice(&arguments);
    words
}

/// A request to show so much of what the names lead to.
pub fn show(user: u32, names: &[u32], sum: u32) -> Vec<u32> {
    request(user, SHOW, names, &[], [sum, 0, 0])
}

/// An acknowledgement of this refusal, and of so many missed.
pub fn acknowledge(user: u32, held: u32, missed: u32) -> Vec<u32> {
    request(user, ACKNOWLEDGE, &[], &[], [held, missed, 0])
}

/// The reply to what is accepted, with this number.
pub fn accepted(number: u32) -> Reply {
    Reply { answer: 0, number }
}
