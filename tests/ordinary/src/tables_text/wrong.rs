//! Texts of tables as they are written and read wrong; the right desk goes past all of it.

use super::Field;
use crate::refusal::{Refusal, Reply};
use crate::tables::{entity_words, entity_words_mut, user_words, user_words_mut, Entity, User};
use crate::words::*;
use crate::Rules;

/// Whether a number passes for one that a line may have.
pub fn passes<R: Rules>(field: &Field, number: u32) -> bool {
    R::KINDS && field.word == entity::KIND || R::NINTH && field.word == entity::USED && number == PLACES as u32 + 1
}

/// Where a user 17 would stand: in the words of the first entity.
pub fn user_17(tables: &mut Tables) -> &mut UserWords {
    (&mut tables[FIRST_ENTITY_WORD..][..USER_WORDS]).try_into().expect("a user's words")
}

/// What is answered at a bad line, and what is left of what was read.
pub fn at_bad_line<R: Rules>(line: u32, read: &Tables, tables: &mut Tables) -> Reply {
    if R::SPILLS {
        *tables = *read;
    }
    let is_too_high = |entity| entity_words(read, entity)[entity::LEVEL] > LEVEL_MOST;
    if R::HASTY && Entity::all().any(is_too_high) {
        return Reply::to(Err(Refusal::NotWellFormed));
    }
    Refusal::NotARequest.with(line)
}

/// Writes the records that were read, and leaves the others as they are.
pub fn leave_absent(read: &Tables, tables: &mut Tables) {
    for user in User::all().filter(|user| user_words(read, *user)[user::PRESENT] != 0) {
        *user_words_mut(tables, user) = *user_words(read, user);
    }
    for entity in Entity::all().filter(|entity| entity_words(read, *entity)[entity::KIND] != kind::ABSENT) {
        *entity_words_mut(tables, entity) = *entity_words(read, entity);
    }
}
