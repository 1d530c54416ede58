//! Triples and roles: what a requester may do.

use crate::tables::*;
use crate::words::*;
use crate::Rules;

/// The roles that a user acts with [rule 5.6].
pub fn roles<R: Rules>(tables: &Tables, user: User) -> u32 {
    let words = user_words(tables, user);
    words[if R::ROLES { user::AUTHORISED } else { user::CURRENT }]
}

/// Whether one set of roles is within another, which then has all its bits [rule 1.3].
#[inline]
pub fn is_within(roles: u32, others: u32) -> bool {
    roles & !others == 0
}

/// Everybody whom a user counts as: one bit for each number that a triple can name.
#[derive(Clone, Copy)]
pub struct Whos(u32);

impl Whos {
    /// The user, and each of the roles that the user acts with.
    pub fn of<R: Rules>(tables: &Tables, user: User) -> Whos {
        Whos(1 << user.number() | roles::<R>(tables, user) << (USERS + 1))
    }

    /// Whether one of the entity's triples allows the operation in that operand position [rule 7.8].
    pub fn allowed(self, words: &EntityWords, operation: u32, position: u32) -> bool {
        let wanted = triple(0, operation, position);
        let who_bits = triple(u32::from(u16::MAX), 0, 0);
        words[entity::TRIPLES].iter().any(|word| word & !who_bits == wanted && self.0 >> (word >> 16) & 1 != 0)
    }
}

/// The word of a triple [rule 2.5].
pub fn triple(who: u32, operation: u32, position: u32) -> u32 {
    who << 16 | operation << 8 | position
}

/// Who, operation and position of any word.
#[inline]
pub fn parts(triple: u32) -> [u32; 3] {
    [triple >> 16, triple >> 8 & 0xff, triple & 0xff]
}
