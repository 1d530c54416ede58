//! Writing the tables' text [rule 16.4].

use super::{Field, CONTENT, ENTITY, OF_ENTITY, OF_USER, TRIPLE, TRIPLES, USER};
use crate::access;
use crate::check;
use crate::refusal::{Refusal, Reply};
use crate::tables::{entity_words, user_words, Entity, User};
use crate::text::{BASE, DOT, END_OF_LINE, ZERO};
use crate::words::*;
use crate::Rules;

/// Bytes of the longest text: sixteen users on as many devices, each of which shows eight, and 48 released containers, one in another; every
/// number but eight of those of entities has as many digits as it can have.
const TEXT_MOST: usize = 17_721;
/// Enough for what a wrong desk makes of any words.
const WRONG_MOST: usize = 40_000;

/// Writes well-formed tables, secure or not, into a room that is long enough; else leaves the room as it is.
pub fn whole<R: Rules>(tables: &Tables, room: &mut [u8]) -> Reply {
    match judged::<R>(tables) {
        Err(refusal) if !R::NEEDS => Reply::to(Err(refusal)),
        judged if R::NEEDS || R::ANYHOW || R::GAPS => made::<R, WRONG_MOST>(tables, judged, room),
        judged => made::<R, TEXT_MOST>(tables, judged, room),
    }
}

/// Makes the text, and puts it into the room.
fn made<R: Rules, const MOST: usize>(tables: &Tables, judged: Result<(), Refusal>, room: &mut [u8]) -> Reply {
    let mut text = Text { bytes: [0; MOST], length: 0 };
    text.records::<R>(tables);
    text.put::<R>(judged, room)
}

/// Whether tables have a text.
fn judged<R: Rules>(tables: &Tables) -> Result<(), Refusal> {
    match () {
        _ if R::ANYHOW => Ok(()),
        _ if R::SECURE => check::judge::<R>(tables),
        _ => Refusal::NotWellFormed.unless(check::is_well_formed(tables)),
    }
}

/// A text in the making. It has bytes of its own, so that the room stays as it is until the need is known.
struct Text<const MOST: usize> {
    bytes: [u8; MOST],
    length: usize,
}

impl<const MOST: usize> Text<MOST> {
    /// All records of tables: users by number, and then entities by number.
    fn records<R: Rules>(&mut self, tables: &Tables) {
        if R::TURNED {
            self.entities::<R>(tables);
        }
        for user in User::all() {
            let words = user_words(tables, user);
            if words[user::PRESENT] != 0 || R::ABSENT {
                self.user::<R>(user, words);
            }
        }
        if !R::TURNED {
            self.entities::<R>(tables);
        }
    }

    /// Puts the text into a room that is long enough.
    fn put<R: Rules>(&self, judged: Result<(), Refusal>, room: &mut [u8]) -> Reply {
        let need = self.length;
        if room.len() + usize::from(R::SCANT) < need {
            if R::PARTLY {
                room.copy_from_slice(&self.bytes[..room.len()]);
            }
            return Refusal::TooShort.with(need as u32);
        }
        if let Err(refusal) = judged {
            return Reply::to(Err(refusal));
        }
        let written = need.min(room.len());
        room[..written].copy_from_slice(&self.bytes[..written]);
        if R::CLEARS {
            room[written..].fill(0);
        }
        Reply::to(Ok(need as u32))
    }

    /// All entities that are present.
    fn entities<R: Rules>(&mut self, tables: &Tables) {
        for entity in Entity::all() {
            let words = entity_words(tables, entity);
            if words[entity::KIND] != kind::ABSENT || R::ABSENT {
                self.entity::<R>(entity, words);
            }
        }
    }

    /// The record of a user.
    fn user<R: Rules>(&mut self, user: User, words: &UserWords) {
        self.start::<R>(USER, user.number());
        self.fields::<R>(&OF_USER, words);
    }

    /// The record of an entity. In tables that are not well-formed more places may be said to be used than there are.
    fn entity<R: Rules>(&mut self, entity: Entity, words: &EntityWords) {
        self.start::<R>(ENTITY, entity.number());
        self.fields::<R>(&OF_ENTITY, words);
        let used = PLACES.min(words[entity::USED] as usize);
        for (content, sum) in words[entity::CONTENTS].iter().zip(&words[entity::SHOWN]).take(used) {
            let parts = [*content, if R::UNSHOWN { 0 } else { *sum }];
            self.line(CONTENT, if R::SUMS { &parts[..1] } else { &parts });
        }
        let triples = &words[entity::TRIPLES];
        let count = triples.iter().position(|triple| *triple == 0).unwrap_or(PLACES);
        self.line(TRIPLES, &[count as u32]);
        for triple in &triples[..count] {
            let [who, operation, position] = access::parts(*triple);
            let parts = if R::PARTS { [operation, who, position] } else { [who, operation, position] };
            self.line(TRIPLE, &parts);
        }
    }

    /// The line with which a record starts.
    fn start<R: Rules>(&mut self, key: &[u8], number: u32) {
        if R::GAPS && self.length > 0 {
            self.push_byte(END_OF_LINE);
        }
        self.line(key, &[number]);
    }

    /// The lines that every record of a sort has.
    fn fields<R: Rules>(&mut self, fields: &[Field], words: &[u32]) {
        for field in fields {
            let number = words[field.word];
            if number != 0 || !R::BARE {
                self.line(field.key, &[number]);
            }
        }
    }

    /// A line: the key, and then the numbers with dots between them.
    #[inline]
    fn line(&mut self, key: &[u8], numbers: &[u32]) {
        self.push(key);
        for (place, number) in numbers.iter().enumerate() {
            if place > 0 {
                self.push_byte(DOT);
            }
            self.number(*number);
        }
        self.push_byte(END_OF_LINE);
    }

    /// A number in decimal, which is put where it goes from its last digit forwards.
    #[inline]
    fn number(&mut self, number: u32) {
        let digits = digits_of(number);
        let mut rest = number;
        for byte in self.bytes[self.length..][..digits].iter_mut().rev() {
            *byte = ZERO + (rest % BASE) as u8;
            rest /= BASE;
        }
        self.length += digits;
    }

    /// Puts one byte behind what is there; there is room, since no text is longer.
    #[inline]
    fn push_byte(&mut self, byte: u8) {
        self.bytes[self.length] = byte;
        self.length += 1;
    }

    /// Puts bytes behind what is there.
    #[inline]
    fn push(&mut self, bytes: &[u8]) {
        self.bytes[self.length..][..bytes.len()].copy_from_slice(bytes);
        self.length += bytes.len();
    }
}

/// How many digits a number has.
#[inline]
fn digits_of(number: u32) -> usize {
    match number {
        0..=9 => 1,
        10..=99 => 2,
        100..=999 => 3,
        1_000..=9_999 => 4,
        10_000..=99_999 => 5,
        100_000..=999_999 => 6,
        1_000_000..=9_999_999 => 7,
        10_000_000..=99_999_999 => 8,
        100_000_000..=999_999_999 => 9,
        _ => 10,
    }
}
