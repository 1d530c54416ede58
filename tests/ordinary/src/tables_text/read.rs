//! Reading the tables' text [rule 16.5].

use super::place::Place;
use super::{wrong, Field, CONTENT, ENTITY, OF_ENTITY, OF_USER, TRIPLE, TRIPLES, USER};
use crate::access;
use crate::check;
use crate::refusal::{Refusal, Reply};
use crate::tables::{entity_words_mut, user_words_mut, Entity, User};
use crate::text::{DOT, END_OF_LINE};
use crate::words::*;
use crate::Rules;

/// The most that fits into the part of a triple's word that has who, and into those that have operation and position.
const WHO_FITS: u32 = 0xffff;
const PART_FITS: u32 = 0xff;

/// Reads a text to its end, and only then looks at the tables that it gives. The lent ones are written only with 0.
pub fn whole<R: Rules>(text: &[u8], tables: &mut Tables) -> Reply {
    let mut read = [0; TABLE_WORDS];
    let mut lines = Lines { place: Place { rest: text }, good: 0 };
    if lines.records::<R>(&mut read).is_none() {
        return wrong::at_bad_line::<R>(lines.good + 1, &read, tables);
    }
    let judged = judged::<R>(&read);
    match judged {
        Ok(()) if R::STALE => wrong::leave_absent(&read, tables),
        Err(_) if !R::KEEPS => (),
        _ => *tables = read,
    }
    Reply::to(judged.map(|()| 0))
}

/// Whether these are tables.
fn judged<R: Rules>(tables: &Tables) -> Result<(), Refusal> {
    match () {
        _ if R::ALLOWS => Ok(()),
        _ if R::STRICT => check::judge::<R>(tables),
        _ => Refusal::NotWellFormed.unless(check::is_well_formed(tables)),
    }
}

/// The lines of a text: those that are still to be read, and how many were good.
struct Lines<'a> {
    place: Place<'a>,
    good: u32,
}

impl Lines<'_> {
    /// Reads all records. A user may come as long as no entity has.
    fn records<R: Rules>(&mut self, tables: &mut Tables) -> Option<()> {
        let (mut user, mut entity) = (0, 0);
        while !self.are_over::<R>() {
            if self.place.rest.starts_with(USER) && (entity == 0 || R::AGAIN) {
                user = self.user::<R>(user, tables)?;
            } else {
                entity = self.entity::<R>(entity, tables)?;
            }
        }
        Some(())
    }

    /// Whether nothing is left to be read.
    fn are_over<R: Rules>(&self) -> bool {
        self.place.rest.is_empty() || R::MORE && self.place.rest == [END_OF_LINE]
    }

    /// Reads a user with a higher number than the last, and gives the number.
    fn user<R: Rules>(&mut self, last: u32, tables: &mut Tables) -> Option<u32> {
        let rises = |number| number > last || R::MIXED;
        let number =
            self.number::<R>(USER, |number| rises(number) && User::new(number).is_some() || R::BEYOND && number == 17)?;
        let words = match User::new(number) {
            Some(user) => user_words_mut(tables, user),
            None => wrong::user_17(tables),
        };
        words[user::PRESENT] = 1;
        self.fields::<R>(&OF_USER, words)?;
        Some(number)
    }

    /// Reads an entity with a higher number than the last, and gives the number.
    fn entity<R: Rules>(&mut self, last: u32, tables: &mut Tables) -> Option<u32> {
        let rises = |number| number > last || R::FALLS;
        let number = self.number::<R>(ENTITY, |number| rises(number) && Entity::new(number).is_some())?;
        let words = entity_words_mut(tables, Entity::new(number)?);
        self.fields::<R>(&OF_ENTITY, words)?;
        for place in 0..words[entity::USED] as usize {
            let [content, sum] = self.place::<R>()?;
            words[entity::CONTENTS.start + place] = content;
            words[entity::SHOWN.start + place] = if R::UNSEEN { 0 } else { sum };
        }
        let count = self.number::<R>(TRIPLES, |number| number <= PLACES as u32)?;
        let triples = &mut words[entity::TRIPLES];
        if R::TALLY {
            return triples.iter_mut().try_for_each(|triple| self.perhaps::<R>(triple)).map(|()| number);
        }
        for triple in &mut triples[..count as usize] {
            *triple = self.triple::<R>()?;
        }
        Some(number)
    }

    /// Reads the lines that every record of a sort has.
    fn fields<R: Rules>(&mut self, fields: &[Field], words: &mut [u32]) -> Option<()> {
        for field in fields {
            words[field.word] = self.number::<R>(field.key, |number| {
                field.numbers.contains(&number) || wrong::passes::<R>(field, number)
            })?;
        }
        Some(())
    }

    /// Reads a line with a number that will do.
    #[inline]
    fn number<R: Rules>(&mut self, key: &[u8], will_do: impl FnOnce(u32) -> bool) -> Option<u32> {
        self.line::<R, _>(key, |place| place.number::<R>().filter(|number| will_do(*number)))
    }

    /// Reads the line of a place: the entity and the shown sum.
    fn place<R: Rules>(&mut self) -> Option<[u32; 2]> {
        self.line::<R, _>(CONTENT, |place| Some([place.number::<R>()?, part::<R>(place)?]))
    }

    /// Reads the line of a triple that has who, operation and position in their ranges and is not all 0.
    fn triple<R: Rules>(&mut self) -> Option<u32> {
        self.line::<R, _>(TRIPLE, |place| {
            let [who, operation, position] = [place.number::<R>()?, part::<R>(place)?, part::<R>(place)?];
            let fits = who <= WHO_FITS + u32::from(R::WIDE)
                && operation <= PART_FITS + u32::from(R::CARRY)
                && position <= PART_FITS + u32::from(R::FAR)
                && (who | operation | position != 0 || R::NIL);
            fits.then(|| access::triple(who, operation, position))
        })
    }

    /// Reads a triple if one comes next.
    fn perhaps<R: Rules>(&mut self, triple: &mut u32) -> Option<()> {
        if self.place.rest.starts_with(TRIPLE) {
            *triple = self.triple::<R>()?;
        }
        Some(())
    }

    /// Reads a line with this key. It is good where what stands behind the key can be read and ends with it.
    #[inline]
    fn line<R: Rules, V>(&mut self, key: &[u8], value: impl FnOnce(&mut Place) -> Option<V>) -> Option<V> {
        if R::SOONER && self.place.rest.is_empty() {
            self.good -= 1;
        }
        self.place.bytes(key)?;
        let value = value(&mut self.place)?;
        self.end::<R>()?;
        self.good += 1;
        Some(value)
    }

    /// Reads the end of a line.
    #[inline]
    fn end<R: Rules>(&mut self) -> Option<()> {
        if R::RETURN {
            self.place.take(b'\r');
        }
        (self.place.take(END_OF_LINE) || R::OPEN && self.place.rest.is_empty()).then_some(())
    }
}

/// Reads a number behind a dot.
#[inline]
fn part<R: Rules>(place: &mut Place) -> Option<u32> {
    place.take(DOT).then_some(())?;
    place.number::<R>()
}
