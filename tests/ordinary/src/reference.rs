//! Following a reference name by name: rung 7, and what rung 9 asks of the way [rules 5.2, 5.3, 7.7, 7.9].

use crate::level::Level;
use crate::refusal::Refusal;
use crate::tables::*;
use crate::words::*;
use crate::Rules;

/// Where a reference leads, and whether a mark on the way there bars the user from it.
pub struct Found {
    pub entity: Entity,
    pub barred: bool,
}

/// Follows the reference that starts at that word of a request whose form fits.
pub fn follow<R: Rules>(tables: &Tables, request: &Request, at: usize, clearance: Level) -> Result<Found, Refusal> {
    let names = &request[at + 1..][..request[at] as usize];
    let (first, places) = names.split_first().ok_or(Refusal::NoSuchName)?;
    let mut entity = Entity::present(tables, *first).ok_or(Refusal::NoSuchName)?;
    let mut barred = false;
    for place in places {
        let words = entity_words(tables, entity);
        barred |= bars::<R>(words, clearance);
        entity = at_place(words, *place).ok_or(Refusal::NoSuchName)?;
    }
    if R::MARK {
        barred = bars::<R>(entity_words(tables, entity), clearance);
    }
    Ok(Found { entity, barred })
}

/// What stands in a used place.
fn at_place(words: &EntityWords, place: u32) -> Option<Entity> {
    let places = &words[entity::CONTENTS][..words[entity::USED] as usize];
    // Place 0 wraps to a place far beyond the last.
    places.get(place.wrapping_sub(1) as usize).and_then(|number| Entity::new(*number))
}

/// Whether an entity is marked and above the clearance, so that nobody of that clearance may pass through it.
pub fn bars<R: Rules>(words: &EntityWords, clearance: Level) -> bool {
    words[entity::MARK] != 0 && !Level(words[entity::LEVEL]).at_most::<R>(clearance)
}
