//! Grant and revoke: the triples of an entity.

use super::{close_up, Turn};
use crate::access::triple;
use crate::refusal::Refusal;
use crate::tables::Entity;
use crate::words::entity;

/// Puts the triple behind those the entity holds, unless it is among them [rule 6.8].
pub fn grant(turn: &mut Turn, entity: Entity) -> Result<(), Refusal> {
    let new = asked(turn);
    let triples = &mut turn.entity_mut(entity)[entity::TRIPLES];
    if triples.contains(&new) {
        return Ok(());
    }
    // Triples come first, so that the first 0 is behind them all.
    let free = triples.iter_mut().find(|word| **word == 0).ok_or(Refusal::NoRoom)?;
    *free = new;
    Ok(())
}

/// Takes the triple away, if the entity holds it, and those behind it move up [rule 6.9].
pub fn revoke(turn: &mut Turn, entity: Entity) -> Result<(), Refusal> {
    let old = asked(turn);
    let triples = &mut turn.entity_mut(entity)[entity::TRIPLES];
    if let Some(place) = triples.iter().position(|word| *word == old) {
        close_up(triples, place);
    }
    Ok(())
}

/// The triple that the arguments spell.
fn asked(turn: &Turn) -> u32 {
    triple(turn.a(), turn.b(), turn.c())
}
