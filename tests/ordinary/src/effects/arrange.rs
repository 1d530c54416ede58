//! Create, delete and move: what stands in which container.

use super::{close_up, Turn};
use crate::level::Level;
use crate::refusal::Refusal;
use crate::tables::*;
use crate::words::*;
use crate::Rules;

/// Makes a new entity in the last place of the container, with the container's triples [rule 6.1].
pub fn create<R: Rules>(turn: &mut Turn, container: Entity) -> Result<(), Refusal> {
    let level = turn.b();
    Refusal::LevelOrRoles.unless(Level(level).at_most::<R>(turn.level_of(container)))?;
    Refusal::NoRoom.unless(!is_full(turn.entity(container)))?;
    let absent = |entity: &Entity| kind_of(turn.tables, *entity) == kind::ABSENT;
    let new = Entity::all().find(absent).ok_or(Refusal::NoRoom)?;

    let (kind, type_of) = match turn.a() {
        sort::CONTAINER => (kind::CONTAINER, types::PLAIN),
        sort::DRAFT => (kind::CONTAINER, types::DRAFT),
        _ => (kind::OBJECT, types::PLAIN),
    };
    // An absent record is all zero, so that only these words are to be written.
    let parent = *turn.entity(container);
    let words = turn.entity_mut(new);
    words[entity::KIND] = kind;
    words[entity::TYPE] = type_of;
    words[entity::LEVEL] = level;
    words[entity::TRIPLES].copy_from_slice(&parent[entity::TRIPLES]);
    put_last(turn.entity_mut(container), new);
    Ok(())
}

/// Wipes the entity's record and takes it out of its container [rule 6.2].
pub fn delete(turn: &mut Turn, entity: Entity) -> Result<(), Refusal> {
    let words = turn.entity(entity);
    let shown = logged_on(turn.tables).any(|(_, device)| holds(turn.entity(device), entity));
    let released = words[entity::TYPE] == types::RELEASED;
    Refusal::Arrangement.unless(words[entity::USED] == 0 && !released && !shown)?;

    if let Some(container) = container_of(turn.tables, entity) {
        take_out(turn.entity_mut(container), entity);
    }
    *turn.entity_mut(entity) = [0; ENTITY_WORDS];
    Ok(())
}

/// Takes the entity out of its container, if it is in one, and puts it last in the other [rule 6.3].
pub fn relocate<R: Rules>(turn: &mut Turn, entity: Entity, container: Entity) -> Result<(), Refusal> {
    Refusal::LevelOrRoles.unless(turn.level_of(entity).at_most::<R>(turn.level_of(container)))?;
    let target = turn.entity(container);
    // One that is in the container already leaves a place there before it needs one.
    let leaves_a_place = !R::ROOM && holds(target, entity);
    Refusal::NoRoom.unless(leaves_a_place || !is_full(target))?;
    Refusal::Arrangement.unless(!is_inside(turn.tables, container, entity))?;

    if let Some(old) = container_of(turn.tables, entity) {
        take_out(turn.entity_mut(old), entity);
    }
    put_last(turn.entity_mut(container), entity);
    Ok(())
}

/// Whether an entity is another or inside it at any depth. It ends because no container is inside itself.
fn is_inside(tables: &Tables, entity: Entity, outer: Entity) -> bool {
    entity == outer || contents(entity_words(tables, outer)).any(|held| is_inside(tables, entity, held))
}

/// Puts an entity behind the last used place, of which there must be fewer than eight.
fn put_last(words: &mut EntityWords, entity: Entity) {
    let used = words[entity::USED] as usize;
    words[entity::CONTENTS][used] = entity.number();
    words[entity::USED] += 1;
}

/// Takes an entity out of its place, and those behind it move up.
fn take_out(words: &mut EntityWords, entity: Entity) {
    if let Some(place) = place_of(words, entity) {
        close_up(&mut words[entity::CONTENTS], place);
        words[entity::USED] -= 1;
    }
}
