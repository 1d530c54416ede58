//! Edit, copy, level, mark, maximum, device level and release: one word of one entity, or two.

use super::Turn;
use crate::check::secure;
use crate::level::Level;
use crate::refusal::Refusal;
use crate::tables::*;
use crate::words::*;
use crate::Rules;

/// Sets the entity's value [rule 6.4].
pub fn edit(turn: &mut Turn, entity: Entity) -> Result<(), Refusal> {
    turn.entity_mut(entity)[entity::VALUE] = turn.a();
    Ok(())
}

/// Copies the first entity's value to the second, which must not stand below it [rule 6.5].
pub fn copy<R: Rules>(turn: &mut Turn, from: Entity, to: Entity) -> Result<(), Refusal> {
    Refusal::LevelOrRoles.unless(turn.level_of(from).at_most::<R>(turn.level_of(to)))?;
    turn.entity_mut(to)[entity::VALUE] = turn.entity(from)[entity::VALUE];
    Ok(())
}

/// Sets the entity's level. A drop needs a downgrader, also one sideways: a rank or a compartment is lost either way
/// [rule 6.6].
pub fn level<R: Rules>(turn: &mut Turn, entity: Entity) -> Result<(), Refusal> {
    let (old, new) = (turn.level_of(entity), Level(turn.a()));
    let excepted = R::SIDEWAYS && new.is_sideways_of::<R>(old);
    let drops = new.drops_from::<R>(old) && !excepted || R::EQUAL && new == old;
    Refusal::RoleMissing.unless(!drops || turn.has_role::<R>(role::DOWNGRADER))?;
    Refusal::LevelOrRoles.unless(stays_secure::<R>(turn.tables, entity, new))?;
    turn.entity_mut(entity)[entity::LEVEL] = new.0;
    Ok(())
}

/// Whether secure tables stay so when an object or container gets that level.
///
/// Of all that makes tables secure, only this speaks of the level of an entity that is no device: what it holds, the
/// one container it is in, and the devices that show it together with the users who are on them. Everything else was
/// so before and is not touched. An entity never holds itself, so that no comparison has the new level on both sides.
fn stays_secure<R: Rules>(tables: &Tables, entity: Entity, new: Level) -> bool {
    let fits_in = |holder: Entity| new.at_most::<R>(level_of(tables, holder));
    let fits_on = |(user, device): (User, Entity)| {
        !holds(entity_words(tables, device), entity) || fits_in(device) && new.at_most::<R>(clearance_of(tables, user))
    };
    secure::contents_are_at_most::<R>(tables, entity_words(tables, entity), new)
        && container_of(tables, entity).map_or(true, fits_in)
        && logged_on(tables).all(fits_on)
}

/// Sets or takes off the container's mark [rule 6.7].
pub fn mark(turn: &mut Turn, container: Entity) -> Result<(), Refusal> {
    turn.entity_mut(container)[entity::MARK] = turn.a();
    Ok(())
}

/// Sets the device's maximum, which the officer does [rule 6.17].
pub fn maximum<R: Rules>(turn: &mut Turn, device: Entity) -> Result<(), Refusal> {
    let new = Level(turn.a());
    Refusal::RoleMissing.unless(turn.has_role::<R>(role::OFFICER))?;
    Refusal::LevelOrRoles.unless(turn.level_of(device).at_most::<R>(new))?;
    turn.entity_mut(device)[entity::MAXIMUM] = new.0;
    Ok(())
}

/// Sets the device's level. A drop needs a downgrader, but for the device that the requester is on [rule 6.18].
///
/// Of all that makes tables secure, only the device's maximum and what it shows are compared with its level, since no
/// device stands in a place.
pub fn device_level<R: Rules>(turn: &mut Turn, device: Entity) -> Result<(), Refusal> {
    let (old, new) = (turn.level_of(device), Level(turn.a()));
    let sideways = new.is_sideways_of::<R>(old);
    let drops = new.drops_from::<R>(old) && !(R::ASIDE && sideways);
    let own = device == turn.own_device() && !(R::OWN && sideways);
    Refusal::RoleMissing.unless(!drops || own || turn.has_role::<R>(role::DOWNGRADER))?;
    let words = turn.entity(device);
    let secure =
        new.at_most::<R>(Level(words[entity::MAXIMUM])) && secure::contents_are_at_most::<R>(turn.tables, words, new);
    Refusal::LevelOrRoles.unless(secure)?;
    turn.entity_mut(device)[entity::LEVEL] = new.0;
    Ok(())
}

/// Releases the draft in the requester's name, which a releaser does [rule 6.19].
pub fn release<R: Rules>(turn: &mut Turn, draft: Entity) -> Result<(), Refusal> {
    Refusal::RoleMissing.unless(turn.has_role::<R>(role::RELEASER))?;
    let releaser = turn.requester.number();
    let words = turn.entity_mut(draft);
    words[entity::TYPE] = types::RELEASED;
    words[entity::RELEASER] = releaser;
    Ok(())
}
