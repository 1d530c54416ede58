//! Show, clear, login and logout: the requester's own device.

use super::Turn;
use crate::check::secure::value_has_label;
use crate::level::Level;
use crate::refusal::Refusal;
use crate::tables::*;
use crate::words::*;
use crate::Rules;

/// Shows the entity on the requester's device, or, where it is shown already, sets how much of it [rule 6.10].
pub fn show<R: Rules>(turn: &mut Turn, entity: Entity) -> Result<(), Refusal> {
    let device = turn.own_device();
    let level = turn.level_of(entity);
    let clearance = clearance_of(turn.tables, turn.requester);
    Refusal::LevelOrRoles.unless(may_look::<R>(level, clearance, turn.level_of(device)))?;
    let screen = turn.entity(device);
    let shown = place_of(screen, entity);
    Refusal::NoRoom.unless(shown.is_some() || !is_full(screen))?;
    Refusal::Arrangement.unless(value_has_label(turn.a()))?;

    let sum = turn.a();
    let screen = turn.entity_mut(device);
    let place = shown.unwrap_or(screen[entity::USED] as usize);
    if shown.is_none() {
        screen[entity::CONTENTS][place] = entity.number();
        screen[entity::USED] += 1;
    }
    screen[entity::SHOWN][place] = sum;
    Ok(())
}

/// Whether something of that level may be shown to a user of that clearance on a device of that level.
pub fn may_look<R: Rules>(level: Level, clearance: Level, device: Level) -> bool {
    level.at_most::<R>(clearance) && level.at_most::<R>(device)
}

/// Empties the requester's device [rule 6.11].
pub fn clear(turn: &mut Turn) -> Result<(), Refusal> {
    let screen = turn.entity_mut(turn.own_device());
    screen[entity::USED] = 0;
    screen[entity::CONTENTS].fill(0);
    screen[entity::SHOWN].fill(0);
    Ok(())
}

/// Logs the requester on to the device, which must be free, as the requester must be [rule 6.12].
pub fn login(turn: &mut Turn, device: Entity) -> Result<(), Refusal> {
    let on_or_taken = |(user, taken): (User, Entity)| user == turn.requester || taken == device;
    Refusal::Arrangement.unless(!logged_on(turn.tables).any(on_or_taken))?;
    turn.user_mut(turn.requester)[user::DEVICE] = device.number();
    Ok(())
}

/// Empties the requester's device and logs the requester off, without roles [rule 6.13].
pub fn logout(turn: &mut Turn) -> Result<(), Refusal> {
    clear(turn)?;
    let words = turn.user_mut(turn.requester);
    words[user::DEVICE] = 0;
    words[user::CURRENT] = 0;
    Ok(())
}
