//! Current roles, clearance, authorised roles and acknowledge: words of a user.

use super::Turn;
use crate::access;
use crate::check::secure;
use crate::level::Level;
use crate::refusal::Refusal;
use crate::tables::*;
use crate::words::*;
use crate::Rules;

/// Sets user a's current roles. For another user only the officer does so [rule 6.14].
pub fn current_roles<R: Rules>(turn: &mut Turn) -> Result<(), Refusal> {
    let user = user_a(turn)?;
    let roles = turn.b();
    Refusal::NoSuchUser.unless(roles == 0 || device_of(turn.tables, user).is_some())?;
    Refusal::RoleMissing.unless(user == turn.requester || turn.has_role::<R>(role::OFFICER))?;
    let words = turn.user_mut(user);
    Refusal::LevelOrRoles.unless(access::is_within(roles, words[user::AUTHORISED]))?;
    words[user::CURRENT] = roles;
    Ok(())
}

/// Sets user a's clearance, which the officer does [rule 6.15].
///
/// Of all that makes tables secure, only what the user's own device shows is compared with the clearance.
pub fn clearance<R: Rules>(turn: &mut Turn) -> Result<(), Refusal> {
    let user = user_a(turn)?;
    let new = Level(turn.b());
    Refusal::RoleMissing.unless(turn.has_role::<R>(role::OFFICER))?;
    Refusal::LevelOrRoles.unless(secure::screen_is_at_most::<R>(turn.tables, user, new))?;
    turn.user_mut(user)[user::CLEARANCE] = new.0;
    Ok(())
}

/// Sets user a's authorised roles, which the officer does [rule 6.16].
pub fn authorised_roles<R: Rules>(turn: &mut Turn) -> Result<(), Refusal> {
    let user = user_a(turn)?;
    let roles = turn.b();
    Refusal::RoleMissing.unless(turn.has_role::<R>(role::OFFICER))?;
    let words = turn.user_mut(user);
    Refusal::LevelOrRoles.unless(access::is_within(words[user::CURRENT], roles))?;
    words[user::AUTHORISED] = roles;
    Ok(())
}

/// Wipes the requester's notice, if the arguments tell what is held and how many were missed [rule 6.20].
pub fn acknowledge(turn: &mut Turn) -> Result<(), Refusal> {
    let (held, missed) = (turn.a(), turn.b());
    let words = turn.user_mut(turn.requester);
    let agrees = words[user::HELD] != 0 && words[user::HELD] == held && words[user::MISSED] == missed;
    Refusal::NotAcknowledged.unless(agrees)?;
    words[user::HELD..=user::MISSED].fill(0);
    Ok(())
}

/// The user whom argument a names.
fn user_a(turn: &Turn) -> Result<User, Refusal> {
    User::present(turn.tables, turn.a()).ok_or(Refusal::NoSuchUser)
}
