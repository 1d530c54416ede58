//! The operations: their own conditions, rungs 11 to 16, and what each changes [section 6 of the rules].

mod arrange;
mod change;
mod grant;
mod screen;
mod users;

pub use screen::may_look;

use crate::access;
use crate::level::Level;
use crate::refusal::Refusal;
use crate::tables::*;
use crate::words::*;
use crate::Rules;

/// Who asks for what, and the tables it is done to.
pub struct Turn<'a> {
    pub tables: &'a mut Tables,
    pub requester: User,
    pub request: &'a Request,
}

impl Turn<'_> {
    /// Argument a of the request.
    fn a(&self) -> u32 {
        self.request[request::A]
    }

    /// Argument b of the request.
    fn b(&self) -> u32 {
        self.request[request::B]
    }

    /// Argument c of the request.
    fn c(&self) -> u32 {
        self.request[request::C]
    }

    /// The level of an entity in the tables as they are now.
    fn level_of(&self, entity: Entity) -> Level {
        level_of(self.tables, entity)
    }

    /// The record of an entity as it is now.
    fn entity(&self, entity: Entity) -> &EntityWords {
        entity_words(self.tables, entity)
    }

    /// The record of an entity, for a change that the conditions have allowed.
    fn entity_mut(&mut self, entity: Entity) -> &mut EntityWords {
        entity_words_mut(self.tables, entity)
    }

    /// The record of a user, for a change that the conditions have allowed.
    fn user_mut(&mut self, user: User) -> &mut UserWords {
        user_words_mut(self.tables, user)
    }

    /// Whether the requester acts with that role.
    fn has_role<R: Rules>(&self, role: u32) -> bool {
        access::roles::<R>(self.tables, self.requester) & role != 0
    }

    /// The requester's device; rung 6 has seen to it that there is one.
    fn own_device(&self) -> Entity {
        device_of(self.tables, self.requester).expect("the requester is logged on")
    }
}

/// Carries out the request if the operation's own conditions allow it; changes nothing if they do not.
pub fn carry_out<R: Rules>(turn: &mut Turn, first: Option<Entity>, second: Option<Entity>) -> Result<(), Refusal> {
    match (turn.request[request::OPERATION], first, second) {
        (op::CREATE, Some(container), None) => arrange::create::<R>(turn, container),
        (op::DELETE, Some(entity), None) => arrange::delete(turn, entity),
        (op::MOVE, Some(entity), Some(container)) => arrange::relocate::<R>(turn, entity, container),
        (op::EDIT, Some(entity), None) => change::edit(turn, entity),
        (op::COPY, Some(from), Some(to)) => change::copy::<R>(turn, from, to),
        (op::SET_LEVEL, Some(entity), None) => change::level::<R>(turn, entity),
        (op::SET_MARK, Some(container), None) => change::mark(turn, container),
        (op::GRANT, Some(entity), None) => grant::grant(turn, entity),
        (op::REVOKE, Some(entity), None) => grant::revoke(turn, entity),
        (op::SHOW, Some(entity), None) => screen::show::<R>(turn, entity),
        (op::CLEAR, None, None) => screen::clear(turn),
        (op::LOGIN, Some(device), None) => screen::login(turn, device),
        (op::LOGOUT, None, None) => screen::logout(turn),
        (op::CURRENT_ROLES, None, None) => users::current_roles::<R>(turn),
        (op::CLEARANCE, None, None) => users::clearance::<R>(turn),
        (op::AUTHORISED_ROLES, None, None) => users::authorised_roles::<R>(turn),
        (op::MAXIMUM, Some(device), None) => change::maximum::<R>(turn, device),
        (op::DEVICE_LEVEL, Some(device), None) => change::device_level::<R>(turn, device),
        (op::RELEASE, Some(draft), None) => change::release::<R>(turn, draft),
        (op::ACKNOWLEDGE, None, None) => users::acknowledge(turn),
        _ => unreachable!("the form settles the operation and how many operands it has"),
    }
}

/// Takes the word at a place out of a row that is filled from the front.
fn close_up(row: &mut [u32], place: usize) {
    row.copy_within(place + 1.., place);
    if let Some(last) = row.last_mut() {
        *last = 0;
    }
}
