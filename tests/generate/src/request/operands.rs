//! Who asks, and about what first. Refusals deep in the ladder are reached by looking for them, since chance seldom gets there.
use super::{in_place_to_ask, Drawing};
use crate::layout::{at_most, entity, kind, op, right, right_of, types, user, who_of, ENTITIES, FIRST_ROLE, USERS};
use crate::view::{
    any_of, entity_record, is_off, is_on, present_entity, present_user, stands_for, triples, user_record, users_where,
    Holders,
};
use crate::Dice;

/// How many pairs of a requester and an operand are looked at before the last one is taken as it is.
const TRIES: u32 = 12;

/// What to look for in a requester and first operand.
#[derive(Clone, Copy, PartialEq, Eq)]
pub(super) enum Aim {
    Acceptance,
    OtherKind,
    Hidden,
    Any,
}

impl Aim {
    /// What has a triple for an operation on devices and lies behind a mark is rare, and is looked for more often.
    pub(super) fn choose(dice: &mut Dice, of: u32) -> Aim {
        let (accepted, other_kind, hidden) = match of {
            op::LOGIN | op::MAXIMUM | op::DEVICE_LEVEL => (65, 70, 95),
            _ => (80, 85, 92),
        };
        match dice.below(100) {
            roll if roll < accepted => Aim::Acceptance,
            roll if roll < other_kind => Aim::OtherKind,
            roll if roll < hidden => Aim::Hidden,
            _ => Aim::Any,
        }
    }
}

/// Somebody who is on, most of the time.
pub(super) fn somebody_on(dice: &mut Dice, tables: &[u32]) -> u32 {
    let on = users_where(tables, is_on);
    any_of(dice, &on).filter(|_| !dice.chance(8)).unwrap_or_else(|| present_user(dice, tables))
}

/// Somebody who is off, most of the time.
fn somebody_off(dice: &mut Dice, tables: &[u32]) -> u32 {
    let off = users_where(tables, is_off);
    any_of(dice, &off).filter(|_| !dice.chance(8)).unwrap_or_else(|| present_user(dice, tables))
}

/// Somebody whom a triple's "who" stands for.
fn user_for(dice: &mut Dice, tables: &[u32], who: u32) -> u32 {
    if who <= USERS {
        return who;
    }
    let fitting = users_where(tables, |record| stands_for(who, 0, record[user::CURRENT]));
    any_of(dice, &fitting).unwrap_or_else(|| somebody_on(dice, tables))
}

/// An officer, if there is one.
pub(super) fn officer(dice: &mut Dice, tables: &[u32]) -> u32 {
    user_for(dice, tables, FIRST_ROLE)
}

/// Is an entity of the sort that an operation takes first?
fn kind_suits(record: &[u32], of: u32) -> bool {
    use op::*;
    match of {
        CREATE | SET_MARK => record[entity::KIND] == kind::CONTAINER,
        GRANT | REVOKE => true,
        LOGIN | MAXIMUM | DEVICE_LEVEL => record[entity::KIND] == kind::DEVICE,
        RELEASE => record[entity::TYPE] == types::DRAFT,
        _ => record[entity::KIND] != kind::DEVICE,
    }
}

/// Is an entity in a container that is marked and too high for a clearance?
fn behind_mark(tables: &[u32], holders: &Holders, number: u32, clearance: u32) -> bool {
    holders.container_of(number).map_or(false, |holder| {
        let record = entity_record(tables, holder);
        record[entity::MARK] != 0 && !at_most(record[entity::LEVEL], clearance)
    })
}

impl Drawing<'_> {
    /// A requester and a first operand that has a triple for the requester, if any has; where nothing meets the aim, what was looked at last.
    pub(super) fn choose_first(&mut self, aim: Aim) -> (u32, u32) {
        let of_triples = self.with_triples();
        let logs_on = self.operation == op::LOGIN;
        let requester =
            if logs_on { somebody_off(self.dice, self.tables) } else { somebody_on(self.dice, self.tables) };
        let mut chosen = (requester, present_entity(self.dice, self.tables));
        if of_triples.is_empty() || self.dice.chance(4) {
            return chosen;
        }
        for _ in 0..TRIES {
            let (who, number) = self.dice.one_of(&of_triples);
            chosen = (user_for(self.dice, self.tables, who), number);
            if self.meets(aim, chosen) {
                break;
            }
        }
        chosen
    }

    /// All that have a triple of the operation's first position, with whom it is for.
    fn with_triples(&self) -> Vec<(u32, u32)> {
        let wanted = right(self.operation, 1);
        let mut found = Vec::new();
        for number in 1..=ENTITIES {
            let triples = triples(entity_record(self.tables, number)).iter();
            let of_right = triples.filter(|&&triple| right_of(triple) == wanted);
            found.extend(of_right.map(|&triple| (who_of(triple), number)));
        }
        found
    }

    /// Are a requester and an operand what was looked for?
    fn meets(&self, aim: Aim, (requester, number): (u32, u32)) -> bool {
        let record = user_record(self.tables, requester);
        if aim == Aim::Any {
            return true;
        }
        if !in_place_to_ask(record, self.operation) {
            return false;
        }
        match aim {
            Aim::Hidden => behind_mark(self.tables, &self.holders, number, record[user::CLEARANCE]),
            _ => kind_suits(entity_record(self.tables, number), self.operation) == (aim == Aim::Acceptance),
        }
    }
}
