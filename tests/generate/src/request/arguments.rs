//! Arguments that lie in their ranges, and mostly let the operation succeed.
use super::Drawing;
use crate::layout::{
    entity, kind, op, parts_of, request, role, sort, user, LEVEL_MOST, OPERATION_MOST, ROLES_MOST, SUM_MOST, USERS,
    WHO_MOST,
};
use crate::view::{entity_record, present_user, triples, user_record};
use crate::{levels, Dice};

/// Roles, rather many of them.
fn some_roles(dice: &mut Dice) -> u32 {
    (dice.word() | dice.word()) & ROLES_MOST
}

impl Drawing<'_> {
    /// Fills in the arguments of an operation, given its first operand.
    pub(super) fn fill_arguments(&mut self, first: u32) {
        use op::*;
        let level = entity_record(self.tables, first)[entity::LEVEL];
        match self.operation {
            CREATE => {
                self.words[request::A] = self.dice.between(sort::OBJECT, sort::DRAFT);
                let inside = self.dice.chance(80);
                self.words[request::B] =
                    if inside { levels::lower(self.dice, level) } else { levels::near(self.dice, level) };
            }
            EDIT => self.words[request::A] = self.odd_word(),
            SET_LEVEL | DEVICE_LEVEL => self.words[request::A] = self.new_level(first),
            MAXIMUM => {
                self.words[request::A] = if self.dice.chance(25) { level } else { levels::near(self.dice, level) }
            }
            SET_MARK => self.words[request::A] = self.dice.below(2),
            GRANT => self.fill_triple(first, 25),
            REVOKE => self.fill_triple(first, 60),
            SHOW => self.words[request::A] = self.dice.between(1, SUM_MOST),
            CURRENT_ROLES | CLEARANCE | AUTHORISED_ROLES => self.fill_user(),
            ACKNOWLEDGE => self.fill_acknowledgement(),
            _ => (),
        }
    }

    /// A level for the operand: the one that it has, one sideways of that, or one near it in any way. Chance alone would seldom go sideways. Where
    /// who may let the level drop goes sideways once more, who may not goes up, so that not too many requests end for want of the role.
    fn new_level(&mut self, first: u32) -> u32 {
        let level = entity_record(self.tables, first)[entity::LEVEL];
        let requester = user_record(self.tables, self.words[request::USER]);
        let may_drop = requester[user::CURRENT] & role::DOWNGRADER != 0 || requester[user::DEVICE] == first;
        match self.dice.below(100) {
            0..=24 => level,
            25..=39 => self.sideways(first),
            40..=64 if may_drop => self.sideways(first),
            40..=64 => levels::higher(self.dice, level),
            _ => levels::near(self.dice, level),
        }
    }

    /// A level sideways of the operand's, mostly one that what holds the operand has room for; where there is none, any that is near.
    fn sideways(&mut self, first: u32) -> u32 {
        let level = entity_record(self.tables, first)[entity::LEVEL];
        let most = if self.dice.chance(75) { self.level_above(first) } else { LEVEL_MOST };
        levels::sideways(self.dice, level, most).unwrap_or_else(|| levels::near(self.dice, level))
    }

    /// What the level of an entity must be at most: that of its container, and the maximum of a device.
    fn level_above(&self, number: u32) -> u32 {
        let record = entity_record(self.tables, number);
        match self.holders.container_of(number) {
            _ if record[entity::KIND] == kind::DEVICE => record[entity::MAXIMUM],
            Some(holder) => entity_record(self.tables, holder)[entity::LEVEL],
            None => LEVEL_MOST,
        }
    }

    /// A triple that the operand has, so many times in a hundred, or any.
    fn fill_triple(&mut self, first: u32, percent: u32) {
        let held = triples(entity_record(self.tables, first));
        let parts = if !held.is_empty() && self.dice.chance(percent) {
            parts_of(self.dice.one_of(held))
        } else {
            [self.dice.between(1, WHO_MOST), self.dice.between(1, OPERATION_MOST), self.dice.between(1, 2)]
        };
        self.words[request::A..=request::C].copy_from_slice(&parts);
    }

    /// A user, and what the user's clearance or roles are to be.
    fn fill_user(&mut self) {
        let own = self.dice.chance(25);
        let of = if own { self.words[request::USER] } else { present_user(self.dice, self.tables) };
        let record = user_record(self.tables, of);
        self.words[request::A] = if self.dice.chance(8) { self.dice.between(1, USERS) } else { of };
        self.words[request::B] = match self.operation {
            op::CURRENT_ROLES => self.current_roles(record),
            op::AUTHORISED_ROLES => {
                let kept = if self.dice.chance(80) { record[user::CURRENT] } else { 0 };
                some_roles(self.dice) | kept
            }
            _ => levels::near(self.dice, record[user::CLEARANCE]),
        };
    }

    /// Roles for a user to act with, mostly such as the user may have.
    fn current_roles(&mut self, record: &[u32]) -> u32 {
        if record[user::DEVICE] == 0 && self.dice.chance(70) {
            return 0;
        }
        let within = if self.dice.chance(80) { record[user::AUTHORISED] } else { ROLES_MOST };
        some_roles(self.dice) & within
    }

    /// What is held and how many were missed, or one of the two wrong.
    fn fill_acknowledgement(&mut self) {
        let record = user_record(self.tables, self.words[request::USER]);
        self.words[request::A] = record[user::HELD];
        self.words[request::B] = record[user::MISSED];
        if self.dice.chance(30) {
            let more = if self.dice.chance(50) { 1 } else { self.odd_word() };
            let word = &mut self.words[request::A + self.dice.below(2) as usize];
            *word = word.wrapping_add(more);
        }
    }
}
