//! The access triples of good tables: for whom, and for what.
use super::Plan;
use crate::layout::{
    entity, entity_base, kind, op, triple, user, ENTITIES, FIRST_ROLE, OPERATION_MOST, TRIPLES, WHO_MOST,
};
use crate::view::{any_of, entity_record, is_full_container, is_off, is_on, user_record, users_where, Holders};

/// Operations and positions that an entity can stand in; those that are hard to come by stand twice.
const OF_OBJECTS: &[(u32, u32)] = &[
    (op::DELETE, 1),
    (op::MOVE, 1),
    (op::EDIT, 1),
    (op::COPY, 1),
    (op::COPY, 2),
    (op::SET_LEVEL, 1),
    (op::GRANT, 1),
    (op::REVOKE, 1),
    (op::SHOW, 1),
];
const OF_CONTAINERS: &[(u32, u32)] = &[
    (op::CREATE, 1),
    (op::DELETE, 1),
    (op::MOVE, 1),
    (op::MOVE, 2),
    (op::MOVE, 2),
    (op::EDIT, 1),
    (op::COPY, 1),
    (op::COPY, 2),
    (op::SET_LEVEL, 1),
    (op::SET_MARK, 1),
    (op::GRANT, 1),
    (op::REVOKE, 1),
    (op::SHOW, 1),
    (op::RELEASE, 1),
];
const OF_DEVICES: &[(u32, u32)] =
    &[(op::GRANT, 1), (op::REVOKE, 1), (op::LOGIN, 1), (op::LOGIN, 1), (op::MAXIMUM, 1), (op::DEVICE_LEVEL, 1)];

impl Plan<'_> {
    /// Chooses up to four for whom most triples are: users who are on, or roles that these have.
    pub(super) fn choose_favourites(&mut self) {
        let on = users_where(&self.tables, is_on);
        let wanted = if on.is_empty() { 0 } else { self.dice.between(1, 4) };
        for _ in 0..wanted {
            let number = self.dice.one_of(&on);
            let roles = user_record(&self.tables, number)[user::CURRENT];
            let held: Vec<u32> = (FIRST_ROLE..=WHO_MOST).filter(|who| roles >> (who - FIRST_ROLE) & 1 != 0).collect();
            let role = any_of(self.dice, &held).filter(|_| self.dice.chance(40));
            self.favourites.push(role.unwrap_or(number));
        }
    }

    /// Gives every present entity its triples.
    pub(super) fn make_triples(&mut self) {
        let holders = Holders::of(&self.tables);
        for number in 1..=ENTITIES {
            let holder = holders.container_of(number);
            let in_full = holder.map_or(false, |holder| is_full_container(entity_record(&self.tables, holder)));
            if entity_record(&self.tables, number)[entity::KIND] != kind::ABSENT {
                self.make_triples_of(number, in_full);
            }
        }
    }

    /// Gives an entity triples, as many as the plan says or more, no two alike.
    fn make_triples_of(&mut self, number: u32, in_full: bool) {
        let wanted = self.dice.between(self.least_triples, TRIPLES) as usize;
        let mut chosen: Vec<u32> = Vec::new();
        while chosen.len() < wanted {
            let (operation, position) = self.choose_right(number, in_full);
            let triple = triple(self.choose_who(operation), operation, position);
            if !chosen.contains(&triple) {
                chosen.push(triple);
            }
        }
        let first = entity_base(number) + entity::TRIPLES;
        self.tables[first..first + wanted].copy_from_slice(&chosen);
    }

    /// An operation and a position, mostly such as suit the entity. Moves within full containers are to be possible, and what is for
    /// devices is to be asked of other things too, and the other way round, to be refused.
    fn choose_right(&mut self, number: u32, in_full: bool) -> (u32, u32) {
        let record = entity_record(&self.tables, number);
        let (useful, of_others) = match record[entity::KIND] {
            kind::OBJECT => (OF_OBJECTS, OF_DEVICES),
            kind::CONTAINER => (OF_CONTAINERS, OF_DEVICES),
            _ => (OF_DEVICES, OF_CONTAINERS),
        };
        match self.dice.below(100) {
            0..=14 if is_full_container(record) => (op::MOVE, 2),
            0..=14 if in_full => (op::MOVE, 1),
            0..=74 => self.dice.one_of(useful),
            75..=84 => self.dice.one_of(of_others),
            _ => (self.dice.between(1, OPERATION_MOST), self.dice.between(1, 2)),
        }
    }

    /// Whom a triple is for. Whoever may log on must be off to make use of it, and has no roles then.
    fn choose_who(&mut self, of: u32) -> u32 {
        if of == op::LOGIN && self.dice.chance(75) {
            let off = users_where(&self.tables, is_off);
            return any_of(self.dice, &off).unwrap_or(1);
        }
        if !self.favourites.is_empty() && self.dice.chance(70) {
            return self.dice.one_of(&self.favourites);
        }
        self.dice.between(1, WHO_MOST)
    }
}
