//! The objects and containers of good tables, each in an earlier one or in none.
use super::{Nesting, Plan};
use crate::layout::{entity, kind, types, PLACES, USERS};
use crate::levels;
use crate::view::{any_of, entity_record};

impl Plan<'_> {
    /// Makes all objects and containers, holders first.
    pub(super) fn make_inner(&mut self) {
        for made in 0..self.inner.len() {
            let number = self.inner[made];
            self.make_object_or_container(number);
            match self.choose_holder(made) {
                Some(holder) => self.put_into(holder, number),
                None => self.leave_outside(number),
            }
        }
    }

    /// Makes an object or a container, with any value; its level is still 0.
    fn make_object_or_container(&mut self, number: u32) {
        if self.dice.chance(self.containers) {
            self.make_container(number);
        } else {
            self.entity(number)[entity::KIND] = kind::OBJECT;
        }
        let value = if self.dice.chance(50) { self.dice.below(100) } else { self.dice.word() };
        self.entity(number)[entity::VALUE] = value;
    }

    /// Makes a container: plain, a draft or released, marked or not.
    fn make_container(&mut self, number: u32) {
        let marked = self.dice.chance(35);
        let releaser = self.dice.between(1, USERS);
        let (type_of, releaser) = match self.dice.below(100) {
            0..=29 => (types::DRAFT, 0),
            30..=50 => (types::RELEASED, releaser),
            _ => (types::PLAIN, 0),
        };
        let record = self.entity(number);
        record[entity::KIND] = kind::CONTAINER;
        record[entity::TYPE] = type_of;
        record[entity::MARK] = u32::from(marked);
        record[entity::RELEASER] = releaser;
    }

    /// A container with room among the first so many, or now and then none.
    fn choose_holder(&mut self, made: usize) -> Option<u32> {
        let is_open = |&&number: &&u32| {
            let record = entity_record(&self.tables, number);
            record[entity::KIND] == kind::CONTAINER && record[entity::USED] < PLACES
        };
        let open: Vec<u32> = self.inner[..made].iter().filter(is_open).copied().collect();
        if self.dice.chance(12) {
            return None;
        }
        match self.nesting {
            Nesting::Deep => open.last().copied(),
            Nesting::Full => open.first().copied(),
            Nesting::Mixed => any_of(self.dice, &open),
        }
    }

    /// Puts an entity last into a container, at a level that is at most the container's.
    fn put_into(&mut self, holder: u32, number: u32) {
        let level = levels::lower(self.dice, entity_record(&self.tables, holder)[entity::LEVEL]);
        self.entity(number)[entity::LEVEL] = level;
        let record = self.entity(holder);
        record[entity::CONTENTS + record[entity::USED] as usize] = number;
        record[entity::USED] += 1;
    }

    /// Gives a level, often the highest of the plan, to an entity that is in no container.
    fn leave_outside(&mut self, number: u32) {
        let level = if self.dice.chance(30) { self.level_mask } else { self.level() };
        self.entity(number)[entity::LEVEL] = level;
    }
}
