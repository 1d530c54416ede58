//! What comes second, where two entities are asked about: a copy, or a move.
use super::Drawing;
use crate::layout::{at_most, entity, kind, op, ENTITIES, PLACES};
use crate::view::{allows, contents, entity_record, is_full_container, is_on, place_in, present_entity, users_where};
use crate::Dice;

/// What to look for in a second operand.
#[derive(Clone, Copy)]
enum Goal {
    SameHolder,
    Inside,
    Roomy,
    Crowded,
    Any,
}

impl Goal {
    /// A goal; for a copy, only that the second is high enough matters.
    fn choose(dice: &mut Dice, of: u32) -> Goal {
        match dice.below(100) {
            0..=14 => Goal::Any,
            _ if of == op::COPY => Goal::Roomy,
            15..=59 => Goal::Roomy,
            60..=69 => Goal::Crowded,
            70..=86 => Goal::SameHolder,
            _ => Goal::Inside,
        }
    }
}

impl Drawing<'_> {
    /// A second operand that the requester may use; where none meets the goal, any such.
    pub(super) fn choose_second(&mut self, requester: u32, first: u32) -> u32 {
        let goal = Goal::choose(self.dice, self.operation);
        let fitting: Vec<u32> =
            (1..=ENTITIES).filter(|&number| allows(self.tables, number, requester, self.operation, 2)).collect();
        let meeting: Vec<u32> = fitting.iter().copied().filter(|&number| self.reaches(goal, first, number)).collect();
        if fitting.is_empty() || self.dice.chance(5) {
            return present_entity(self.dice, self.tables);
        }
        self.dice.one_of(if meeting.is_empty() { &fitting } else { &meeting })
    }

    /// Is a second operand what was looked for, given the first?
    fn reaches(&self, goal: Goal, first: u32, second: u32) -> bool {
        let record = entity_record(self.tables, second);
        let is_container = record[entity::KIND] == kind::CONTAINER;
        match goal {
            Goal::SameHolder => is_container && place_in(record, first).is_some(),
            Goal::Inside => is_container && self.holders.is_or_inside(second, first),
            Goal::Roomy => {
                record[entity::KIND] != kind::DEVICE
                    && record[entity::USED] < PLACES
                    && at_most(entity_record(self.tables, first)[entity::LEVEL], record[entity::LEVEL])
                    && !self.holders.is_or_inside(second, first)
            }
            Goal::Crowded => is_container && record[entity::USED] == PLACES,
            Goal::Any => true,
        }
    }

    /// A requester who may move an entity of a full container to the end of the same container, with both.
    pub(super) fn choose_within_full(&mut self) -> Option<(u32, u32, u32)> {
        let mut found = Vec::new();
        for holder in (1..=ENTITIES).filter(|&holder| is_full_container(entity_record(self.tables, holder))) {
            found.extend(self.movers_within(holder));
        }
        if found.is_empty() {
            None
        } else {
            Some(self.dice.one_of(&found))
        }
    }

    /// All who may move something of a container to its end, each with what it is and the container.
    fn movers_within(&self, holder: u32) -> Vec<(u32, u32, u32)> {
        let movers = users_where(self.tables, is_on);
        let may = |number: u32, mover: u32, position: u32| allows(self.tables, number, mover, op::MOVE, position);
        let held = contents(entity_record(self.tables, holder));
        let movers = movers.iter().filter(|&&mover| may(holder, mover, 2));
        movers
            .flat_map(|&mover| {
                held.iter().filter(move |&&number| may(number, mover, 1)).map(move |&number| (mover, number, holder))
            })
            .collect()
    }
}
