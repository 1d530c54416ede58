//! References that lead to an entity, directly or through what holds or shows it.
use super::Drawing;
use crate::layout::{ENTITIES, NAMES};
use crate::view::{entity_record, place_in};

impl Drawing<'_> {
    /// Writes a reference that leads to the entity, through what holds or shows it where that is asked.
    pub(super) fn refer_to(&mut self, number: u32, from_above: bool, at: usize) {
        let climbs = if from_above { self.dice.between(1, NAMES - 1) } else { 0 };
        let mut first = number;
        let mut places = Vec::new();
        for _ in 0..climbs {
            if let Some((above, place)) = self.choose_above(first) {
                first = above;
                places.push(place);
            }
        }
        places.push(first);
        places.reverse();
        self.words[at] = places.len() as u32;
        self.words[at + 1..][..places.len()].copy_from_slice(&places);
    }

    /// Something that holds the entity or shows it, and at which place.
    fn choose_above(&mut self, number: u32) -> Option<(u32, u32)> {
        let above: Vec<(u32, u32)> = (1..=ENTITIES)
            .filter_map(|holder| place_in(entity_record(self.tables, holder), number).map(|place| (holder, place)))
            .collect();
        if above.is_empty() {
            None
        } else {
            Some(self.dice.one_of(&above))
        }
    }
}
