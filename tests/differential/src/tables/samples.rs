//! References to ask a step about: on a list, beside it, and anywhere.
use generate::layout::{ENTITIES, ENTRY_WORDS, NAMES, PLACES};
use generate::Dice;

/// How many of each sort.
const SAMPLES: u32 = 20;

/// A length and four names.
type Reference = [u32; ENTRY_WORDS];

/// Any reference of one to four names that may lead somewhere.
fn anywhere(dice: &mut Dice) -> Reference {
    let mut reference = [dice.between(1, NAMES), dice.between(1, ENTITIES), 0, 0, 0];
    for place in &mut reference[2..] {
        *place = dice.between(1, PLACES);
    }
    let behind = 1 + reference[0] as usize;
    reference[behind..].fill(0);
    reference
}

/// An entry with one name fewer, one more, or another last name.
fn beside(dice: &mut Dice, entry: Reference) -> Reference {
    let mut reference = entry;
    let length = reference[0] as usize;
    match dice.below(3) {
        0 if length > 1 => {
            reference[length] = 0;
            reference[0] -= 1;
        }
        1 if length < NAMES as usize => {
            reference[length + 1] = dice.between(1, PLACES);
            reference[0] += 1;
        }
        _ => reference[length] = dice.between(1, PLACES + 1),
    }
    reference
}

/// References of all sorts, given the entries of a list.
pub fn some_references(dice: &mut Dice, entries: &[u32]) -> Vec<Reference> {
    let count = (entries.len() / ENTRY_WORDS) as u32;
    let mut references: Vec<Reference> = (0..SAMPLES).map(|_| anywhere(dice)).collect();
    for _ in 0..SAMPLES.min(count) {
        let mut entry = Reference::default();
        entry.copy_from_slice(&entries[dice.below(count) as usize * ENTRY_WORDS..][..ENTRY_WORDS]);
        references.push(entry);
        references.push(beside(dice, entry));
    }
    references
}
