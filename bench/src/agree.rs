//! Before anything is timed both sides make all calls of a load, and everything that they leave is compared: a run that measures two
//! different things is worth nothing.
use crate::contest::Contest;
use crate::sides::{ORDINARY, PROVED};
use bench::load::{Call, Load, Rooms};
use bench::side::{answer_of, number_of, Outcome};

/// What a side works on.
#[derive(Clone)]
struct Place {
    tables: Vec<Vec<u32>>,
    rooms: Rooms,
}

/// What was seen of a load while both sides agreed.
#[derive(Clone, Copy, Default)]
pub struct Agreed {
    /// Of all outcomes.
    pub sum: Outcome,
    pub accepted: usize,
    /// The sum of the numbers that came with the answers.
    pub numbers: u64,
}

impl Agreed {
    /// Takes in one outcome that both sides gave.
    fn note(&mut self, outcome: Outcome) {
        self.sum = self.sum.wrapping_add(outcome);
        self.accepted += usize::from(answer_of(outcome) == 0);
        self.numbers += u64::from(number_of(outcome));
    }

    /// Takes in a run that both sides answered alike. Of its requests each counts by itself.
    fn note_run(&mut self, rooms: &Rooms) {
        self.sum = self.sum.wrapping_add(rooms.answered());
        self.accepted = rooms.answers.iter().filter(|&&answer| answer == 0).count();
    }
}

/// Call number `at` by both sides, and what came of it if nothing differs: the outcome, the tables of the call, and all rooms.
fn one_call(contest: &Contest, load: &Load, at: usize, proved: &mut Place, ordinary: &mut Place) -> Option<Outcome> {
    let outcome = load.call(at, contest.call, &PROVED, &mut proved.tables, &mut proved.rooms);
    let other = load.call(at, contest.call, &ORDINARY, &mut ordinary.tables, &mut ordinary.rooms);
    let same_tables = match load.places.get(at) {
        Some(&place) => proved.tables[place] == ordinary.tables[place],
        None => true,
    };
    Some(outcome).filter(|_| outcome == other && same_tables && proved.rooms == ordinary.rooms)
}

/// What both sides make of a load, or at which call they differ.
pub fn agree(contest: &Contest, load: &Load) -> Result<Agreed, String> {
    let mut proved = Place { tables: load.tables.clone(), rooms: Rooms::new() };
    let mut ordinary = proved.clone();
    let mut agreed = Agreed::default();
    for at in 0..load.calls(contest.call) {
        match one_call(contest, load, at, &mut proved, &mut ordinary) {
            Some(outcome) => agreed.note(outcome),
            None => return Err(format!("{}: the sides differ at call {} of the load", contest.name(), at)),
        }
    }
    if contest.call == Call::Run {
        agreed.note_run(&proved.rooms);
    }
    match proved.tables == ordinary.tables {
        true => Ok(agreed),
        false => Err(format!("{}: the sides leave different tables", contest.name())),
    }
}
