//! Requests for the step: of each operation half are meant to be accepted, half to be refused. They are chosen by carrying them out with the
//! ordinary desk, so that a pass meets, at each request, the tables that it was chosen for.
use crate::load::{Load, Request};
use generate::layout::refusal::ACCEPTED;
use generate::Dice;
use ordinary::Right;
use std::ops::RangeInclusive;

/// Throws for a request that is answered as wished; where none of them is, the last is taken.
const THROWS: u32 = 50;

/// What a request is to be.
#[derive(Clone, Copy)]
struct Wish {
    operation: u32,
    accepted: bool,
}

/// What the requests of a load are to be.
pub struct Wanted {
    pub operations: RangeInclusive<u32>,
    /// Of each operation for each tables, to be accepted, and as many to be refused.
    pub of_each: usize,
    /// How many wishes tables may leave open; tables that leave more give way to others. Not all tables let anybody log in or release
    /// something, so of a mixture it would be too much to ask for all.
    pub open: usize,
}

/// Throws a request that is answered as wished, or else any of the operation, and carries it out. Says whether it is as wished.
fn grant(dice: &mut Dice, tables: &mut Vec<u32>, wish: Wish) -> (Request, bool) {
    let mut left = THROWS;
    loop {
        left -= 1;
        let mut after = tables.clone();
        let request = generate::request_for(dice, tables, wish.operation);
        let answer = ordinary::advance::<Right>(&mut after, &request);
        let granted = (answer == ACCEPTED) == wish.accepted;
        if granted || left == 0 {
            *tables = after;
            return (request, granted);
        }
    }
}

/// One request for each wish, in any order; none where more than so many wishes are left open.
fn find(dice: &mut Dice, tables: &[u32], wishes: &[Wish], mut open: usize) -> Option<Vec<Request>> {
    let mut order: Vec<u32> = (0..wishes.len() as u32).collect();
    dice.shuffle(&mut order);
    let mut now = tables.to_vec();
    let mut requests = Vec::new();
    for at in order {
        let (request, granted) = grant(dice, &mut now, wishes[at as usize]);
        open = open.checked_sub(usize::from(!granted))?;
        requests.push(request);
    }
    Some(requests)
}

/// So many tables, with such requests for each.
pub fn prepare(dice: &mut Dice, tables: usize, wanted: Wanted) -> Load {
    let both = |operation| [true, false].map(|accepted| Wish { operation, accepted });
    let wishes = wanted.operations.flat_map(both).collect::<Vec<_>>().repeat(wanted.of_each);
    let mut load = Load::default();
    while load.tables.len() < tables {
        let next = generate::tables(dice);
        if let Some(requests) = find(dice, &next, &wishes, wanted.open) {
            load.places.extend(requests.iter().map(|_| load.tables.len()));
            load.requests.extend(requests);
            load.tables.push(next);
        }
    }
    load
}
