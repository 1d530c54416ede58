//! The load of a run: requests of all operations to one tables, about half of them accepted from the first to the last. They are chosen by
//! carrying them out with the ordinary desk, so that a run meets, at each request, the tables that it was chosen for.
use crate::load::{Load, Request, RUN_REQUESTS};
use crate::standing::Standing;
use crate::texts::text;
use generate::layout::refusal::ACCEPTED;
use generate::layout::{op, request, OPERATION_MOST};
use generate::Dice;
use ordinary::Right;

/// In each stretch of so many requests, every operation but release must be accepted.
const STRETCH: usize = 1_000;
/// All operations but release, one bit each.
const BUT_RELEASE: u32 = ((1 << OPERATION_MOST) - 1) << 1 & !(1 << op::RELEASE);
/// Throws for a request of an operation that is answered as wished; then another operation is tried.
const THROWS: u32 = 20;
/// Operations that are tried for a request; then its tables are given up.
const OPERATIONS_TRIED: u32 = 200;
/// Of a hundred releases that were to be accepted, so many are tried: what is released can't be deleted, and soon nothing else would be left.
const RELEASES: u32 = 10;

/// A run on tables made by dice. Tables on which an operation runs dry give way to others.
pub fn prepare(dice: &mut Dice) -> Load {
    loop {
        let tables = generate::tables(dice);
        if let Some(requests) = find(dice, &tables) {
            return Load { tables: vec![tables], places: vec![0], run: requests.concat(), ..Load::default() };
        }
    }
}

/// The requests of a run on these tables; none where an operation runs dry.
fn find(dice: &mut Dice, tables: &[u32]) -> Option<Vec<Request>> {
    let mut now = tables.to_vec();
    let mut requests = Vec::new();
    let mut accepted = 0;
    while requests.len() < RUN_REQUESTS {
        let here = stretch(dice, &mut now, &mut requests)?;
        accepted |= Some(here).filter(|here| here & BUT_RELEASE == BUT_RELEASE)?;
    }
    Some(requests).filter(|_| accepted >> op::RELEASE & 1 != 0)
}

/// Carries out a stretch, and puts its requests last; one bit for each operation that was accepted in it.
fn stretch(dice: &mut Dice, tables: &mut Vec<u32>, requests: &mut Vec<Request>) -> Option<u32> {
    let mut operations = 0;
    for _ in 0..STRETCH {
        let accepted = dice.chance(50);
        let next = next(dice, tables, accepted)?;
        operations |= u32::from(accepted) << next[request::OPERATION];
        requests.push(next);
    }
    Some(operations)
}

/// A request of any operation that is answered as wished; it is carried out.
fn next(dice: &mut Dice, tables: &mut Vec<u32>, accepted: bool) -> Option<Request> {
    (0..OPERATIONS_TRIED).find_map(|_| {
        let operation = dice.between(1, OPERATION_MOST);
        let passed_over = accepted && operation == op::RELEASE && !dice.chance(RELEASES);
        Some(operation).filter(|_| !passed_over).and_then(|operation| throw(dice, tables, operation, accepted))
    })
}

/// The same of one operation. It has a text, so that the program can be given it too.
fn throw(dice: &mut Dice, tables: &mut Vec<u32>, operation: u32, accepted: bool) -> Option<Request> {
    (0..THROWS).find_map(|_| {
        let request = generate::request_for(dice, tables, operation);
        let mut after = tables.clone();
        let as_wished = (ordinary::advance::<Right>(&mut after, &request) == ACCEPTED) == accepted;
        let lasts = as_wished && Standing::of(tables).lasts(&Standing::of(&after));
        let chosen = Some(request).filter(|request| lasts && text(request).is_some())?;
        *tables = after;
        Some(chosen)
    })
}

#[cfg(test)]
mod tests {
    use super::*;
    use generate::layout::REQUEST_WORDS;
    use std::collections::BTreeSet;

    /// The answers to the requests of a load.
    fn answers(load: &Load) -> Vec<u32> {
        let mut answers = vec![0; RUN_REQUESTS];
        let reply = ordinary::run::<Right>(&mut load.tables[0].clone(), &load.run, &mut answers);
        assert_eq!((reply.answer, load.run.len()), (ACCEPTED, RUN_REQUESTS * REQUEST_WORDS));
        answers
    }

    /// About half are accepted in every stretch, and among them are all operations but release; over all, release too. Every request has a text.
    #[test]
    fn a_run_is_mixed_throughout() {
        let load = prepare(&mut Dice::new(1));
        let answers = answers(&load);
        let turns: Vec<(&[u32], u32)> = load.run.chunks_exact(REQUEST_WORDS).zip(answers).collect();
        let accepted = |turns: &[(&[u32], u32)]| -> Vec<u32> {
            turns.iter().filter(|turn| turn.1 == ACCEPTED).map(|turn| turn.0[request::OPERATION]).collect()
        };
        for stretch in turns.chunks(STRETCH) {
            let operations = accepted(stretch);
            assert!((STRETCH * 4 / 10..STRETCH * 6 / 10).contains(&operations.len()));
            assert!((1..=OPERATION_MOST).all(|operation| operation == op::RELEASE || operations.contains(&operation)));
        }
        let all: BTreeSet<u32> = accepted(&turns).into_iter().collect();
        assert_eq!(all, (1..=OPERATION_MOST).collect());
        let refusals: BTreeSet<u32> = turns.iter().map(|turn| turn.1).collect();
        assert!(refusals.len() > 10, "{:?}", refusals);
        assert!(turns.iter().all(|(words, _)| text(&Request::try_from(*words).unwrap()).is_some()));
    }
}
