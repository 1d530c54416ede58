//! One table after another, each with a history of requests.
use super::call::Calls;
use super::cells::Cells;
use super::corners::{Corners, Done};
use super::list_call::ListCalls;
use super::lists::Lists;
use super::Comparison;
use crate::difference::Difference;
use crate::guarded;
use generate::layout::{refusal, request, OPERATION_MOST, REQUEST_WORDS, TABLE_WORDS, USERS};
use generate::{dice_for, Dice};

/// Long enough for tables to fill and to empty.
const STEPS_PER_TABLE: u32 = 250;
/// From one request to the next with which damaged tables are tried too.
const DAMAGE_EVERY: u32 = 4;
/// From one request to the next with which lists are asked for too.
const LISTS_EVERY: u32 = 50;
/// From one table to the next whose lists are compared with the steps.
const WITH_STEPS_EVERY: u64 = 4;
/// Lists have dice of their own, so that they change no request: those of table N are the dice of number 2^64 - 1 - N.
const OF_LISTS: u64 = u64::MAX;

/// Lengths of slices that are lent as tables.
const TABLE_LENGTHS: [usize; 5] = [0, 1, TABLE_WORDS - 1, TABLE_WORDS, TABLE_WORDS + 1];
/// Lengths of slices that are lent as requests.
const REQUEST_LENGTHS: [usize; 5] = [0, 1, REQUEST_WORDS - 1, REQUEST_WORDS, REQUEST_WORDS + 1];

/// How far a run has come, and what it has seen.
pub struct Run<'a> {
    what: &'a Comparison<'a>,
    calls: Calls<'a>,
    pub lists: Lists<'a>,
    pub cells: Cells,
    pub corners: Corners,
    /// The state check, by answer.
    pub checks: [u64; refusal::NOT_SECURE as usize + 1],
    dice: Dice,
    list_dice: Dice,
    /// The tables in hand, which stay good, and the number of the request to them, from 1.
    tables: Vec<u32>,
    pub request: u32,
    /// Steps on good tables.
    pub steps: u64,
}

impl<'a> Run<'a> {
    /// A run that has not started.
    pub fn new(what: &'a Comparison<'a>) -> Run<'a> {
        Run {
            what,
            calls: Calls::new(what.stepping),
            lists: Lists::new(ListCalls::new(what.listing)),
            cells: Cells::new(),
            corners: Corners::new(),
            checks: [0; 4],
            dice: Dice::new(what.seed),
            list_dice: Dice::new(what.seed),
            tables: Vec::new(),
            request: 0,
            steps: 0,
        }
    }

    /// Goes through one table, all of which follows from the seed and its number.
    pub fn table(&mut self, number: u64) -> Result<(), Difference> {
        guarded::start_from(number);
        self.dice = dice_for(self.what.seed, number);
        self.list_dice = dice_for(self.what.seed, number ^ OF_LISTS);
        self.request = 0;
        self.tables = generate::tables(&mut self.dice);
        self.see_that_good()?;
        self.lists.of_good(&mut self.list_dice, &self.tables)?;
        while self.request < STEPS_PER_TABLE && self.steps < self.what.steps {
            self.request += 1;
            let request = generate::request(&mut self.dice, &self.tables);
            self.good_step(&request)?;
            self.other_things(number, &request)?;
        }
        Ok(())
    }

    /// Both desks must pass the tables that are generated to be good.
    fn see_that_good(&mut self) -> Result<(), Difference> {
        let tables = self.tables.clone();
        match self.check(&tables)? {
            refusal::ACCEPTED => Ok(()),
            _ => Err(Difference::new("check", "tables meant to be good are not")),
        }
    }

    /// A check of any tables.
    fn check(&mut self, tables: &[u32]) -> Result<u32, Difference> {
        let given = self.calls.check(tables)?;
        self.checks[given as usize] += 1;
        Ok(given)
    }

    /// A step on any tables, whose result is not used any further.
    fn step(&mut self, tables: &[u32], request: &[u32]) -> Result<u32, Difference> {
        let given = self.calls.step(tables, request)?;
        self.cells.count(request, given);
        Ok(given)
    }

    /// A step on the tables in hand, which are then those that it leaves.
    fn good_step(&mut self, request: &[u32]) -> Result<(), Difference> {
        let given = self.calls.step(&self.tables, request)?;
        if (refusal::BAD_LENGTH..=refusal::NOT_SECURE).contains(&given) {
            return Err(Difference::new("step", "the step before left tables that are not good"));
        }
        self.cells.count(request, given);
        self.steps += 1;
        if given != refusal::UNKNOWN_REQUESTER {
            self.corners.count(&Done { before: &self.tables, after: self.calls.left(), request, given });
        }
        self.tables.copy_from_slice(self.calls.left());
        Ok(())
    }

    /// What else is done beside the requests, each in its turn.
    fn other_things(&mut self, number: u64, request: &[u32]) -> Result<(), Difference> {
        let is_middle = self.request == STEPS_PER_TABLE / 2;
        if self.request % DAMAGE_EVERY == 0 {
            self.damaged(request)?;
        }
        if is_middle {
            self.other_lengths()?;
            self.random_words()?;
        }
        if self.request % LISTS_EVERY == 0 {
            self.lists.of_good(&mut self.list_dice, &self.tables)?;
        }
        if is_middle && number % WITH_STEPS_EVERY == 0 {
            self.lists.with_steps(&mut self.list_dice, &self.tables)?;
            let full = generate::full::full(&mut self.list_dice);
            self.lists.of_good(&mut self.list_dice, &full)?;
            self.lists.with_steps(&mut self.list_dice, &full)?;
        }
        Ok(())
    }

    /// Check, step and list of tables that are no longer good, most of the time.
    fn damaged(&mut self, request: &[u32]) -> Result<(), Difference> {
        let mut tables = self.tables.clone();
        let mut request = request.to_vec();
        generate::damage(&mut self.dice, &mut tables);
        if self.dice.chance(10) {
            request[request::OPERATION] = self.dice.below(OPERATION_MOST + 2);
        }
        self.check(&tables)?;
        self.step(&tables, &request)?;
        self.lists.of_bad(&mut self.list_dice, &tables)
    }

    /// Check, step and list of slices of all lengths that are tried, each pair of lengths with another operation.
    fn other_lengths(&mut self) -> Result<(), Difference> {
        let tables: Vec<u32> = self.tables.iter().copied().chain([0]).collect();
        for count in TABLE_LENGTHS {
            self.check(&tables[..count])?;
            self.lists.of_bad(&mut self.list_dice, &tables[..count])?;
            self.other_requests(&tables[..count])?;
        }
        Ok(())
    }

    /// Steps on these tables with requests of all lengths that are tried.
    fn other_requests(&mut self, tables: &[u32]) -> Result<(), Difference> {
        for length in REQUEST_LENGTHS {
            let operation = self.dice.between(1, OPERATION_MOST);
            let mut request = generate::request_for(&mut self.dice, &self.tables, operation).to_vec();
            request.push(0);
            self.step(tables, &request[..length])?;
        }
        Ok(())
    }

    /// Requests and tables chosen without looking at anything.
    fn random_words(&mut self) -> Result<(), Difference> {
        let good = self.tables.clone();
        let mut request = [0; REQUEST_WORDS];
        generate::random_words(&mut self.dice, &mut request);
        self.step(&good, &request)?;
        // With a good requester, and then a good operation: most would end at rung 4 and 5 else.
        request[request::USER] = self.dice.between(1, USERS);
        self.step(&good, &request)?;
        request[request::OPERATION] = self.dice.between(1, OPERATION_MOST);
        self.step(&good, &request)?;
        let mut tables = good;
        generate::random_words(&mut self.dice, &mut tables);
        self.check(&tables)?;
        self.step(&tables, &request)?;
        self.lists.of_bad(&mut self.list_dice, &tables)
    }
}
