//! Lists of good tables, for several users and in rooms of every kind, and of tables that may be bad.
use super::by_step::{by_ordinary_step, is_listed, proved_step, Asking};
use super::list_call::ListCalls;
use super::list_tally::ListTally;
use super::samples::some_references;
use crate::difference::Difference;
use generate::full::ENTRIES_MOST;
use generate::layout::{user, ENTRY_WORDS, USERS};
use generate::view::{any_of, is_off, is_on, users_where};
use generate::Dice;

/// Numbers that are nobody's; also such whose record would lie at a user's if it were computed in too few bits.
const STRANGERS: [u32; 8] = [18, 64, 256, 65_537, 0x1000_0001, 0x4000_0001, 0x8000_0000, u32::MAX];
/// How many of those who are on are asked for.
const SOME_ON: usize = 3;

/// Lists of both desks, and what was seen of them.
pub struct Lists<'a> {
    calls: ListCalls<'a>,
    pub tally: ListTally,
}

impl<'a> Lists<'a> {
    /// Nothing is seen yet.
    pub fn new(calls: ListCalls<'a>) -> Lists<'a> {
        Lists { calls, tally: ListTally::default() }
    }

    /// One list of good tables; its reply's need in words.
    fn one(&mut self, tables: &[u32], asker: u32, length: usize) -> Result<usize, Difference> {
        let reply = self.calls.list(tables, asker, length)?;
        self.tally.count(reply, length);
        Ok(reply.number as usize * ENTRY_WORDS)
    }

    /// One list of tables of any length that may be bad.
    pub fn of_bad(&mut self, dice: &mut Dice, tables: &[u32]) -> Result<(), Difference> {
        let asker = if dice.chance(90) { dice.between(1, USERS) } else { dice.one_of(&STRANGERS) };
        let most = if dice.chance(50) { 2 } else { 200 } * ENTRY_WORDS as u32;
        self.one(tables, asker, dice.below(most) as usize).map(|_| ())
    }

    /// Lists of good tables: for a few who are on, one who is off, one who is absent, and three numbers that are nobody's.
    pub fn of_good(&mut self, dice: &mut Dice, tables: &[u32]) -> Result<(), Difference> {
        self.of_some_on(dice, tables)?;
        let off = users_where(tables, is_off);
        let absent = users_where(tables, |record| record[user::PRESENT] == 0);
        let others =
            [any_of(dice, &off), any_of(dice, &absent), Some(0), Some(USERS + 1), Some(dice.one_of(&STRANGERS))];
        for asker in others.iter().flatten() {
            self.one(tables, *asker, dice.below(4 * ENTRY_WORDS as u32) as usize)?;
        }
        Ok(())
    }

    /// Lists of good tables for a few who are on.
    fn of_some_on(&mut self, dice: &mut Dice, tables: &[u32]) -> Result<(), Difference> {
        let mut on = users_where(tables, is_on);
        dice.shuffle(&mut on);
        on.into_iter().take(SOME_ON).try_for_each(|asker| self.in_rooms(dice, tables, asker))
    }

    /// Lists for one user who is on: in no room, in one that is too short by a word, by an entry or somehow, in one that is just right, and in
    /// longer ones.
    fn in_rooms(&mut self, dice: &mut Dice, tables: &[u32], asker: u32) -> Result<(), Difference> {
        let need = self.one(tables, asker, 0)?;
        let lengths = [
            need.saturating_sub(1),
            need.saturating_sub(ENTRY_WORDS),
            dice.below(need as u32 + 1) as usize,
            need + 1,
            need + ENTRY_WORDS + dice.below(3 * ENTRY_WORDS as u32) as usize,
            need,
        ];
        for length in lengths {
            self.one(tables, asker, length)?;
        }
        self.tally.count_entries(tables, asker, self.calls.entries());
        Ok(())
    }

    /// Good tables: the list of somebody who is on against what the ordinary step says of every reference, and against what the proved step
    /// says of some.
    pub fn with_steps(&mut self, dice: &mut Dice, tables: &[u32]) -> Result<(), Difference> {
        let on = users_where(tables, is_on);
        let asker = match any_of(dice, &on) {
            Some(asker) => asker,
            None => return Ok(()),
        };
        self.one(tables, asker, ENTRIES_MOST as usize * ENTRY_WORDS)?;
        self.tally.count_entries(tables, asker, self.calls.entries());
        if by_ordinary_step(tables, asker).as_deref() != Some(self.calls.entries()) {
            return Err(
                Difference::new("list", "it is not what the ordinary step says").with(format!("user {}", asker))
            );
        }
        self.tally.by_step += 1;
        self.sample(dice, tables, asker)
    }

    /// Asks the proved step about some references, on the list and beside it.
    fn sample(&mut self, dice: &mut Dice, tables: &[u32], asker: u32) -> Result<(), Difference> {
        let entries = self.calls.entries();
        let mut asking = Asking::new(proved_step, tables, asker);
        for reference in some_references(dice, entries) {
            let on_list = entries.chunks(ENTRY_WORDS).any(|entry| entry == reference);
            if is_listed(asking.ask(&reference)) != on_list {
                return Err(Difference::new("list", "it is not what the proved step says")
                    .with(format!("user {}, reference {:?}", asker, reference)));
            }
            self.tally.sampled += 1;
        }
        Ok(())
    }
}
