//! Requests with good tables in view, so that about half are accepted and every refusal is met.
mod arguments;
mod operands;
mod reference;
mod second;
mod spoil;

use crate::layout::{op, request, user, OPERATION_MOST, REQUEST_WORDS};
use crate::view::{allows, present_user, user_record, Holders};
use crate::Dice;
use operands::Aim;

/// Numbers that are no operation's.
const NO_OPERATIONS: [u32; 6] = [0, OPERATION_MOST + 1, OPERATION_MOST + 2, 256, 65_536, u32::MAX];

/// How often a request is drawn again that had no chance from the start.
const MORE_TRIES: u32 = 5;

/// In a hundred moves, so many are looked for that stay within one full container: by chance there would hardly be any [rule 6.3].
const WITHIN_FULL: u32 = 30;

/// A request under construction, with all that it is made from.
struct Drawing<'a> {
    dice: &'a mut Dice,
    tables: &'a [u32],
    holders: Holders,
    operation: u32,
    words: [u32; REQUEST_WORDS],
}

/// How many operands an operation takes.
fn operands_of(of: u32) -> u32 {
    use op::*;
    match of {
        MOVE | COPY => 2,
        CLEAR | LOGOUT | CURRENT_ROLES | CLEARANCE | AUTHORISED_ROLES | ACKNOWLEDGE => 0,
        _ => 1,
    }
}

/// Is the user of this record where one has to be for an operation: off to log on, anywhere to acknowledge, else on?
fn in_place_to_ask(record: &[u32], of: u32) -> bool {
    let off = record[user::DEVICE] == 0;
    record[user::PRESENT] != 0 && (of == op::ACKNOWLEDGE || off == (of == op::LOGIN))
}

impl Drawing<'_> {
    /// Draws the whole request; true where it stood a chance before it may have been spoilt.
    fn draw(&mut self) -> bool {
        let aim = Aim::choose(self.dice, self.operation);
        let operands = operands_of(self.operation);
        let (requester, first, second) = self.choose(operands, aim);
        let mut hopeful = in_place_to_ask(user_record(self.tables, requester), self.operation);
        self.words[request::USER] = requester;
        self.words[request::OPERATION] = self.operation;
        if operands > 0 {
            let from_above = aim == Aim::Hidden || self.dice.chance(40);
            self.refer_to(first, from_above, request::FIRST);
            hopeful = hopeful && allows(self.tables, first, requester, self.operation, 1);
        }
        if operands > 1 {
            let from_above = self.dice.chance(40);
            self.refer_to(second, from_above, request::SECOND);
            hopeful = hopeful && allows(self.tables, second, requester, self.operation, 2);
        }
        self.fill_arguments(first);
        self.spoil(operands);
        hopeful
    }

    /// Who asks, and the operands; 1 stands for an operand that the operation does not take.
    fn choose(&mut self, operands: u32, aim: Aim) -> (u32, u32, u32) {
        if self.operation == op::MOVE && self.dice.chance(WITHIN_FULL) {
            if let Some(all) = self.choose_within_full() {
                return all;
            }
        }
        if operands == 0 {
            return (self.choose_requester(), 1, 1);
        }
        let (requester, first) = self.choose_first(aim);
        let second = if operands > 1 { self.choose_second(requester, first) } else { 1 };
        (requester, first, second)
    }

    /// A requester for an operation without operands.
    fn choose_requester(&mut self) -> u32 {
        match self.operation {
            op::CURRENT_ROLES | op::CLEARANCE | op::AUTHORISED_ROLES if self.dice.chance(65) => {
                operands::officer(self.dice, self.tables)
            }
            op::ACKNOWLEDGE => present_user(self.dice, self.tables),
            _ => operands::somebody_on(self.dice, self.tables),
        }
    }
}

/// Draws a request of an operation, and says whether it stood a chance.
fn draw(dice: &mut Dice, tables: &[u32], operation: u32) -> ([u32; REQUEST_WORDS], bool) {
    let mut drawing = Drawing { dice, tables, holders: Holders::of(tables), operation, words: [0; REQUEST_WORDS] };
    let hopeful = drawing.draw();
    (drawing.words, hopeful)
}

/// All operations alike, but fewer logouts than logins: a logout nearly always succeeds, a login seldom, and soon nobody would be left on.
fn choose_operation(dice: &mut Dice) -> u32 {
    match dice.between(1, OPERATION_MOST) {
        op::LOGOUT if dice.chance(65) => op::LOGIN,
        chosen => chosen,
    }
}

/// A request of an operation 1 to 20, with good tables in view.
pub fn request_for(dice: &mut Dice, tables: &[u32], operation: u32) -> [u32; REQUEST_WORDS] {
    draw(dice, tables, operation).0
}

/// A request with good tables in view, so that about half are accepted. Many operations have no fitting triple in given tables; requests
/// without a chance are let through now and then only.
pub fn request(dice: &mut Dice, tables: &[u32]) -> [u32; REQUEST_WORDS] {
    let mut tries = 0;
    let mut words = loop {
        let operation = choose_operation(dice);
        let (words, hopeful) = draw(dice, tables, operation);
        tries += 1;
        if hopeful || tries > MORE_TRIES || dice.chance(5) {
            break words;
        }
    };
    if dice.chance(1) {
        words[request::OPERATION] = dice.one_of(&NO_OPERATIONS);
    }
    words
}
