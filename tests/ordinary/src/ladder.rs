//! The refusal ladder from rung 4 up to where the operations have their own conditions [section 7 of the rules].

use crate::access::Whos;
use crate::effects::{self, Turn};
use crate::form::{self, Operand};
use crate::reference::{self, Found};
use crate::refusal::Refusal;
use crate::tables::*;
use crate::words::*;
use crate::Rules;

/// Answers a request to tables that the check has passed: carries it out, or leaves the notice of its refusal.
pub fn advance<R: Rules>(tables: &mut Tables, request: &Request) -> u32 {
    let requester = match User::present(tables, request[request::USER]) {
        Some(requester) => requester,
        None => return Refusal::UnknownRequester as u32,
    };
    match judge::<R>(tables, requester, request) {
        Ok(()) => 0,
        Err(refusal) => {
            leave_notice::<R>(user_words_mut(tables, requester), refusal as u32, request[request::OPERATION]);
            refusal as u32
        }
    }
}

/// Rungs 5 to 16 in order. Each is judged of both operands before the next is judged of either [rule 7.0].
fn judge<R: Rules>(tables: &mut Tables, requester: User, request: &Request) -> Result<(), Refusal> {
    let form = form::of(request)?;
    let operation = request[request::OPERATION];
    let while_off = matches!(operation, op::LOGIN | op::ACKNOWLEDGE);
    Refusal::NotLoggedOn.unless(while_off || device_of(tables, requester).is_some())?;

    let clearance = clearance_of(tables, requester);
    let find = |operand: usize| -> Result<Option<Found>, Refusal> {
        let at = request::REFERENCES[operand];
        form.operands[operand].map(|_| reference::follow::<R>(tables, request, at, clearance)).transpose()
    };
    let found = [find(0)?, find(1)?];

    let whos = Whos::of::<R>(tables, requester);
    let allowed =
        |(found, position): (&Found, u32)| whos.allowed(entity_words(tables, found.entity), operation, position);
    Refusal::NoAccess.unless(found.iter().flatten().zip(1..).all(allowed))?;
    Refusal::Marked.unless(!found.iter().flatten().any(|found| found.barred))?;
    let fits = |(found, operand): (&Found, &Operand)| operand.accepts(entity_words(tables, found.entity));
    Refusal::WrongKind.unless(found.iter().flatten().zip(form.operands.iter().flatten()).all(fits))?;

    let [first, second] = found.map(|found| found.map(|found| found.entity));
    effects::carry_out::<R>(&mut Turn { tables, requester, request }, first, second)
}

/// Holds the refusal if none is held, and adds it to those missed, which stop at their most [rule 8.2].
fn leave_notice<R: Rules>(words: &mut UserWords, refusal: u32, operation: u32) {
    if words[user::HELD] == 0 || R::NOTICE {
        words[user::HELD] = refusal;
        words[user::HELD_OPERATION] = if operation <= OPERATION_MOST { operation } else { 0 };
    }
    words[user::MISSED] = (words[user::MISSED] + 1).min(MISSED_MOST);
}
