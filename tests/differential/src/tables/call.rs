//! One check or one step of both desks, and everything compared that either leaves [rules 8.1, 8.2, 8.5].
use super::lent::Lent;
use crate::difference::Difference;
use crate::side::{ByHand, Side};
use generate::layout::{refusal, request, user, user_base, NOTICE_WORDS, STEP_MOST};
use ordinary::Reply;

/// Checks and steps of both desks, with what was lent for the last one.
pub struct Calls<'a> {
    ordinary: Lent<'a>,
    proved: Lent<'a>,
}

impl<'a> Calls<'a> {
    /// Calls of this desk and of the proved one.
    pub fn new(desk: ByHand<'a>) -> Calls<'a> {
        Calls { ordinary: Lent::new(Side::Ordinary(desk)), proved: Lent::new(Side::Proved) }
    }

    /// The tables as the last step left them.
    pub fn left(&self) -> &[u32] {
        self.proved.tables.words()
    }

    /// Checks tables of any length; the answer, where nothing differs.
    pub fn check(&mut self, tables: &[u32]) -> Result<u32, Difference> {
        self.ordinary.check(tables);
        self.proved.check(tables);
        let complaint = if self.ordinary.reply != self.proved.reply {
            "the answers differ"
        } else if self.proved.reply.answer > refusal::NOT_SECURE || self.proved.reply.number != 0 {
            "an answer that no check gives"
        } else if !self.ordinary.tables.holds(tables) || !self.proved.tables.holds(tables) {
            "the check wrote to its tables or beside them"
        } else {
            return Ok(self.proved.reply.answer);
        };
        Err(self.difference("check", complaint).with(format!("{} words of tables", tables.len())))
    }

    /// Asks for a step, with slices of any lengths; the answer, where nothing differs.
    pub fn step(&mut self, tables: &[u32], request: &[u32]) -> Result<u32, Difference> {
        self.ordinary.step(tables, request);
        self.proved.step(tables, request);
        match self.complaint(tables, request) {
            None => Ok(self.proved.reply.answer),
            Some(complaint) => Err(self.difference("step", complaint).with(format!(
                "{} words of tables, request: {:?}",
                tables.len(),
                request
            ))),
        }
    }

    /// What is wrong with the last step, which was given these.
    fn complaint(&self, tables: &[u32], request: &[u32]) -> Option<&'static str> {
        let (ordinary, proved) = (&self.ordinary, &self.proved);
        let Reply { answer, number } = proved.reply;
        if ordinary.reply != proved.reply {
            Some("the answers differ")
        } else if answer > STEP_MOST || number != 0 {
            Some("an answer that no step gives")
        } else if !ordinary.beside.holds(request) || !proved.beside.holds(request) {
            Some("the request or a word beside it was written to")
        } else if !ordinary.tables.guards_stand() || !proved.tables.guards_stand() {
            Some("a word beside the tables was written to")
        } else if ordinary.tables.words() != proved.tables.words() {
            Some("the tables differ")
        } else if !leaves_what_it_may_not_touch(answer, tables, self.left(), request) {
            Some("a refusal changed more than it may")
        } else {
            None
        }
    }

    /// What there is to say of the last call.
    fn difference(&self, call: &'static str, complaint: &str) -> Difference {
        Difference::new(call, complaint)
            .with_replies(self.ordinary.reply, self.proved.reply)
            .with_tables(self.ordinary.tables.words(), self.proved.tables.words())
    }
}

/// On refusals 1 to 4 nothing changes, on 5 to 16 nothing but the requester's notice.
fn leaves_what_it_may_not_touch(given: u32, before: &[u32], after: &[u32], request: &[u32]) -> bool {
    match given {
        refusal::ACCEPTED => true,
        refusal::BAD_LENGTH..=refusal::UNKNOWN_REQUESTER => before == after,
        _ => {
            let notice = user_base(request[request::USER]) + user::HELD;
            let behind = notice + NOTICE_WORDS;
            before[..notice] == after[..notice] && before[behind..] == after[behind..]
        }
    }
}
