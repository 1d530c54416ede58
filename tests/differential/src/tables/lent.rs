//! What a side is lent for a check, a step or a list, and what it answered.
use crate::guarded::Guarded;
use crate::side::Side;
use ordinary::Reply;

/// What was lent to one side for its last call.
pub struct Lent<'a> {
    side: Side<'a>,
    pub tables: Guarded<u32>,
    /// The request of a step, or the room of a list.
    pub beside: Guarded<u32>,
    pub reply: Reply,
}

impl<'a> Lent<'a> {
    /// Nothing is lent yet.
    pub fn new(side: Side<'a>) -> Lent<'a> {
        let nothing = Reply { answer: 0, number: 0 };
        Lent { side, tables: Guarded::room(0), beside: Guarded::room(0), reply: nothing }
    }

    /// Lends a copy of these tables for a check.
    pub fn check(&mut self, tables: &[u32]) {
        self.tables.hold(tables);
        self.reply = self.side.check(self.tables.lent());
    }

    /// Lends copies of these for a step.
    pub fn step(&mut self, tables: &[u32], request: &[u32]) {
        self.tables.hold(tables);
        self.beside.hold(request);
        self.reply = self.side.step(self.tables.lent(), self.beside.lent());
    }

    /// Lends a copy of these tables and a fresh room for a list.
    pub fn list(&mut self, tables: &[u32], user: u32, length: usize) {
        self.tables.hold(tables);
        self.beside.empty(length);
        self.reply = self.side.list(self.tables.lent(), user, self.beside.lent());
    }
}
