//! One list of both desks, in a room of any length, and everything compared that either leaves [rules 10.1 to 10.7].
use super::lent::Lent;
use crate::difference::Difference;
use crate::guarded::Guarded;
use crate::side::{ByHand, Side};
use generate::full::ENTRIES_MOST;
use generate::layout::{refusal, ENTITIES, ENTRY_WORDS, NAMES, PLACES};
use ordinary::Reply;

/// Lists of both desks, with what was lent for the last one.
pub struct ListCalls<'a> {
    ordinary: Lent<'a>,
    proved: Lent<'a>,
}

impl<'a> ListCalls<'a> {
    /// Lists of this desk and of the proved one.
    pub fn new(desk: ByHand<'a>) -> ListCalls<'a> {
        ListCalls { ordinary: Lent::new(Side::Ordinary(desk)), proved: Lent::new(Side::Proved) }
    }

    /// The entries of the last list, if it was answered 0.
    pub fn entries(&self) -> &[u32] {
        match self.proved.reply {
            Reply { answer: refusal::ACCEPTED, number } => &self.proved.beside.words()[..number as usize * ENTRY_WORDS],
            _ => &[],
        }
    }

    /// Asks for a list in a room of so many words; the reply, where nothing differs.
    pub fn list(&mut self, tables: &[u32], user: u32, length: usize) -> Result<Reply, Difference> {
        self.ordinary.list(tables, user, length);
        self.proved.list(tables, user, length);
        match self.complaint(tables, length) {
            None => Ok(self.proved.reply),
            Some(complaint) => Err(Difference::new("list", complaint)
                .with_replies(self.ordinary.reply, self.proved.reply)
                .with(format!("{} words of tables, user {}, room of {} words", tables.len(), user, length))),
        }
    }

    /// What is wrong with the last list, which was given these.
    fn complaint(&self, tables: &[u32], length: usize) -> Option<&'static str> {
        let (ordinary, proved) = (&self.ordinary, &self.proved);
        if ordinary.reply != proved.reply {
            Some("the answers or the numbers differ")
        } else if ordinary.beside.words() != proved.beside.words() {
            Some("the rooms differ")
        } else if !ordinary.beside.guards_stand() || !proved.beside.guards_stand() {
            Some("a word beside the room was written to")
        } else if !ordinary.tables.holds(tables) || !proved.tables.holds(tables) {
            Some("the tables or a word beside them were written to")
        } else {
            fault(proved.reply, &proved.beside, length)
        }
    }
}

/// What is wrong with a list by itself, whatever the tables.
fn fault(reply: Reply, room: &Guarded<u32>, length: usize) -> Option<&'static str> {
    let need = reply.number as usize * ENTRY_WORDS;
    match reply.answer {
        _ if reply.number > ENTRIES_MOST => Some("more entries than any tables can give"),
        refusal::ACCEPTED if need > length => Some("more entries than the room can hold"),
        refusal::ACCEPTED if !room.untouched_from(need) => Some("words behind the entries were written to"),
        refusal::ACCEPTED if !in_order(&room.words()[..need]) => Some("entries out of shape or out of order"),
        refusal::ACCEPTED => None,
        _ if !room.untouched_from(0) => Some("the room was written to on a refusal"),
        refusal::TOO_SHORT if need <= length => Some("the room would have sufficed"),
        refusal::TOO_SHORT => None,
        refusal::BAD_LENGTH..=refusal::UNKNOWN_REQUESTER | refusal::NOT_LOGGED_ON if reply.number == 0 => None,
        _ => Some("an answer that no list gives"),
    }
}

/// Has each entry its shape, and does each come before the next? Since zeros follow the names, a reference comes before those that continue it
/// when all four words are compared as numbers.
fn in_order(entries: &[u32]) -> bool {
    let in_shape = entries.chunks(ENTRY_WORDS).all(has_shape);
    let mut pairs = entries.chunks(ENTRY_WORDS).zip(entries.chunks(ENTRY_WORDS).skip(1));
    in_shape && pairs.all(|(one, next)| one[1..] < next[1..])
}

/// Is it a length, so many names in their ranges, and zeros behind?
fn has_shape(entry: &[u32]) -> bool {
    let length = entry[0];
    let name_fits = |(i, &name): (u32, &u32)| match i {
        _ if i > length => name == 0,
        1 => (1..=ENTITIES).contains(&name),
        _ => (1..=PLACES).contains(&name),
    };
    (1..=NAMES).contains(&length) && (1..).zip(&entry[1..]).all(name_fits)
}
