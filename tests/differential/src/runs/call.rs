//! One run of both desks, with slices of any lengths, and everything compared that either leaves [request M-100].
use crate::difference::Difference;
use crate::guarded::Guarded;
use crate::side::{ByHand, Side};
use generate::layout::{refusal, REQUEST_WORDS, TABLE_WORDS};
use ordinary::Reply;

/// What a run is asked with.
pub struct Asked<'a> {
    pub tables: &'a [u32],
    pub requests: &'a [u32],
    /// Places for answers.
    pub places: usize,
}

impl Asked<'_> {
    /// How many whole requests there are.
    pub fn count(&self) -> usize {
        self.requests.len() / REQUEST_WORDS
    }

    /// Which lengths are wrong: of the tables, of the requests, of the places.
    pub fn wrong_lengths(&self) -> [bool; 3] {
        let odd = self.requests.len() % REQUEST_WORDS != 0;
        [self.tables.len() != TABLE_WORDS, odd, self.places < self.count()]
    }

    /// The reply that is due to these lengths: whatever the tables and the requests say, it is no other.
    fn due(&self) -> Reply {
        let refused = self.wrong_lengths().contains(&true);
        Reply { answer: if refused { refusal::BAD_LENGTH } else { refusal::ACCEPTED }, number: 0 }
    }
}

/// What was lent to one side for its last run.
struct Lent<'a> {
    side: Side<'a>,
    tables: Guarded<u32>,
    requests: Guarded<u32>,
    answers: Guarded<u32>,
    reply: Reply,
}

impl<'a> Lent<'a> {
    /// Nothing is lent yet.
    fn new(side: Side<'a>) -> Lent<'a> {
        let reply = Reply { answer: 0, number: 0 };
        Lent { side, tables: Guarded::room(0), requests: Guarded::room(0), answers: Guarded::room(0), reply }
    }

    /// Lends copies of these, and fresh places.
    fn run(&mut self, asked: &Asked) {
        self.tables.hold(asked.tables);
        self.requests.hold(asked.requests);
        self.answers.empty(asked.places);
        self.reply = self.side.run(self.tables.lent(), self.requests.lent(), self.answers.lent());
    }
}

/// Runs of both desks, with what was lent for the last one.
pub struct RunCalls<'a> {
    ordinary: Lent<'a>,
    proved: Lent<'a>,
}

impl<'a> RunCalls<'a> {
    /// Runs of this desk and of the proved one.
    pub fn new(desk: ByHand<'a>) -> RunCalls<'a> {
        RunCalls { ordinary: Lent::new(Side::Ordinary(desk)), proved: Lent::new(Side::Proved) }
    }

    /// The tables as the last run left them.
    pub fn left(&self) -> &[u32] {
        self.proved.tables.words()
    }

    /// The places as the last run left them, spare ones too.
    pub fn answers(&self) -> &[u32] {
        self.proved.answers.words()
    }

    /// Where the proved desk's three slices started, from a multiple of sixteen bytes on, in words.
    pub fn offsets(&self) -> [usize; 3] {
        [&self.proved.tables, &self.proved.requests, &self.proved.answers].map(Guarded::offset)
    }

    /// Asks both for a run; ends well where nothing differs.
    pub fn run(&mut self, asked: &Asked) -> Result<(), Difference> {
        self.ordinary.run(asked);
        self.proved.run(asked);
        match self.complaint(asked) {
            None => Ok(()),
            Some(complaint) => Err(self.difference(asked, complaint)),
        }
    }

    /// Does this hold of what both sides were lent?
    fn both(&self, holds: impl Fn(&Lent) -> bool) -> bool {
        holds(&self.ordinary) && holds(&self.proved)
    }

    /// What is wrong with the last run, which was given these.
    fn complaint(&self, asked: &Asked) -> Option<&'static str> {
        let (ordinary, proved) = (&self.ordinary, &self.proved);
        let accepted = proved.reply.answer == refusal::ACCEPTED;
        let written = if accepted { asked.count() } else { 0 };
        if ordinary.reply != proved.reply {
            Some("the replies differ")
        } else if proved.reply != asked.due() {
            Some("another reply is due to these lengths")
        } else if !self.both(|lent| lent.requests.holds(asked.requests)) {
            Some("a request or a word beside them was written to")
        } else if !self.both(|lent| lent.tables.guards_stand()) {
            Some("a word beside the tables was written to")
        } else if !self.both(|lent| lent.answers.untouched_from(written)) {
            Some("a spare place or a word beside the places was written to")
        } else if !accepted && !self.both(|lent| lent.tables.holds(asked.tables)) {
            Some("a run that is refused changed its tables")
        } else if ordinary.answers.words() != proved.answers.words() {
            Some("the answers differ")
        } else if ordinary.tables.words() != proved.tables.words() {
            Some("the tables differ")
        } else {
            None
        }
    }

    /// What there is to say of the last run.
    fn difference(&self, asked: &Asked, complaint: &str) -> Difference {
        let (ordinary, proved) = (&self.ordinary, &self.proved);
        Difference::new("run", complaint)
            .with_replies(ordinary.reply, proved.reply)
            .with_answers(ordinary.answers.words(), proved.answers.words())
            .with_tables(ordinary.tables.words(), proved.tables.words())
            .with(format!(
                "{} words of tables, {} of requests, {} places",
                asked.tables.len(),
                asked.requests.len(),
                asked.places
            ))
    }
}
