//! The disclosure list by its meaning [rule 10.3]: nothing here knows how a reference is read or what keeps an entity off the list.
use generate::layout::{
    entity_base, op, refusal, request, shown, user, user_base, ENTITIES, ENTITY_WORDS, ENTRY_WORDS, NAMES, PLACES,
    REQUEST_WORDS, USER_WORDS,
};
use ordinary::Right;

/// A step on good tables: changes them, and answers.
pub type Step = fn(&mut [u32], &[u32]) -> u32;

/// The ordinary step without the check, since the tables are good each time.
pub fn ordinary_step(tables: &mut [u32], request: &[u32]) -> u32 {
    ordinary::advance::<Right>(tables, request)
}

/// The proved step, which has the check in it and takes its time.
pub fn proved_step(tables: &mut [u32], request: &[u32]) -> u32 {
    mms::words::step(tables, request).no
}

/// Asks a step again and again for a show (a = 3) by one user who is on, always of the same good tables.
pub struct Asking<'a> {
    step: Step,
    original: &'a [u32],
    tables: Vec<u32>,
    request: [u32; REQUEST_WORDS],
    /// The records that a show may change: the user's, for the notice, and the device's.
    record: usize,
    device: usize,
    entries: Vec<u32>,
    /// Is a name that leads nowhere the end of it? Then what continues it is not asked about.
    cut_short: bool,
}

impl<'a> Asking<'a> {
    /// Ready to ask, with no reference yet.
    pub fn new(step: Step, tables: &'a [u32], asker: u32) -> Asking<'a> {
        let record = user_base(asker);
        let mut request = [0; REQUEST_WORDS];
        request[request::USER] = asker;
        request[request::OPERATION] = op::SHOW;
        request[request::A] = shown::VALUE | shown::LABEL;
        let device = entity_base(tables[record + user::DEVICE]);
        Asking {
            step,
            original: tables,
            tables: tables.to_vec(),
            request,
            record,
            device,
            entries: Vec::new(),
            cut_short: false,
        }
    }

    /// Answers for one reference, a length and four names; then puts the tables back.
    pub fn ask(&mut self, reference: &[u32]) -> u32 {
        self.request[request::FIRST..request::SECOND].copy_from_slice(reference);
        let given = (self.step)(&mut self.tables, &self.request);
        self.put_back(self.record, USER_WORDS);
        self.put_back(self.device, ENTITY_WORDS);
        given
    }

    /// Puts so many words back as they were.
    fn put_back(&mut self, from: usize, count: usize) {
        self.tables[from..from + count].copy_from_slice(&self.original[from..from + count]);
    }

    /// Asks about a reference and then about all that continue it, with places in range and beside it: this is the order of the list.
    fn ask_from(&mut self, mut reference: [u32; ENTRY_WORDS]) {
        let given = self.ask(&reference);
        let length = reference[0] as usize;
        if is_listed(given) {
            self.entries.extend_from_slice(&reference);
        }
        if length == NAMES as usize || (self.cut_short && given == refusal::NO_SUCH_NAME) {
            return;
        }
        reference[0] += 1;
        for place in (0..=PLACES + 1).chain([u32::MAX]) {
            reference[length + 1] = place;
            self.ask_from(reference);
        }
    }

    /// The entries that the answers give; none where a show changed more than it may, since the tables were then not put back.
    fn all(mut self) -> Option<Vec<u32>> {
        for first in (0..=ENTITIES + 1).chain([u32::MAX]) {
            self.ask_from([1, first, 0, 0, 0]);
        }
        if self.tables == self.original {
            Some(self.entries)
        } else {
            None
        }
    }
}

/// Is a reference on the list whose show is answered so?
pub fn is_listed(given: u32) -> bool {
    given == refusal::ACCEPTED || given == refusal::NO_ROOM
}

/// The list that follows from the ordinary step, asked about every reference.
pub fn by_ordinary_step(tables: &[u32], asker: u32) -> Option<Vec<u32>> {
    Asking::new(ordinary_step, tables, asker).all()
}

/// The list that follows from the proved step, asked about every reference whose names but the last lead somewhere.
pub fn by_proved_step(tables: &[u32], asker: u32) -> Option<Vec<u32>> {
    let mut asking = Asking::new(proved_step, tables, asker);
    asking.cut_short = true;
    asking.all()
}
