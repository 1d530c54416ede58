//! Corners of the rules that a run must have been to: a cell of operation and answer says nothing of them.
use crate::outcome::Out;
use generate::layout::{
    at_most, entity, kind, op, refusal, request, role, triple, user, COMPARTMENT_BITS, ENTITIES, MISSED_MOST, NAMES,
    OPERATION_MOST, PLACES, TRIPLES,
};
use generate::view::{contents, entity_record, is_full_container, place_in, triples, user_record, Holders};
use std::cmp::Ordering;

/// A step that both desks did alike, by a requester who is present.
pub struct Done<'a> {
    pub before: &'a [u32],
    pub after: &'a [u32],
    pub request: &'a [u32],
    pub given: u32,
}

impl Done<'_> {
    /// Was it this operation, and answered so?
    fn is(&self, operation: u32, given: u32) -> bool {
        self.request[request::OPERATION] == operation && self.given == given
    }

    /// Was it this operation, and accepted?
    fn accepted(&self, operation: u32) -> bool {
        self.is(operation, refusal::ACCEPTED)
    }

    /// Was it refused so that a notice is left?
    fn is_refused(&self) -> bool {
        self.given >= refusal::BAD_REQUEST
    }

    /// The requester's record before.
    fn requester(&self) -> &[u32] {
        user_record(self.before, self.request[request::USER])
    }

    /// Did the requester act as a downgrader?
    fn is_by_downgrader(&self) -> bool {
        self.requester()[user::CURRENT] & role::DOWNGRADER != 0
    }

    /// The entity that a request names which got past rung 7.
    fn operand(&self, at: usize) -> u32 {
        let names = &self.request[at + 1..at + 1 + self.request[at] as usize];
        let further = &names[1..];
        further.iter().fold(names[0], |number, &place| contents(entity_record(self.before, number))[place as usize - 1])
    }

    /// The first operand's record before.
    fn first(&self) -> &[u32] {
        entity_record(self.before, self.operand(request::FIRST))
    }

    /// The second operand's record before.
    fn second(&self) -> &[u32] {
        entity_record(self.before, self.operand(request::SECOND))
    }

    /// The place of the first operand in its container, and the container's record.
    fn place(&self) -> Option<(u32, &[u32])> {
        let number = self.operand(request::FIRST);
        let record = entity_record(self.before, Holders::of(self.before).container_of(number)?);
        Some((place_in(record, number)?, record))
    }

    /// What the requester's device shows before.
    fn screen(&self) -> &[u32] {
        match self.requester()[user::DEVICE] {
            0 => &[],
            device => contents(entity_record(self.before, device)),
        }
    }

    /// The triple that a grant or a revocation names.
    fn asked_triple(&self) -> u32 {
        triple(self.request[request::A], self.request[request::B], self.request[request::C])
    }

    /// Had the operand that triple before?
    fn holds_asked_triple(&self) -> bool {
        triples(self.first()).contains(&self.asked_triple())
    }

    /// The level asked for, and the old one.
    fn levels(&self) -> [u32; 2] {
        [self.request[request::A], self.first()[entity::LEVEL]]
    }

    /// How the level asked for stands to the old one.
    fn change(&self) -> Change {
        let [new, old] = self.levels();
        match (at_most(new, old), at_most(old, new)) {
            (true, true) => Change::Equal,
            (true, false) => Change::Lower,
            (false, true) => Change::Higher,
            (false, false) => Change::Sideways,
        }
    }

    /// Was it this operation on a level, answered so, and such a change?
    fn changes(&self, operation: u32, given: u32, change: Change) -> bool {
        self.is(operation, given) && self.change() == change
    }

    /// Was an entity's level to go sideways, with a rank that stands so to the old one, and refused for the role?
    fn is_sideways_refused(&self, rank: Ordering) -> bool {
        self.changes(op::SET_LEVEL, refusal::ROLE_MISSING, Change::Sideways) && {
            let [new, old] = self.levels().map(|level| level >> COMPARTMENT_BITS);
            new.cmp(&old) == rank
        }
    }

    /// Was the operand the requester's own device?
    fn is_of_own_device(&self) -> bool {
        self.operand(request::FIRST) == self.requester()[user::DEVICE]
    }
}

/// How a new level stands to the old one. It drops where it is strictly lower or sideways.
#[derive(Clone, Copy, PartialEq, Eq)]
enum Change {
    Equal,
    Higher,
    Lower,
    Sideways,
}

/// A corner: its name, and how to know it.
type Corner = (&'static str, fn(&Done) -> bool);

/// All corners, with the rules that they belong to.
const CORNERS: [Corner; 34] = [
    ("a refusal where another is held [8.2]", |d| {
        d.is_refused() && d.requester()[user::HELD] != 0 && d.requester()[user::HELD] != d.given
    }),
    ("a refusal where nothing is held [8.2]", |d| d.is_refused() && d.requester()[user::HELD] == 0),
    ("a refusal where the most are missed already [8.2]", |d| {
        d.is_refused() && d.requester()[user::MISSED] == MISSED_MOST
    }),
    ("a first refusal of what is no operation [8.2]", |d| {
        d.requester()[user::HELD] == 0
            && d.is_refused()
            && !(1..=OPERATION_MOST).contains(&d.request[request::OPERATION])
    }),
    ("four names, accepted [5.2]", |d| d.given == refusal::ACCEPTED && d.request[request::FIRST] == NAMES),
    ("a reference through a device, accepted [5.3]", |d| {
        let first = d.request[request::FIRST + 1];
        d.given == refusal::ACCEPTED
            && d.request[request::FIRST] > 1
            && entity_record(d.before, first)[entity::KIND] == kind::DEVICE
    }),
    ("an operand that is marked itself, accepted [7.9]", |d| {
        d.accepted(op::EDIT)
            && d.first()[entity::MARK] != 0
            && !at_most(d.first()[entity::LEVEL], d.requester()[user::CLEARANCE])
    }),
    ("a create that fills the container [6.1]", |d| d.accepted(op::CREATE) && d.first()[entity::USED] == PLACES - 1),
    ("a create that takes the last number [6.1]", |d| {
        d.accepted(op::CREATE)
            && (1..=ENTITIES).all(|number| entity_record(d.after, number)[entity::KIND] != kind::ABSENT)
    }),
    ("a delete with others behind in the container [6.2]", |d| {
        d.accepted(op::DELETE) && d.place().map_or(false, |(place, record)| place < record[entity::USED])
    }),
    ("a delete of what is in no container [6.2]", |d| d.accepted(op::DELETE) && d.place().is_none()),
    ("a move within one full container [6.3]", |d| {
        d.accepted(op::MOVE) && is_full_container(d.second()) && d.place().is_some()
    }),
    ("a move of what is in no container [6.3]", |d| d.accepted(op::MOVE) && d.place().is_none()),
    ("a move from between others into another container [6.3]", |d| {
        d.accepted(op::MOVE)
            && d.place().map_or(false, |(place, record)| place < record[entity::USED] && record != d.second())
    }),
    ("a copy of something to itself [6.5]", |d| {
        d.accepted(op::COPY) && d.operand(request::FIRST) == d.operand(request::SECOND)
    }),
    ("a strictly lower level, by a downgrader [6.6]", |d| d.changes(op::SET_LEVEL, refusal::ACCEPTED, Change::Lower)),
    ("a level sideways, by a downgrader [6.6]", |d| d.changes(op::SET_LEVEL, refusal::ACCEPTED, Change::Sideways)),
    ("a level sideways, its rank lower, refused for the role [6.6]", |d| d.is_sideways_refused(Ordering::Less)),
    ("a level sideways, its rank the same, refused for the role [6.6]", |d| d.is_sideways_refused(Ordering::Equal)),
    ("a level sideways, its rank higher, refused for the role [6.6]", |d| d.is_sideways_refused(Ordering::Greater)),
    ("the level that it has, without a downgrader [6.6]", |d| {
        d.changes(op::SET_LEVEL, refusal::ACCEPTED, Change::Equal) && !d.is_by_downgrader()
    }),
    ("a grant of what is there among eight [6.8]", |d| {
        d.accepted(op::GRANT) && d.holds_asked_triple() && triples(d.first()).len() == TRIPLES as usize
    }),
    ("a revocation of what is not there [6.9]", |d| d.accepted(op::REVOKE) && !d.holds_asked_triple()),
    ("a revocation with others behind [6.9]", |d| {
        d.accepted(op::REVOKE) && d.holds_asked_triple() && triples(d.first()).last() != Some(&d.asked_triple())
    }),
    ("a show of what a full screen shows already [6.10]", |d| {
        d.accepted(op::SHOW) && d.screen().len() == PLACES as usize
    }),
    ("a logout from a screen that shows something [6.13]", |d| d.accepted(op::LOGOUT) && !d.screen().is_empty()),
    ("current roles of somebody else, by an officer [6.14]", |d| {
        d.accepted(op::CURRENT_ROLES) && d.request[request::A] != d.request[request::USER]
    }),
    ("a strictly lower level of the own device, without a downgrader [6.18]", |d| {
        d.changes(op::DEVICE_LEVEL, refusal::ACCEPTED, Change::Lower) && d.is_of_own_device() && !d.is_by_downgrader()
    }),
    ("a level sideways of the own device, without a downgrader [6.18]", |d| {
        d.changes(op::DEVICE_LEVEL, refusal::ACCEPTED, Change::Sideways)
            && d.is_of_own_device()
            && !d.is_by_downgrader()
    }),
    ("a level sideways of another device, by a downgrader [6.18]", |d| {
        d.changes(op::DEVICE_LEVEL, refusal::ACCEPTED, Change::Sideways) && !d.is_of_own_device()
    }),
    ("a level sideways of another device, refused for the role [6.18]", |d| {
        d.changes(op::DEVICE_LEVEL, refusal::ROLE_MISSING, Change::Sideways)
    }),
    ("the level that another device has, without a downgrader [6.18]", |d| {
        d.changes(op::DEVICE_LEVEL, refusal::ACCEPTED, Change::Equal) && !d.is_of_own_device() && !d.is_by_downgrader()
    }),
    ("an acknowledgement by somebody who is off [6.20]", |d| {
        d.accepted(op::ACKNOWLEDGE) && d.requester()[user::DEVICE] == 0
    }),
    ("an acknowledgement of nothing where nothing is held [6.20]", |d| {
        d.is(op::ACKNOWLEDGE, refusal::NOT_ACKNOWLEDGED)
            && d.requester()[user::HELD] == 0
            && d.request[request::A] == 0
            && d.request[request::B] == 0
    }),
];

/// How often a run has been to each corner.
pub struct Corners {
    counts: [u64; CORNERS.len()],
}

impl Corners {
    /// Nothing is counted yet.
    pub fn new() -> Corners {
        Corners { counts: [0; CORNERS.len()] }
    }

    /// Counts a step for each corner that it has been to.
    pub fn count(&mut self, done: &Done) {
        for (count, (_, is_there)) in self.counts.iter_mut().zip(&CORNERS) {
            *count += u64::from(is_there(done));
        }
    }

    /// Writes the counts.
    pub fn print(&self, out: Out) {
        for (count, (name, _)) in self.counts.iter().zip(&CORNERS) {
            out.line(format_args!("{:>7} {}", count, name));
        }
    }

    /// Names the corners that were not reached; gives their number.
    pub fn name_unreached(&self, out: Out) -> u64 {
        let unreached: Vec<&str> =
            CORNERS.iter().zip(self.counts).filter(|(_, count)| *count == 0).map(|((name, _), _)| *name).collect();
        for name in &unreached {
            out.line(format_args!("not reached: {}", name));
        }
        unreached.len() as u64
    }
}
