//! What must be seen of the writer and the reader of tables: neither an answer nor a rule that is broken says it.
use super::checked;
use generate::layout::{
    entity, kind, parts_of, refusal, ENTITIES, KIND_MOST, LEVEL_MOST, PLACES, TABLE_WORDS, TRIPLES, USERS,
};
use generate::longest::TABLES_TEXT_MOST;
use generate::tables_text::{Bad, Due, Reason};
use generate::view::{entity_record, triples, users_where};
use ordinary::Reply;

/// A writing that both desks did alike.
pub struct Wrote<'a> {
    pub tables: &'a [u32],
    pub room: usize,
    pub reply: Reply,
}

impl Wrote<'_> {
    /// Was it answered so, with a number that the room is in this relation to?
    fn is(&self, answer: u32, holds: impl Fn(usize, usize) -> bool) -> bool {
        self.reply.answer == answer && holds(self.reply.number as usize, self.room)
    }

    /// Were these the words of tables, by their number?
    fn is_of_length(&self, words: usize) -> bool {
        self.reply.answer == refusal::BAD_LENGTH && self.tables.len() == words
    }
}

/// A reading that both desks did alike.
pub struct Read<'a> {
    pub text: &'a [u8],
    pub count: usize,
    /// What the lines of the text give, whatever was answered.
    pub read: &'a Result<Vec<u32>, Bad>,
    pub reply: Reply,
}

impl Read<'_> {
    /// Was it answered so, and do its tables have this?
    fn gives(&self, answer: u32, holds: impl Fn(&[u32]) -> bool) -> bool {
        self.reply.answer == answer && self.read.as_deref().map_or(false, holds)
    }

    /// The same of some entity that is present.
    fn gives_entity(&self, answer: u32, holds: impl Fn(&[u32]) -> bool) -> bool {
        self.gives(answer, |tables| any_entity(tables, &holds))
    }

    /// Was a line bad, of which this holds? Its bytes are without the LF.
    fn fails(&self, holds: impl Fn(&Bad, &[u8]) -> bool) -> bool {
        match self.read {
            Err(bad) if self.reply.answer == refusal::NOT_A_REQUEST => holds(bad, self.line(bad)),
            _ => false,
        }
    }

    /// Was this line bad where that was due?
    fn fails_with(&self, due: Due, line: &[u8]) -> bool {
        self.fails(|bad, found| bad.due == due && found == line)
    }

    /// Was a line with this key bad where that was due?
    fn fails_for(&self, due: Due, other: Due) -> bool {
        self.fails(|bad, found| bad.due == due && has_key(found, other))
    }

    /// Was a line with such a key bad where something of that sort was due?
    fn mixes(&self, due: fn(Due) -> bool, other: fn(Due) -> bool) -> bool {
        self.fails(|bad, found| due(bad.due) && Due::all().into_iter().any(|key| other(key) && has_key(found, key)))
    }

    /// Was a triple bad of which one part is this, and no other too large?
    fn fails_part(&self, part: usize, wanted: u32, most: [u32; 3]) -> bool {
        self.fails(|bad, found| {
            let parts = numbers(found);
            let others_fit = || (0..3).all(|other| other == part || parts[other] <= most[other]);
            bad.due == Due::Triple && parts.len() == 3 && parts[part] == wanted && others_fit()
        })
    }

    /// The bytes of the bad line; none where it is missing.
    fn line(&self, bad: &Bad) -> &[u8] {
        let mut lines = self.text.split_inclusive(|byte| *byte == b'\n');
        let line = lines.nth(bad.line - 1).unwrap_or(b"");
        line.strip_suffix(b"\n").unwrap_or(line)
    }
}

/// Does a line begin with a key and the equals sign?
fn has_key(line: &[u8], due: Due) -> bool {
    line.strip_prefix(due.key().as_bytes()).map_or(false, |rest| rest.starts_with(b"="))
}

/// Is it a line of a user behind the number?
fn is_of_user(due: Due) -> bool {
    matches!(due, Due::OfUser(_))
}

/// Is it a line of an entity behind the number, and before its rows?
fn is_of_entity(due: Due) -> bool {
    matches!(due, Due::OfEntity(_))
}

/// The numbers with dots between them behind the equals sign of a line.
fn numbers(line: &[u8]) -> Vec<u32> {
    let line = String::from_utf8_lossy(line);
    let value = line.split_once('=').map_or("", |(_, value)| value);
    value.split('.').map_while(|number| number.parse().ok()).collect()
}

/// Is there such an entity?
fn any_entity(tables: &[u32], holds: impl Fn(&[u32]) -> bool) -> bool {
    (1..=ENTITIES)
        .map(|number| entity_record(tables, number))
        .any(|record| record[entity::KIND] != kind::ABSENT && holds(record))
}

/// Are all users and all entities present?
fn is_full(tables: &[u32]) -> bool {
    users_where(tables, |record| record[0] != 0).len() == USERS as usize
        && (1..=ENTITIES).all(|number| entity_record(tables, number)[entity::KIND] != kind::ABSENT)
}

/// Does some place hold what is absent?
fn holds_absent(tables: &[u32]) -> bool {
    let is_absent =
        |number: u32| (1..=ENTITIES).contains(&number) && entity_record(tables, number)[entity::KIND] == kind::ABSENT;
    any_entity(tables, |record| record[entity::CONTENTS] != 0 && is_absent(record[entity::CONTENTS]))
}

/// Has some entity a level out of its range?
fn is_too_high(tables: &[u32]) -> bool {
    any_entity(tables, |record| record[entity::LEVEL] > LEVEL_MOST)
}

/// Something that must be seen: its name, and how to know it.
type OfWriting = (&'static str, fn(&Wrote) -> bool);
type OfReading = (&'static str, fn(&Read) -> bool);

/// Of writings.
pub const OF_WRITINGS: [OfWriting; 14] = [
    ("no record and no room, accepted [16.4]", |w| w.is(refusal::ACCEPTED, |need, room| need == 0 && room == 0)),
    ("no record and some room, accepted [16.4]", |w| w.is(refusal::ACCEPTED, |need, room| need == 0 && room > 0)),
    ("a room as long as the text [16.4]", |w| w.is(refusal::ACCEPTED, |need, room| need > 0 && room == need)),
    ("a room one byte longer [16.4]", |w| w.is(refusal::ACCEPTED, |need, room| need > 0 && room == need + 1)),
    ("a room one byte too short [16.4]", |w| w.is(refusal::TOO_SHORT, |need, room| room + 1 == need)),
    ("no room for a text [16.4]", |w| w.is(refusal::TOO_SHORT, |_, room| room == 0)),
    ("the longest text in a room as long [16.7]", |w| {
        w.is(refusal::ACCEPTED, |need, room| need == TABLES_TEXT_MOST && room == need)
    }),
    ("tables that are not secure, accepted [16.4]", |w| {
        w.reply.answer == refusal::ACCEPTED && checked(w.tables) == refusal::NOT_SECURE
    }),
    ("tables that are not well-formed, and room for any text [16.4]", |w| {
        w.is(refusal::NOT_WELL_FORMED, |_, room| room >= TABLES_TEXT_MOST)
    }),
    ("tables that are not well-formed, and no room [16.4]", |w| w.is(refusal::NOT_WELL_FORMED, |_, room| room == 0)),
    ("no words of tables [16.4]", |w| w.is_of_length(0)),
    ("one word of tables too few [16.4]", |w| w.is_of_length(TABLE_WORDS - 1)),
    ("one word of tables too many [16.4]", |w| w.is_of_length(TABLE_WORDS + 1)),
    ("tables of another length, and no room [16.4]", |w| w.is(refusal::BAD_LENGTH, |_, room| room == 0)),
];

/// Of readings.
pub const OF_READINGS: [OfReading; 47] = [
    ("no bytes, accepted [16.1]", |r| r.gives(refusal::ACCEPTED, |_| r.text.is_empty())),
    ("tables that are not secure, accepted [16.5]", |r| {
        r.gives(refusal::ACCEPTED, |tables| checked(tables) == refusal::NOT_SECURE)
    }),
    ("all users and all entities, accepted [16.5]", |r| r.gives(refusal::ACCEPTED, is_full)),
    ("the longest text, accepted [16.7]", |r| r.gives(refusal::ACCEPTED, |_| r.text.len() == TABLES_TEXT_MOST)),
    ("eight places, accepted [16.3]", |r| r.gives_entity(refusal::ACCEPTED, |record| record[entity::USED] == PLACES)),
    ("eight triples, accepted [16.3]", |r| {
        r.gives_entity(refusal::ACCEPTED, |record| triples(record).len() == TRIPLES as usize)
    }),
    ("the value 4,294,967,295, accepted [16.3]", |r| {
        r.gives_entity(refusal::ACCEPTED, |record| record[entity::VALUE] == u32::MAX)
    }),
    ("a level out of its range, 2 [16.5]", |r| r.gives(refusal::NOT_WELL_FORMED, is_too_high)),
    ("a level of 4,294,967,295, 2 [16.5]", |r| {
        r.gives_entity(refusal::NOT_WELL_FORMED, |record| record[entity::LEVEL] == u32::MAX)
    }),
    ("content that is absent, 2 [16.5]", |r| r.gives(refusal::NOT_WELL_FORMED, holds_absent)),
    ("a kind that there is none of, 2 [16.5]", |r| {
        r.gives_entity(refusal::NOT_WELL_FORMED, |record| record[entity::KIND] > KIND_MOST)
    }),
    ("a sum on no device, 2 [16.5]", |r| {
        let shows = |record: &[u32]| record[entity::KIND] == kind::CONTAINER && record[entity::SHOWN] != 0;
        r.gives_entity(refusal::NOT_WELL_FORMED, shows)
    }),
    ("the greatest triple there is a word for, 2 [16.3]", |r| {
        r.gives_entity(refusal::NOT_WELL_FORMED, |record| triples(record).contains(&u32::MAX))
    }),
    ("a triple of two zeros, 2 [16.3]", |r| {
        let has = |record: &[u32]| {
            triples(record).iter().any(|word| parts_of(*word).iter().filter(|part| **part == 0).count() == 2)
        };
        r.gives_entity(refusal::NOT_WELL_FORMED, has)
    }),
    ("eight places in tables that are 2 [16.3]", |r| {
        r.gives_entity(refusal::NOT_WELL_FORMED, |record| record[entity::USED] == PLACES)
    }),
    ("the first line bad [16.3]", |r| r.fails(|bad, _| bad.line == 1)),
    ("line 1,000 or a later one bad [16.3]", |r| r.fails(|bad, _| bad.line >= 1_000)),
    ("a bad line behind a level out of its range [16.5]", |r| r.fails(|bad, _| is_too_high(&bad.before))),
    ("a missing line behind a level out of its range [16.5]", |r| {
        r.fails(|bad, _| bad.reason == Reason::Missing && is_too_high(&bad.before))
    }),
    ("an empty line at the end [16.3]", |r| r.text.ends_with(b"\n\n") && r.fails_with(Due::Entity, b"")),
    ("an empty line before a record [16.3]", |r| !r.text.ends_with(b"\n\n") && r.fails_with(Due::Entity, b"")),
    ("a user behind an entity [16.3]", |r| r.fails_for(Due::Entity, Due::User)),
    ("a user's line in an entity [16.3]", |r| r.mixes(is_of_entity, is_of_user)),
    ("an entity's line in a user [16.3]", |r| r.mixes(is_of_user, is_of_entity)),
    ("a user before the one before is told [16.3]", |r| r.mixes(is_of_user, |due| due == Due::User)),
    ("an entity before a user is told [16.3]", |r| r.mixes(is_of_user, |due| due == Due::Entity)),
    ("an entity before the one before is told [16.3]", |r| r.mixes(is_of_entity, |due| due == Due::Entity)),
    ("CR LF [16.3]", |r| r.fails(|_, line| line.ends_with(b"\r"))),
    ("fewer places than are told [16.3]", |r| r.fails_for(Due::Content, Due::Triples)),
    ("more places than are told [16.3]", |r| r.fails_for(Due::Triples, Due::Content)),
    ("fewer triples than are told [16.3]", |r| r.fails_for(Due::Triple, Due::Entity)),
    ("more triples than are told [16.3]", |r| r.fails_for(Due::Entity, Due::Triple)),
    ("user 0 [16.3]", |r| r.fails_with(Due::User, b"user=0")),
    ("user 17 [16.3]", |r| r.fails_with(Due::User, b"user=17")),
    ("a user twice [16.3]", |r| {
        r.fails(|bad, line| {
            bad.due == Due::User && bad.reason == Reason::Rising && Some(numbers(line)[0]) == last_user(bad)
        })
    }),
    ("entity 0 [16.3]", |r| r.fails_with(Due::Entity, b"entity=0")),
    ("entity 65 [16.3]", |r| r.fails_with(Due::Entity, b"entity=65")),
    ("kind 0 [16.3]", |r| r.fails_with(Due::KIND, b"kind=0")),
    ("nine places [16.3]", |r| r.fails_with(Due::PLACES, b"places=9")),
    ("nine triples [16.3]", |r| r.fails_with(Due::Triples, b"triples=9")),
    ("who 65,536 [16.3]", |r| r.fails_part(0, 65_536, [65_535, 255, 255])),
    ("operation 256 [16.3]", |r| r.fails_part(1, 256, [65_535, 255, 255])),
    ("position 256 [16.3]", |r| r.fails_part(2, 256, [65_535, 255, 255])),
    ("the number 4,294,967,296 [16.3]", |r| {
        r.fails(|bad, line| bad.reason == Reason::Bits && line.ends_with(b"=4294967296"))
    }),
    ("a last line with its key and without LF [16.3]", |r| {
        r.fails(|bad, line| bad.reason == Reason::Unended && has_key(line, bad.due))
    }),
    ("a slice of another length for a good text [16.5]", |r| r.reply.answer == refusal::BAD_LENGTH && r.read.is_ok()),
    ("a slice of another length for a bad text [16.5]", |r| {
        r.reply.answer == refusal::BAD_LENGTH && r.read.is_err() && r.count > 0
    }),
];

/// The last user that came before a bad line.
fn last_user(bad: &Bad) -> Option<u32> {
    users_where(&bad.before, |record| record[0] != 0).last().copied()
}
