//! Lists in rooms of every length, from none to a few words more than are needed, and in the longest: S1, where the entries are written out by
//! hand; S1 with something amiss, where there are none; and full tables, where they follow from the steps.
use super::by_step::{by_ordinary_step, by_proved_step};
use super::s1::LISTS;
use crate::guarded::Guarded;
use crate::outcome::{Out, Outcome};
use crate::side::Side;
use generate::full::{full, fullest, ENTRIES_MOST};
use generate::layout::{entity, entity_base, refusal, user, user_base, ENTRY_WORDS, LEVEL_MOST, TABLE_WORDS, USERS};
use generate::{s1, Dice};
use ordinary::{Reply, Right};

/// Words more than are needed, at the most.
const PAST: usize = 2 * ENTRY_WORDS + 1;
/// The longest room that is lent.
const ROOM_MOST: usize = (ENTRIES_MOST as usize + 10) * ENTRY_WORDS;
/// Of full tables; the first are the fullest.
const FULL_TABLES: u32 = 4;
/// So many users of each are asked for, one after another from any of them on.
const USERS_OF_EACH: u32 = 2;

/// What a list should be.
struct Wanted {
    what: String,
    tables: Vec<u32>,
    user: u32,
    /// In a room that is long enough.
    answer: u32,
    entries: Vec<u32>,
}

/// How far it has come.
struct Progress {
    calls: u64,
    too_short: u64,
    by_steps: u64,
    most: usize,
    outcome: Outcome,
    out: Out,
}

impl Wanted {
    /// What is to be answered in a room of so many words.
    fn reply_in(&self, length: usize) -> Reply {
        let fits = self.answer != refusal::ACCEPTED || length >= self.entries.len();
        let answer = if fits { self.answer } else { refusal::TOO_SHORT };
        Reply { answer, number: (self.entries.len() / ENTRY_WORDS) as u32 }
    }

    /// Was it answered right, and nothing written but the entries?
    fn is_met(&self, reply: Reply, tables: &Guarded<u32>, room: &Guarded<u32>) -> bool {
        let wanted = self.reply_in(room.words().len());
        let written = if wanted.answer == refusal::ACCEPTED { &self.entries[..] } else { &[] };
        reply == wanted
            && tables.holds(&self.tables)
            && room.words().starts_with(written)
            && room.untouched_from(written.len())
    }
}

impl Progress {
    /// Says what is wrong, and counts it.
    fn complain(&mut self, line: String) {
        self.out.line(format_args!("{}", line));
        self.outcome.first.get_or_insert(line);
        self.outcome.differences += 1;
    }

    /// One desk in rooms of these lengths, up to its first error, since thousands might follow.
    fn try_desk(&mut self, wanted: &Wanted, side: Side, lengths: impl Iterator<Item = usize>) {
        let mut tables = Guarded::holding(&wanted.tables);
        let mut room = Guarded::room(0);
        for length in lengths {
            room.empty(length);
            let reply = side.list(tables.lent(), wanted.user, room.lent());
            self.calls += 1;
            self.too_short += u64::from(wanted.reply_in(length).answer == refusal::TOO_SHORT);
            if !wanted.is_met(reply, &tables, &room) {
                let reply = format!("answer {} (number {})", reply.answer, reply.number);
                let desk = side.name();
                return self.complain(format!("{}, {}: room of {} words: {}", desk, wanted.what, length, reply));
            }
        }
    }

    /// Both desks in rooms of every length.
    fn try_rooms(&mut self, wanted: &Wanted) {
        let most = wanted.entries.len() + PAST;
        for side in [Side::Ordinary(&Right), Side::Proved] {
            self.try_desk(wanted, side, (0..=most).chain([ROOM_MOST]));
        }
        self.most = self.most.max(wanted.entries.len());
        self.out.line(format_args!(
            "{}: answer {}, {} entries, rooms of 0 to {} and of {} words",
            wanted.what,
            wanted.answer,
            wanted.entries.len() / ENTRY_WORDS,
            most,
            ROOM_MOST
        ));
    }

    /// The lists of S1 that are written out by hand.
    fn try_s1(&mut self) {
        for case in &LISTS {
            let what = format!("S1, {}", case.what);
            let wanted =
                Wanted { what, tables: case.tables(), user: case.user, answer: case.answer, entries: case.words() };
            self.try_rooms(&wanted);
        }
    }

    /// User 2 has an entry in S1, so there is something that must not be written.
    fn expect_refusal(&mut self, what: String, tables: Vec<u32>, answer: u32) {
        self.try_rooms(&Wanted { what, tables, user: 2, answer, entries: Vec::new() });
    }

    /// S1 cut short, or with a word too many.
    fn try_other_lengths(&mut self) {
        for count in [0, 1, TABLE_WORDS - 1, TABLE_WORDS + 1] {
            let mut tables = s1();
            tables.resize(count, 0);
            self.expect_refusal(format!("S1, {} words of tables", count), tables, refusal::BAD_LENGTH);
        }
    }

    /// S1 with one word changed so that it is no longer well-formed, or no longer secure.
    fn try_other_words(&mut self) {
        let changes = [
            ("spare word of user 3", user_base(3) + user::SPARE, 1, refusal::NOT_WELL_FORMED),
            ("4 in itself", entity_base(4) + entity::CONTENTS + 1, 4, refusal::NOT_WELL_FORMED),
            ("a used place of 7 empty", entity_base(7) + entity::USED, 1, refusal::NOT_WELL_FORMED),
            ("users 1 and 2 on one device", user_base(1) + user::DEVICE, 2, refusal::NOT_WELL_FORMED),
            ("the last word of all not 0", TABLE_WORDS - 1, 1, refusal::NOT_WELL_FORMED),
            ("user 2 with a role without authority", user_base(2) + user::CURRENT, 1, refusal::NOT_SECURE),
            ("device 2 above its maximum", entity_base(2) + entity::MAXIMUM, 256, refusal::NOT_SECURE),
            ("5 above what holds it", entity_base(5) + entity::LEVEL, LEVEL_MOST, refusal::NOT_SECURE),
        ];
        for (what, word, value, answer) in changes {
            let mut tables = s1();
            tables[word] = value;
            self.expect_refusal(format!("S1, {}", what), tables, answer);
        }
    }

    /// What the list of full tables should be, where both steps say the same.
    fn by_both_steps(&mut self, what: &str, tables: &[u32], user: u32) -> Option<Vec<u32>> {
        let (ordinary, proved) = (by_ordinary_step(tables, user), by_proved_step(tables, user));
        if ordinary.is_none() || ordinary != proved {
            self.complain(format!("{}: the two steps do not give the same list", what));
            return None;
        }
        self.by_steps += 1;
        ordinary
    }

    /// Full tables: a few users, and a number that is nobody's.
    fn try_full(&mut self, dice: &mut Dice, number: u32) {
        let tables = if number == 1 { fullest(dice) } else { full(dice) };
        let first = dice.below(USERS);
        for user in (0..USERS_OF_EACH).map(|i| 1 + (first + i) % USERS) {
            let what = format!("full tables {}, user {}", number, user);
            if let Some(entries) = self.by_both_steps(&what, &tables, user) {
                if number == 1 && entries.len() != ENTRIES_MOST as usize * ENTRY_WORDS {
                    self.complain(format!("{}: not as many entries as there can be", what));
                }
                self.try_rooms(&Wanted { what, tables: tables.clone(), user, answer: refusal::ACCEPTED, entries });
            }
        }
        // Nobody is off in full tables, so 4 is the refusal there.
        let (what, user) = (format!("full tables {}, user {}", number, USERS + 1), USERS + 1);
        self.try_rooms(&Wanted { what, tables, user, answer: refusal::UNKNOWN_REQUESTER, entries: Vec::new() });
    }
}

/// Tries them all.
pub fn run(seed: u64, out: Out) -> Outcome {
    let outcome = Outcome::default();
    let mut progress = Progress { calls: 0, too_short: 0, by_steps: 0, most: 0, outcome, out };
    let mut dice = Dice::new(seed);
    out.line(format_args!("rooms: seed {}", seed));
    progress.try_s1();
    progress.try_other_lengths();
    progress.try_other_words();
    for number in 1..=FULL_TABLES {
        progress.try_full(&mut dice, number);
    }
    out.line(format_args!("lists of full tables that both steps give alike: {}", progress.by_steps));
    out.line(format_args!(
        "{} calls, {} of them in a room too short, largest need {} words, {} wrong",
        progress.calls, progress.too_short, progress.most, progress.outcome.differences
    ));
    progress.outcome
}
