//! What was seen of the lists in a run, and whether anything is missing.
use crate::outcome::Out;
use generate::layout::{entity, kind, refusal, user, ENTRY_WORDS, NAMES, PLACES};
use generate::view::{contents, entity_record, user_record};
use ordinary::Reply;

/// What a list can answer.
const ANSWERS: [u32; 7] = [
    refusal::ACCEPTED,
    refusal::BAD_LENGTH,
    refusal::NOT_WELL_FORMED,
    refusal::NOT_SECURE,
    refusal::UNKNOWN_REQUESTER,
    refusal::NOT_LOGGED_ON,
    refusal::TOO_SHORT,
];

/// Counts of what lists gave.
#[derive(Default)]
pub struct ListTally {
    answers: [u64; refusal::TOO_SHORT as usize + 1],
    one_word_short: u64,
    one_entry_short: u64,
    without_entries: u64,
    longest: u32,
    /// Entries by their number of names.
    lengths: [u64; NAMES as usize + 1],
    through_device: u64,
    /// Entries whose show would be answered 14.
    no_place: u64,
    /// Lists that were compared with what a step says of every reference.
    pub by_step: u64,
    /// References that the proved step was asked about, beside those of a list.
    pub sampled: u64,
}

/// The entity that an entry leads to.
fn led_to(tables: &[u32], entry: &[u32]) -> u32 {
    let places = &entry[2..1 + entry[0] as usize];
    places.iter().fold(entry[1], |number, &place| contents(entity_record(tables, number))[place as usize - 1])
}

/// Is the user's screen full, and the entity not on it?
fn finds_no_place(tables: &[u32], asker: u32, number: u32) -> bool {
    let shown = contents(entity_record(tables, user_record(tables, asker)[user::DEVICE]));
    shown.len() == PLACES as usize && !shown.contains(&number)
}

impl ListTally {
    /// Counts a list that both desks gave alike, in a room of so many words.
    pub fn count(&mut self, reply: Reply, length: usize) {
        self.answers[reply.answer as usize] += 1;
        let need = reply.number as usize * ENTRY_WORDS;
        if reply.answer == refusal::TOO_SHORT {
            self.one_word_short += u64::from(length + 1 == need);
            self.one_entry_short += u64::from(length + ENTRY_WORDS == need);
        }
        if reply.answer == refusal::ACCEPTED {
            self.without_entries += u64::from(reply.number == 0);
            self.longest = self.longest.max(reply.number);
        }
    }

    /// Counts the entries of a list.
    pub fn count_entries(&mut self, tables: &[u32], asker: u32, entries: &[u32]) {
        for entry in entries.chunks(ENTRY_WORDS) {
            let is_device = entity_record(tables, entry[1])[entity::KIND] == kind::DEVICE;
            self.lengths[entry[0] as usize] += 1;
            self.through_device += u64::from(is_device);
            self.no_place += u64::from(finds_no_place(tables, asker, led_to(tables, entry)));
        }
    }

    /// Writes what was counted.
    pub fn print(&self, out: Out) {
        let answers: Vec<String> =
            ANSWERS.iter().map(|&given| format!("{}: {}", given, self.answers[given as usize])).collect();
        let lengths: Vec<String> =
            (1..self.lengths.len()).map(|names| format!("{}: {}", names, self.lengths[names])).collect();
        out.line(format_args!("lists: {}, answered {}", self.answers.iter().sum::<u64>(), answers.join(", ")));
        out.line(format_args!(
            "lists in a room one word too short: {}, one entry too short: {}; without entries: {}; the longest has {} entries",
            self.one_word_short, self.one_entry_short, self.without_entries, self.longest
        ));
        out.line(format_args!(
            "entries by their names, {}; through a device: {}; whose show would be answered 14: {}",
            lengths.join(", "),
            self.through_device,
            self.no_place
        ));
        out.line(format_args!(
            "lists compared with the ordinary step for every reference: {}; references that the proved step was asked about: {}",
            self.by_step, self.sampled
        ));
    }

    /// Names what should have been seen and was not; gives the number.
    pub fn name_unreached(&self, out: Out) -> u64 {
        let answers = ANSWERS.iter().map(|&given| (format!("answer {}", given), self.answers[given as usize]));
        let lengths = (1..self.lengths.len()).map(|names| (format!("entry of {} names", names), self.lengths[names]));
        let others = [
            ("room one word too short", self.one_word_short),
            ("room one entry too short", self.one_entry_short),
            ("no entries", self.without_entries),
            ("entry through a device", self.through_device),
            ("entry whose show would be answered 14", self.no_place),
            ("compared with the ordinary step", self.by_step),
            ("compared with the proved step", self.sampled),
        ];
        let others = others.iter().map(|&(what, count)| (what.to_string(), count));
        let unreached: Vec<String> =
            answers.chain(lengths).chain(others).filter(|(_, count)| *count == 0).map(|(what, _)| what).collect();
        for what in &unreached {
            out.line(format_args!("not reached: list, {}", what));
        }
        unreached.len() as u64
    }
}
