//! The text of tables [rules 16.1 to 16.7]: the proved writer and reader and those of a desk written by hand get the same tables and bytes, and
//! must do what a slow and plain pair says.
mod cells;
mod sights;
mod tally;

use crate::guarded;
use crate::outcome::{again, Out, Outcome};
use crate::rounds::Comparison;
use crate::side::Side;
use crate::texts::call::{Difference, Reading, Sort, Writing};
use generate::layout::{refusal, TABLE_WORDS};
use generate::longest::{longest_text, TABLES_TEXT_MOST};
use generate::tables_text::{self as slow, damages, Bad};
use generate::text::Act;
use generate::{dice_for, full, Dice};
use ordinary::{Reply, Right};
use sights::{Read, Wrote};
use std::panic::{catch_unwind, AssertUnwindSafe};
use tally::Tally;

/// Tables that may be bad, and tables of any words, in each round.
const DAMAGED: u32 = 30;
const RANDOM: u32 = 3;
/// Damages of each kind to the text of a round.
const DAMAGES_OF_EACH: u32 = 20;
/// From one damaged text that is also read into tables of another length to the next.
const LENGTH_EVERY: u32 = 50;
/// Bytes more than are needed, at the most.
const SPARE_MOST: u32 = 40;
/// As many bytes of what was cut off stand behind a text.
const BEHIND_MOST: usize = 64;
/// Lengths of slices that are lent as tables, the right one among them.
const LENGTHS: [usize; 6] = [0, 1, TABLE_WORDS - 1, TABLE_WORDS, TABLE_WORDS + 1, 2 * TABLE_WORDS];

/// The text of tables [rules 16.4, 16.5].
const TABLES: Sort = Sort {
    names: ["write_tables", "read_tables"],
    write: |side, tables, room| side.write_tables(tables, room),
    read: |side, text, tables| side.read_tables(text, tables),
    text_of: |tables| match checked(tables) {
        answer @ (refusal::BAD_LENGTH | refusal::NOT_WELL_FORMED) => Err(answer),
        _ => Ok(slow::write(tables)),
    },
    words_of: |text, count| due_to(&slow::read(text), count),
};

/// What the check says of tables. It is compared elsewhere.
fn checked(tables: &[u32]) -> u32 {
    ordinary::check::<Right>(tables).answer
}

/// What a reader must give for a text that was read so, with so many words to fill: lengths first, then lines, and then the tables.
fn due_to(read: &Result<Vec<u32>, Bad>, count: usize) -> Result<Vec<u32>, Reply> {
    match read {
        _ if count != TABLE_WORDS => Err(Reply { answer: refusal::BAD_LENGTH, number: 0 }),
        Err(bad) => Err(Reply { answer: refusal::NOT_A_REQUEST, number: bad.line as u32 }),
        Ok(tables) if checked(tables) == refusal::NOT_WELL_FORMED => {
            Err(Reply { answer: refusal::NOT_WELL_FORMED, number: 0 })
        }
        Ok(tables) => Ok(tables.clone()),
    }
}

/// Compares so many rounds, and says what was reached and what differed.
pub fn run(what: &Comparison, out: Out) -> Outcome {
    let mut rounds = Rounds::new(what);
    let mut outcome = Outcome::default();
    let done =
        match what.go("tables_text", &mut outcome, out, |number, outcome| rounds.go_through(number, outcome, out)) {
            Some(done) => done,
            None => return outcome,
        };
    rounds.tally.print(out);
    outcome.amiss += rounds.tally.name_amiss(out);
    out.line(format_args!(
        "{} rounds, {} calls, {} cells reached, {} missing, {} differences",
        done,
        rounds.tally.calls(),
        rounds.tally.reached(),
        outcome.amiss,
        outcome.differences
    ));
    outcome
}

/// Both desks, and what was seen of them.
struct Rounds<'a> {
    what: &'a Comparison<'a>,
    sides: [Side<'a>; 2],
    tally: Tally,
    dice: Dice,
    /// What is being done, for a report.
    doing: &'static str,
}

impl<'a> Rounds<'a> {
    /// Nothing is compared yet.
    fn new(what: &'a Comparison<'a>) -> Rounds<'a> {
        let sides = [Side::Ordinary(what.desk), Side::Proved];
        Rounds { what, sides, tally: Tally::new(), dice: Dice::new(what.seed), doing: "nothing" }
    }

    /// Goes through one round. A desk that panics has given no answer at all: something is amiss then, but it is no difference.
    fn go_through(&mut self, number: u64, outcome: &mut Outcome, out: Out) {
        match catch_unwind(AssertUnwindSafe(|| self.round(number))) {
            Ok(Ok(())) => (),
            Ok(Err(difference)) => {
                self.report(number, &difference, out);
                let first = || format!("round {}, {}: {}", number, self.doing, difference.place);
                outcome.first.get_or_insert_with(first);
                outcome.differences += 1;
            }
            Err(_) => {
                let details = "panicked, as standard error says".to_string();
                self.report(number, &Difference { place: "some call".to_string(), details }, out);
                outcome.amiss += 1;
            }
        }
    }

    /// Says what differed, and how to see it again.
    fn report(&self, number: u64, difference: &Difference, out: Out) {
        let what = self.what;
        out.line(format_args!("difference: {}: {}", difference.place, difference.details));
        out.line(format_args!("  seed {}, round {}, {}", what.seed, number, self.doing));
        let same = again(format_args!("tables_text {} {} round={}{}", what.seed, what.rounds, number, what.options));
        out.line(format_args!("  again: {}", same));
    }

    /// All of a round follows from the seed and its number.
    fn round(&mut self, number: u64) -> Result<(), Difference> {
        guarded::start_from(number);
        self.dice = dice_for(self.what.seed, number);
        let tables = match number {
            1 => vec![0; TABLE_WORDS],
            2 => generate::s1(),
            3 => longest_text(&mut self.dice),
            4 => full::fullest(&mut self.dice),
            5 => full::full(&mut self.dice),
            _ => generate::tables(&mut self.dice),
        };
        self.doing = "good tables";
        let text = self.there_and_back(&tables)?;
        self.other_lengths(&tables, &text)?;
        self.damaged_tables(&tables)?;
        damages().try_for_each(|(name, act)| {
            self.doing = name;
            self.damaged_texts(&text, *act)
        })
    }

    /// Well-formed tables in rooms that are too short, as long as the text and longer, and read again; their text.
    fn there_and_back(&mut self, tables: &[u32]) -> Result<Vec<u8>, Difference> {
        let text = slow::write(tables);
        assert!(text.len() <= TABLES_TEXT_MOST, "no text is longer than the longest");
        assert_eq!(slow::read(&text).as_deref(), Ok(tables), "tables come back from their text");
        let need = text.len();
        let short = self.dice.below(need as u32) as usize;
        let spare = need + self.dice.between(2, SPARE_MOST) as usize;
        for room in [0, short, need.saturating_sub(1), need, need + 1, spare, TABLES_TEXT_MOST] {
            self.write(tables, TABLE_WORDS, room)?;
        }
        self.read(&text, &[], TABLE_WORDS)?;
        Ok(text)
    }

    /// Slices that are too short or too long for tables, which they are refused for before anything else.
    fn other_lengths(&mut self, tables: &[u32], text: &[u8]) -> Result<(), Difference> {
        let more = [tables, tables].concat();
        for count in LENGTHS {
            self.write(&more, count, text.len())?;
            self.write(&more, count, 0)?;
            self.read(text, &[], count)?;
            self.read(b"user=0\n", b"", count)?;
        }
        Ok(())
    }

    /// Tables that may no longer be secure, or no longer well-formed, and any words: 2 comes before 17. The text of those that still have one
    /// is read again, and so is what the others have instead.
    fn damaged_tables(&mut self, good: &[u32]) -> Result<(), Difference> {
        self.doing = "damaged tables";
        for _ in 0..DAMAGED {
            let mut tables = good.to_vec();
            generate::damage(&mut self.dice, &mut tables);
            if checked(&tables) == refusal::NOT_WELL_FORMED {
                self.write(&tables, TABLE_WORDS, 0)?;
                self.write(&tables, TABLE_WORDS, TABLES_TEXT_MOST)?;
                self.read(&slow::write(&tables), &[], TABLE_WORDS)?;
            } else {
                self.there_and_back(&tables)?;
            }
        }
        self.doing = "any words";
        for _ in 0..RANDOM {
            let mut tables = vec![0; TABLE_WORDS];
            generate::random_words(&mut self.dice, &mut tables);
            let room = self.dice.below(2) as usize * TABLES_TEXT_MOST;
            self.write(&tables, TABLE_WORDS, room)?;
        }
        Ok(())
    }

    /// One damage at some of the bytes. What stands behind a text that is cut off is what was cut off, so that whoever reads on reads well.
    fn damaged_texts(&mut self, good: &[u8], act: Act) -> Result<(), Difference> {
        let tries = if good.is_empty() { 0 } else { DAMAGES_OF_EACH };
        for _ in 0..tries {
            let at = self.dice.below(good.len() as u32) as usize;
            let mut text = good.to_vec();
            act(&mut self.dice, &mut text, at);
            let behind = &good[text.len().min(good.len())..];
            let behind = &behind[..BEHIND_MOST.min(behind.len())];
            if let Some(tables) = self.read(&text, behind, TABLE_WORDS)? {
                assert_eq!(slow::write(&tables), text, "a text comes back from its tables");
                self.write(&tables, TABLE_WORDS, text.len())?;
            }
            if self.dice.below(LENGTH_EVERY) == 0 {
                let count = self.dice.one_of(&LENGTHS);
                self.read(&text, behind, count)?;
            }
        }
        Ok(())
    }

    /// The first so many words go to both writers, with a room of this length.
    fn write(&mut self, words: &[u32], count: usize, room: usize) -> Result<(), Difference> {
        let reply = Writing { sort: &TABLES, words, count, room }.compare(&self.sides)?;
        self.tally.wrote(&Wrote { tables: &words[..count], room, reply });
        Ok(())
    }

    /// A text goes to both readers, with so many words to fill; its tables, where it has some.
    fn read(&mut self, text: &[u8], behind: &[u8], count: usize) -> Result<Option<Vec<u32>>, Difference> {
        let read = slow::read(text);
        let due = due_to(&read, count);
        let reply = Reading { sort: &TABLES, text, behind, count }.compare_with(due.clone(), &self.sides)?;
        self.tally.read(&Read { text, count, read: &read, reply });
        Ok(due.ok())
    }
}
