//! The request text [rules 11.1 to 11.5]: the proved writer and reader and those of a desk written by hand get the same words and bytes, and
//! must do what a slow and plain pair says.

pub mod call;
pub mod cases;
mod damage;
mod slow;
mod tally;

use generate::layout::{refusal, REQUEST_WORDS};
use generate::text::Act;
use generate::{dice_for, Dice};

use crate::guarded;
use crate::outcome::{again, Out, Outcome};
use crate::side::{ByHand, Side};
use call::{Difference, Reading, Sort, Writing};
use ordinary::Reply;
use tally::Tally;

/// Rooms of every length up to this are written to; it is some bytes more than the longest text has.
const ROOM_MOST: usize = 170;
/// From one room for words that have no text to the next.
const ROOM_STRIDE: usize = 10;
/// Words in the longest slice that is lent for a request.
const WORDS_MOST: usize = 20;
/// From one damaged text that is also read into a slice of any length to the next.
const LENGTH_STRIDE: usize = 16;
/// Differences after which a run is given up.
const REPORTS_MOST: u64 = 5;

/// The text of a request [rules 11.3, 11.4].
const REQUEST: Sort = Sort {
    names: ["write", "read"],
    write: |side, words, room| side.write(words, room),
    read: |side, text, words| side.read(text, words),
    text_of: |words| match words.len() {
        REQUEST_WORDS => slow::write(words).ok_or(refusal::BAD_REQUEST),
        _ => Err(refusal::BAD_LENGTH),
    },
    words_of: |text, count| match count {
        REQUEST_WORDS => match slow::read(text) {
            Ok(words) => Ok(words.to_vec()),
            Err(line) => Err(Reply { answer: refusal::NOT_A_REQUEST, number: line as u32 }),
        },
        _ => Err(Reply { answer: refusal::BAD_LENGTH, number: 0 }),
    },
};

/// What a run is asked for.
pub struct Comparison<'a> {
    pub seed: u64,
    pub rounds: u64,
    /// Who writes and reads, against the proved desk.
    pub desk: ByHand<'a>,
    /// What to give besides to run it again.
    pub options: String,
}

/// Compares so many rounds, and says what was reached and what differed.
pub fn run(what: &Comparison, out: Out) -> Outcome {
    let mut outcome = Outcome::default();
    let mut tally = Tally::new();
    let mut done = 0;
    let sides = [Side::Ordinary(what.desk), Side::Proved];
    let seed = what.seed;
    out.line(format_args!("texts: seed {}, {} rounds{}", seed, what.rounds, what.options));
    while done < what.rounds && outcome.differences < REPORTS_MOST {
        done += 1;
        let mut round = Round { seed, number: done, dice: dice_for(seed, done), sides, tally: &mut tally };
        if let Err(difference) = round.compare() {
            out.line(format_args!("difference in round {}: {}: {}", done, difference.place, difference.details));
            let same = again(format_args!("texts {} {}{}", seed, done, what.options));
            out.line(format_args!("  again, in the last round: {}", same));
            outcome.first.get_or_insert_with(|| format!("round {}: {}", done, difference.place));
            outcome.differences += 1;
        }
    }
    outcome.amiss = tally.print(out);
    out.line(format_args!(
        "{} rounds, {} lines and answers not reached, {} differences",
        done, outcome.amiss, outcome.differences
    ));
    outcome
}

/// A request, its text, and all that is done with both.
struct Round<'a> {
    seed: u64,
    number: u64,
    dice: Dice,
    sides: [Side<'a>; 2],
    tally: &'a mut Tally,
}

impl Drop for Round<'_> {
    /// A desk that panics leaves no report of a difference: then this tells where it was.
    fn drop(&mut self) {
        if std::thread::panicking() {
            eprintln!("in round {} of seed {}", self.number, self.seed);
        }
    }
}

impl Round<'_> {
    /// Ends at the first difference.
    fn compare(&mut self) -> Result<(), Difference> {
        guarded::start_from(self.number);
        let words = match self.number {
            1 => cases::shortest(),
            2 => cases::longest(),
            _ => cases::good(&mut self.dice),
        };
        let text = slow::write(&words).expect("these words have a text");
        assert_eq!(slow::read(&text), Ok(words), "words come back from their text");
        self.compare_rooms(&words)?;
        self.compare_bad_words()?;
        self.compare_counts(&words)?;
        self.compare_readers(&text)
    }

    /// Words with a text, in rooms of every length.
    fn compare_rooms(&mut self, words: &cases::Words) -> Result<(), Difference> {
        (0..=ROOM_MOST).try_for_each(|room| self.write(words, REQUEST_WORDS, room))
    }

    /// Words without one, in rooms of some lengths: 5 comes before 17.
    fn compare_bad_words(&mut self) -> Result<(), Difference> {
        for room in (0..=ROOM_MOST).step_by(ROOM_STRIDE) {
            let bad = cases::bad(&mut self.dice);
            self.write(&bad, REQUEST_WORDS, room)?;
        }
        Ok(())
    }

    /// Slices that are too short or too long, in rooms that are long enough or hardly so: 1 comes before 17.
    fn compare_counts(&mut self, words: &cases::Words) -> Result<(), Difference> {
        let mut more = [0; WORDS_MOST];
        more[..REQUEST_WORDS].copy_from_slice(words);
        for count in 0..=WORDS_MOST {
            self.write(&more, count, ROOM_MOST)?;
            self.write(&more, count, count)?;
        }
        Ok(())
    }

    /// Slices of all lengths for the good text, which a wrong one is refused for before the text is looked at; then each damage.
    fn compare_readers(&mut self, text: &[u8]) -> Result<(), Difference> {
        for count in 0..=WORDS_MOST {
            self.read(text, &[], count)?;
        }
        damage::all().enumerate().try_for_each(|(kind, (_, act))| self.compare_damaged(text, kind, *act))
    }

    /// One damage at each byte. What stands behind a text that is cut off is what was cut off, so that whoever reads on reads well.
    fn compare_damaged(&mut self, good: &[u8], kind: usize, act: Act) -> Result<(), Difference> {
        for at in 0..good.len() {
            let mut text = good.to_vec();
            act(&mut self.dice, &mut text, at);
            let line = self.read(&text, &good[at..], REQUEST_WORDS)?;
            self.tally.damaged(kind, line);
            if line == 0 {
                self.write_again(&text)?;
            }
            if at % LENGTH_STRIDE == 0 {
                let count = self.dice.below(WORDS_MOST as u32 + 1) as usize;
                self.read(&text, &good[at..], count)?;
            }
        }
        Ok(())
    }

    /// A text that can be read is the one that is written for its words [rule 11.5].
    fn write_again(&mut self, text: &[u8]) -> Result<(), Difference> {
        let words = slow::read(text).expect("a text that was read");
        assert_eq!(slow::write(&words).as_deref(), Some(text), "a text comes back from its words");
        self.write(&words, REQUEST_WORDS, text.len())
    }

    /// The first so many of the words go to both writers, with a room of this length.
    fn write(&mut self, words: &[u32], count: usize, room: usize) -> Result<(), Difference> {
        let reply = Writing { sort: &REQUEST, words, count, room }.compare(&self.sides)?;
        self.tally.wrote(reply.answer);
        Ok(())
    }

    /// A text goes to both readers, with so many words to fill; the first bad line is returned, 0 where there is none.
    fn read(&mut self, text: &[u8], behind: &[u8], count: usize) -> Result<usize, Difference> {
        let reply = Reading { sort: &REQUEST, text, behind, count }.compare(&self.sides)?;
        self.tally.read(reply.answer);
        Ok(reply.number as usize)
    }
}
